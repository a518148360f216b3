//! Makes the marked copy: puts calls into the original's text at places that are found by their
//! exact text. A place that is not found exactly as often as it should be ends the build.

use std::{env, fs, process};

struct Place {
    text: &'static str,
    times: usize,
    before: &'static str,
    after: &'static str,
}

const fn before(text: &'static str, times: usize, call: &'static str) -> Place {
    Place { text, times, before: call, after: "" }
}

const fn after(text: &'static str, call: &'static str) -> Place {
    Place { text, times: 1, before: "", after: call }
}

const SEMANTICS: [Place; 7] = [
    after("self.current_statement = statement;", "marks::begin(statement);"),
    after(
        "return Err(\"Export statement must be the last statement\".into());\n        }",
        "marks::count();",
    ),
    before("let old_mapping = std::mem::take(", 1, "marks::enter();"),
    after("self.scope.labels = old_labels;", "marks::leave();"),
    before("self.semantics.actions.push(", 5, "marks::push();"),
    before(
        "self.semantics\n                    .actions\n                    .push(",
        1,
        "marks::push();",
    ),
    before(
        "self.errors.push((self.current_statement, msg));",
        1,
        "marks::record(self.current_statement);",
    ),
];

const SCOPE: [Place; 2] = [
    before("self.temporaries.push(PcodeTmp {", 2, "marks::temporary();"),
    before(
        "self.next_label_id = self.next_label_id.checked_add(1)",
        1,
        "marks::label(next_label);",
    ),
];

fn mark(text: String, place: &Place) -> Result<String, String> {
    let found = text.matches(place.text).count();
    if found != place.times {
        return Err(format!("{:?} stands {found} times, not {}.", place.text, place.times));
    }
    let marked = format!("{} {} {}", place.before, place.text, place.after);
    Ok(text.replace(place.text, &marked))
}

fn mark_file(path: &str, places: &[Place]) -> Result<(), String> {
    let text = fs::read_to_string(path).map_err(|e| format!("{path}: {e}"))?;
    let text = places.iter().try_fold(text, mark)?;
    fs::write(path, text).map_err(|e| format!("{path}: {e}"))
}

fn main() {
    let folder = env::args().nth(1).unwrap_or_else(|| {
        eprintln!("The folder of the copied constructor sources is missing.");
        process::exit(2);
    });
    let done = mark_file(&format!("{folder}/semantics.rs"), &SEMANTICS)
        .and_then(|()| mark_file(&format!("{folder}/mod.rs"), &SCOPE));
    if let Err(message) = done {
        eprintln!("The marks do not fit the original's text: {message}");
        process::exit(1);
    }
}
