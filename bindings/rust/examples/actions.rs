//! Prints the actions of a section file: actions FILE

use std::{env, fs, process};

use mizgalon::{Action, Value};

fn line(action: &Action) -> String {
    let list =
        |values: &[Value]| values.iter().map(Value::to_string).collect::<Vec<_>>().join(", ");
    match action {
        Action::Op { operation, inputs, output } => {
            let to = output.map_or(String::new(), |output| format!("{output} = "));
            format!("{to}{operation:?} {}", list(inputs)).trim_end().into()
        }
        Action::AddressOf { output, base } => format!("{output} = AddressOf {base:?}"),
        Action::LoadRegister { pointer, output, size } => {
            format!("{output} = LoadRegister:{size} {pointer}")
        }
        Action::StoreRegister { pointer, value, size } => {
            format!("StoreRegister:{size} {}", list(&[*pointer, *value]))
        }
        Action::DelaySlot => "DelaySlot".into(),
        Action::Build(subtable) => format!("Build {subtable}"),
    }
}

fn main() {
    let Some(path) = env::args().nth(1) else {
        eprintln!("actions: name a section file");
        process::exit(2);
    };
    let file = fs::read(&path).unwrap_or_else(|error| {
        eprintln!("actions: {path}: {error}");
        process::exit(2);
    });
    match mizgalon::resolve(&file) {
        Ok(section) => {
            section.actions.iter().for_each(|action| println!("{}", line(action)));
            if let Some(export) = section.export {
                println!("export {export:?}");
            }
            println!("{} points", section.points);
        }
        Err(refusal) => println!("{refusal}"),
    }
}
