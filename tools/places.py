"""Counts the places of docs/DESIGN-PASS.md in another way than by grep: from the text without comments and strings, function by function.
Call: tools/places.py COMMIT"""

import collections
import itertools
import re
import subprocess
import sys

NOTHING = re.compile(r'//[^\n]*|b?"(?:\\.|[^"\\])*"|b?\'(?:\\.|[^\'\\])\'')
KIND = re.compile(r"\b(?:kind|code|op|rule|tag|plain)$")


def sources(commit):
    """Each source file of a library or program, without comments and strings."""
    listed = subprocess.run(["git", "ls-tree", "-r", "--name-only", commit, "crates"], capture_output=True, text=True, check=True).stdout
    for path in listed.split():
        if re.match(r"crates/\w+/src/.*\.rt$", path):
            text = subprocess.run(["git", "show", f"{commit}:{path}"], capture_output=True, text=True, check=True).stdout
            yield path.split("/")[1], path, NOTHING.sub(" ", text)


def closing(text, at):
    """Where the bracket at a place is closed."""
    deep = 0
    for i in range(at, len(text)):
        deep += (text[i] in "([{") - (text[i] in ")]}")
        if deep == 0:
            return i + 1
    return len(text)


def functions(text):
    """Name, parameters and body of each function."""
    for m in re.finditer(r"\bfn (\w+)(?:<[^(]*>)?\(", text):
        end = closing(text, m.end() - 1)
        body = text.find("\n{", end)
        one_line = re.compile(r"[^\n{]*\{").match(text, end)
        start = one_line.end() - 1 if one_line else body + 1
        parameters = [re.sub(r"\s+", " ", p).strip() for p in re.split(r",(?![^<(\[]*[>)\]])", text[m.end() : end - 1])]
        yield m[1], [p for p in parameters if ":" in p], text[start : closing(text, start)] if start > 0 else ""


def shape(body):
    """A body with its numbers, constants and names of functions and fields taken out, its keywords left."""
    keep = {"if", "else", "match", "for", "while", "let", "mut", "return", "Ok", "Err", "Some", "None", "in", "as"}
    return re.sub(r"\w+", lambda m: m[0] if m[0] in keep else "x", re.sub(r"\s+", " ", body))


def main(commit):
    count, groups, shapes, enums = collections.Counter(), collections.Counter(), collections.defaultdict(list), []
    for crate, path, text in sources(commit):
        count["while or loop"] += len(re.findall(r"\b(?:while|loop)\b", text))
        count["for over a range"] += len(re.findall(r"\bfor\s+\S+\s+in\s+[^{]*\.\.", text))
        count["as"] += len(re.findall(r"\bas\s+(?:u8|u16|u32|u64|usize)\b", text))
        count["arrays of zeros"] += len(re.findall(r"\[\s*0\w*\s*;", text))
        for m in re.finditer(r"\benum (\w+)[^{]*\{", text):
            variants = re.findall(r"\n    (\w+)", text[m.start() : closing(text, m.end() - 1)])
            if len(variants) == 2:
                enums.append(f"{crate}::{m[1]} ({', '.join(variants)})")
        for m in re.finditer(r"\bstruct \w+[^{;]*\{([^}]*)\}", text):
            count["kinds as numbers, in fields"] += sum(bool(KIND.search(f.split(":")[0].strip())) and f.split(":")[1].strip() == "u64" for f in m[1].split(",") if ":" in f)
        for name, parameters, body in functions(text):
            count["functions"] += 1
            count["kinds as numbers, in parameters"] += sum(bool(KIND.search(p.split(":")[0])) and p.endswith(": u64") for p in parameters)
            for pair in itertools.combinations(sorted(parameters), 2):
                groups[pair] += 1
            if body.count(";") + body.count("=>") >= 4:
                shapes[crate, shape(body)].append(name)
    for what, many in sorted(count.items()):
        print(f"{what}: {many}")
    print("enums of two variants:", "; ".join(sorted(enums)) or "none")
    print("functions of one shape:", "; ".join(f"{k[0]}: {', '.join(v)}" for k, v in sorted(shapes.items()) if len(v) > 1) or "none")
    print("parameters that stand together in 20 functions and more:")
    for pair, many in groups.most_common():
        if many >= 20:
            print(f"  {many}: {', '.join(pair)}")


if __name__ == "__main__":
    if len(sys.argv) != 2:
        sys.exit("tools/places.py: call it with a commit, as tools/places.py HEAD")
    main(sys.argv[1])
