#!/usr/bin/env python3
"""own_if: this repository's own choice by a test, `if b then x else y`, becomes `when b then x else y`. Run once, after
snake_names.py.

Today's library has an operator of the first spelling, with other precedence and always open, and the gate lets nothing else
stand under it. Only the spelling changes here. Run `rt fmt` in each crate afterwards. Needs python3, nothing else."""
import re
from pathlib import Path

ROOT = Path(__file__).resolve().parent.parent
WORD = re.compile(r"(?<![^\s(){}\[\];,=])if(?![^\s(){}\[\];,])")


def code_text(code):
    return WORD.sub("when", code.replace("if◌then◌else◌", "when◌then◌else◌"))


def antt_text(text):
    lines = []
    for line in text.split("\n"):
        code, mark, comment = line.partition("--")
        if mark and not (code == "" or code[-1].isspace()):
            code, mark, comment = line, "", ""
        lines.append(code_text(code) + mark + comment.replace("if◌then◌else◌", "when◌then◌else◌"))
    return "\n".join(lines)


def edit_text(text):
    if "file: src/" in text:
        return text
    return "\n".join(code_text(line) if line.startswith(("old:", "new:")) else line for line in text.split("\n"))


def main():
    for path in sorted(ROOT.glob("crates/*/**/*")):
        if "out" in path.parts or not path.is_file() or path.suffix not in (".antt", ".edit"):
            continue
        text = path.read_text()
        new = antt_text(text) if path.suffix == ".antt" else edit_text(text)
        if new != text:
            path.write_text(new)


main()
