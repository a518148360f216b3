#!/usr/bin/env python3
"""snake_names: brings this repository's own names in antt to the spelling of today's Rattle. Run once, after port.py.

Words become snake case (`sizeOf` is `size_of`). In a name, a dash stays where it joins two names (`length-filled`); before
or behind a plain word it becomes `_` (`run-again` is `run_again`). A lemma that would fall together with a word gets `_lem`.
Written for the files as port.py leaves them: specs/, proofs/, clauses of src/ and must-fail edits; names that Rattle makes
(goals, paths of a proof) and names of src/ stay. `--look` only prints the names and what fell together. Run `rt fmt` in each crate afterwards. Needs python3, nothing else."""
import re
import sys
from collections import defaultdict
from pathlib import Path

ROOT = Path(__file__).resolve().parent.parent
WORD = re.compile(r"[^\s(){}\[\];,.\"`«»=|]+")
CAMEL = re.compile(r"^[a-z][a-z0-9]*(?:[A-Z])")
DECLARED = re.compile(r"^\s*(?:unfoldable |abbrev |pub )*([^\s(){}\[\];,.\"`«»:]+) :", re.M)
RULESET = re.compile(r"^\s*(?:pub )?ruleset(?: pub)? ([^\s(){}\[\];,.\"`«»:]+)", re.M)


def snake(segment):
    """A segment of a name in snake case; one that begins with a capital is a type or a fact and stays."""
    if not CAMEL.match(segment):
        return segment
    text = re.sub(r"([A-Z]+)([A-Z][a-z])", r"\1_\2", segment)
    return re.sub(r"([a-z0-9])([A-Z])", r"\1_\2", text).lower()


def uncommented(text):
    return re.sub(r"--[^\n]*", "", text)


def own_files():
    specs = sorted(ROOT.glob("crates/*/specs/**/*.antt"))
    lemmas = sorted(ROOT.glob("crates/*/proofs/*.antt"))
    walks = sorted(set(ROOT.glob("crates/*/proofs/**/*.antt")) - set(lemmas))
    return specs, lemmas, walks


def declared(paths):
    names = set()
    for path in paths:
        text = uncommented(path.read_text())
        names.update(DECLARED.findall(text))
        names.update(RULESET.findall(text))
    return names


def functions():
    names = set()
    for path in ROOT.glob("crates/*/src/**/*.rt"):
        names.update(re.findall(r"\bfn (\w+)", path.read_text()))
    return names


def words_of(paths):
    """Words that stand alone: no part of a path."""
    words = set()
    for path in paths:
        text = uncommented(path.read_text())
        for found in WORD.finditer(text):
            if text[found.end():found.end() + 1] != "." and text[found.start() - 1:found.start()] != ".":
                words.add(found[0])
    return words


def all_words(paths):
    words = set()
    for path in paths:
        words.update(WORD.findall(uncommented(path.read_text())))
    return words


def respelled(name, known):
    parts = [snake(part) for part in name.split("-")]
    text = parts[0]
    for before, part in zip(parts, parts[1:]):
        joins = (before in known or before[:1].isupper()) and (part in known or part[:1].isupper())
        plain = re.match(r"^[\w']+$", before) and re.match(r"^[\w']+$", part)
        text += ("-" if joins or not plain else "_") + part
    return text


def mapping():
    specs, lemmas, walks = own_files()
    names = declared(specs + lemmas)
    words = words_of(specs + lemmas + walks)
    every = all_words(specs + lemmas + walks)
    known = {snake(name) for name in declared(specs) if "-" not in name} | functions()
    known -= {"at", "is", "on", "first", "section", "state", "name", "all", "any", "back", "found", "kind", "number", "value", "size"}
    chosen = {}
    for word in every:
        if "-" not in word and CAMEL.match(word):
            chosen[word] = snake(word)
    for name in names:
        if "-" in name and re.match(r"^[\w'-]+$", name) and name not in chosen:
            chosen[name] = respelled(name, known)
    chosen = {old: new for old, new in chosen.items() if old != new}
    by_new = defaultdict(set)
    for old, new in chosen.items():
        by_new[new].add(old)
    for new, olds in by_new.items():
        if new in words:
            olds.add(new)
    fallen = {new: olds for new, olds in by_new.items() if len(olds) > 1}
    return chosen, fallen, declared(specs)


def replaced(text, chosen):
    def word(match):
        found = match[0]
        if found in chosen:
            return chosen[found]
        bare = found.rstrip(":")
        return chosen[bare] + found[len(bare):] if bare in chosen else found

    return WORD.sub(word, text)


def antt_text(text, chosen):
    camel = {old: new for old, new in chosen.items() if "-" not in old}
    lines = []
    for line in text.split("\n"):
        code, mark, comment = line.partition("--")
        if mark and not (code == "" or code[-1].isspace()):
            code, mark, comment = line, "", ""
        comment = re.sub(r"`[^`]*`", lambda m: replaced(m[0], chosen), replaced(comment, camel))
        lines.append(replaced(code, chosen) + mark + comment)
    return "\n".join(lines)


def rt_text(text, chosen):
    parts = re.split(r'("(?:[^"\\\n]|\\.)*")', text)
    return "".join(part if i % 2 else replaced(part, chosen) for i, part in enumerate(parts))


def main():
    chosen, fallen, believed = mapping()
    if sys.argv[1:] == ["--look"]:
        for new, olds in sorted(fallen.items()):
            print("fell together:", new, *sorted(olds))
        print(len(chosen), "names")
        for old, new in sorted(chosen.items()):
            print(old, new)
        return
    moved = {}
    for new, olds in fallen.items():
        for old in olds:
            if "-" in old:
                chosen[old] = new + "_lem"
            elif old == new and any(CAMEL.match(other) for other in olds) and old not in believed:
                moved[old] = new + "_lem"
    for path in sorted(ROOT.glob("crates/*/**/*")):
        if "out" in path.parts or not path.is_file():
            continue
        if path.suffix == ".antt":
            lemmas = path.parent.name == "proofs"
            new = antt_text(path.read_text(), chosen | moved if lemmas else chosen)
        elif path.suffix in (".rt", ".edit"):
            new = rt_text(path.read_text(), chosen)
        else:
            continue
        if new != path.read_text():
            path.write_text(new)


main()
