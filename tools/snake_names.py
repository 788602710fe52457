#!/usr/bin/env python3
"""Spells the definitions and lemmas of specs/ and proofs/ in snake case, and types in camel case.

usage: python3 tools/snake_names.py        once, at the top of the repository, after the kit's port.py

A name is turned if a file of specs/ or proofs/ declares it. Goals, invariants and measures, whose names the check
makes, stay, and so does all of src/ that is no clause: no name of Rust has a capital inside a small word or a dash.
"""
import os
import re

WORD = r'[^\s(){}.;,@"«»`\[\]]+'
DECLARED = re.compile(
    r"\s*(?:(?:abbrev|unfoldable|data|record|pub)\s+)*(" + WORD + r")((?:\s+" + WORD + r")*)"
    r"((?:\s*(?:\([^()]*(?:\([^()]*\)[^()]*)*\)|\{[^{}]*\}))*)\s+:\s"
)
# two names that would fall together, or one that would meet a function of src/
CHOSEN = {
    "same-verb": "verbs_same",
    "with-mark": "mark_with",
    "few-steps": "steps_few",
    "with-word": "word_with",
    "equal-int": "int_is_equal",
    "text-as": "text_is",
    "with-number": "number_with",
    "goOn": "going_on",
    "atomOf": "word_atom",
    "withDigit": "append_digit",
    "takesMeasure": "has_measure",
    "tokenAt": "token_from",
}


def turned(name):
    if name in CHOSEN:
        return CHOSEN[name]
    if name[0].isupper():
        head, *rest = name.split("-")
        return head + "".join(part[:1].upper() + part[1:] for part in rest)
    return re.sub(r"(?<=[a-z0-9])[A-Z]", lambda m: "_" + m[0].lower(), name).replace("-", "_")


def texts():
    for folder, below, files in os.walk("crates"):
        below[:] = sorted(b for b in below if b != "out")
        for name in sorted(files):
            if name.endswith((".antt", ".rt")):
                yield os.path.join(folder, name)


def declared(text):
    for line in text.split("\n"):
        found = DECLARED.match(line)
        if found and not re.search(r": goal\.", line):
            yield found[1]
            yield from found[2].split()


def main():
    all_texts = {path: open(path, encoding="utf-8").read() for path in texts()}
    names = {n for path, text in all_texts.items() if path.endswith(".antt") for n in declared(text)}
    table = {n: turned(n) for n in names if n[0].isalpha() and turned(n) != n}
    reached = list(table.values()) + [n for n in names if n not in table]
    double = sorted(n for n in set(reached) if reached.count(n) > 1)
    if double:
        raise SystemExit(f"these names fall together: {double}")
    some = "|".join(re.escape(n) for n in sorted(table, key=len, reverse=True))
    whole = re.compile(r'(?<![^\s(){}.;,@"«»`\[\]])(' + some + r')(?![^\s(){}.;,@"«»`\[\]])')
    for path, text in all_texts.items():
        new = whole.sub(lambda m: table[m[1]], text)
        if new != text:
            with open(path, "w", encoding="utf-8") as file:
                file.write(new)
    for old, new in sorted(table.items()):
        print(f"{old}\t{new}")


main()
