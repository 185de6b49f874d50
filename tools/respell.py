#!/usr/bin/env python3
"""Spells this repository's own definitions and lemmas as today's Rattle does: words in snake case.

usage: python3 tools/respell.py [--list]     at the top of the repository, once, after the toolchain's own port.py

It renames what specs/ and proofs/ declare (definitions, lemmas, constructors, fields, variables), wherever it is cited:
in .antt files, in the clauses of .rt files, and between backticks in README.md and docs/. Functions of src/, variants,
strings, inputs and outputs keep their names. --list prints the renamings and changes nothing.
"""
import os
import re
import sys

# A name of the toolchain's own making, after a function, a step or a variant of src/, keeps that spelling.
MADE = re.compile(r"(^|-)(in|not|then|else|is|returns|peek)-[A-Z]|-returns-|^returns|^in-|^not-")
SPELLED = {"getD-overlaid": "get_or-overlaid", "getD-top": "get_or-top", "get_d_words": "get_or-words", "eqZ": "eq_z", "noTable": "no_table_fault"}
# Lemmas, constructors and fields that would fall together with a definition; each is a crate's own.
APART = {
    "compiler": {"one_code": "one_code_lem", "sum_left": "sum_left_lem"},
    "grammar": {"right_of": "using_right_of", "to_set": "using_to_set"},
    "reader": {"behind_sum": "behind_sum_lem"},
    "scanner": {"seen_by": "seen_by_lem"},
    "screen": {"size_in": "size_in_lem"},
}
# Facts, which are spelled as types.
FACTS = {
    "grammar": {
        "Ends-conjunct": "EndsConjunct", "Not-else": "NotElse", "No-else": "NoElse", "Reads-only": "ReadsOnly", "Reads-just": "ReadsJust",
        "Reads-all": "ReadsAll", "One-tree": "OneTree", "Goes_on": "GoesOn", "Goes-on": "GoesOn",
    },
}
FACTS["reader"] = FACTS["grammar"]
WORD = re.compile(r"(?<![\w'-])[a-z][\w'-]*")


def files(ends):
    for folder, dirs, names in os.walk("crates"):
        dirs[:] = sorted(d for d in dirs if d != "out")
        for name in sorted(names):
            if name.endswith(ends):
                yield os.path.join(folder, name)


def snake(word):
    return SPELLED.get(word) or re.sub(r"(?<=[a-z0-9])([A-Z])", lambda m: "_" + m.group(1).lower(), word)


def renamings():
    found = {}
    for path in files(".antt"):
        text = re.sub(r"--.*", "", open(path, encoding="utf-8").read())
        for word in WORD.findall(text):
            if word in SPELLED or (re.search(r"[a-z0-9][A-Z]", word) and not MADE.search(word)):
                found[word] = snake(word)
    return found


def main(argv):
    names = renamings()
    taken = {}
    for old, new in names.items():
        taken.setdefault(new, []).append(old)
    for new, olds in sorted(taken.items()):
        if len(olds) > 1:
            print(f"fall together: {', '.join(olds)} -> {new}")
    word = lambda names: re.compile(r"(?<![\w'-])(" + "|".join(sorted(map(re.escape, names), key=len, reverse=True)) + r")(?![\w'-])")
    pattern = word(names)
    spell = lambda m: names[m.group(1)]
    if "--list" not in argv:
        for path in files(".antt"):
            crate = path.split(os.sep)[1]
            apart = APART.get(crate, {}) | FACTS.get(crate, {})
            if apart:
                text = open(path, encoding="utf-8").read()
                open(path, "w", encoding="utf-8").write(word(apart).sub(lambda m: apart[m.group(1)], text))
    for path in files((".antt", ".rt")):
        text = open(path, encoding="utf-8").read()
        here = set(re.findall(r"[\w'-]+", text))
        both = sorted(names[w] for w in here & set(names) if names[w] in here)
        if both:
            print(f"look: {path} has both spellings of {', '.join(both)}")
        if "--list" not in argv:
            new = "\n".join(l if re.match(r'\s*[^"]*"[^"]*$', l) and path.endswith(".rt") else
                            re.sub(r'"[^"]*"|[^"]+', lambda m: m.group(0) if m.group(0).startswith('"') else pattern.sub(spell, m.group(0)), l)
                            for l in text.split("\n"))
            if new != text:
                open(path, "w", encoding="utf-8").write(new)
    pages = ["README.md"] + sorted(os.path.join("docs", f) for f in os.listdir("docs") if f.endswith(".md") and not f.startswith("PORT"))
    for path in pages:
        text = open(path, encoding="utf-8").read()
        new = re.sub(r"`[^`\n]*`", lambda m: pattern.sub(spell, m.group(0)), text)
        if "--list" not in argv and new != text:
            open(path, "w", encoding="utf-8").write(new)
    if "--list" in argv:
        for old, new in sorted(names.items()):
            print(f"{old} -> {new}")
    print(f"{len(names)} names")
    return 0


if __name__ == "__main__":
    sys.exit(main(sys.argv[1:]))
