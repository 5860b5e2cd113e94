#!/usr/bin/env python3
"""Spells this repository's own definitions, lemmas and theorems in snake case, and its propositions and types in camel case.

usage: python3 tools/respell.py       at the top of the repository, once

A name is taken from the declarations in specs/ and proofs/ (a function's own answers aside, whose names the prover gives).
Names of the library and of functions in src/ stay, and so does what stands in quotes. A new name that would meet another is listed in APART.
Text in comments and in docs/ is turned too, and the files of must-fail edits.
"""

import glob
import re
import sys

# A name that would fall together with another one, or would read like a field or function of the code.
APART = {
    "Good-limits": "GoodEndLimits",
    "Good-permitted": "GoodEndPermitted",
    "pulled-from": "is_pulled",
    "out-high": "out_high_is",
    "out-low": "out_low_is",
    "sp-high": "sp_high_is",
    "takes-input": "takes_input_bytes",
}
LOCALS = ["aim-in"]
ANSWERS = ("Answers.antt", "Invariants.antt", "Choices.antt", "Proof.antt")
DECLARED = [
    re.compile(r'^[ \t]*(?:(?:abbrev|unfoldable|pub|data|record|mutual)\s+)*([^\s(){}.;,@"«»:]+)(?:\s+[({][^:\n]*:[^)}\n]*[)}])*\s+:(?:\s|$)', re.M),
    re.compile(r'\b(?:data|record|module)\s+(?:pub\s+)?([^\s(){}.;,@"«»:]+)'),
]
TOKEN = re.compile(r'"[^"\n]*"|[^\s(){}.;,@"«»`\'|:]+')


def texts(*ends):
    for end in ends:
        for path in sorted(glob.glob("crates/**/*" + end, recursive=True)):
            if "/out/" not in path:
                yield path


def spelled(name):
    if name in APART:
        return APART[name]
    if name[0].isupper():
        return "".join(part[0].upper() + part[1:] for part in name.split("-"))
    return name.replace("-", "_")


def declared():
    found, every = set(LOCALS), set()
    for path in texts(".antt"):
        if path.endswith(ANSWERS):
            continue
        with open(path, encoding="utf-8") as file:
            text = re.sub(r"--.*", "", file.read())
        for form in DECLARED:
            for match in form.finditer(text):
                every.add(match[1])
                if re.search(r"\w-\w", match[1]):
                    found.add(match[1])
    return found, every


def main():
    found, every = declared()
    table = {name: spelled(name) for name in found}
    together = [f"{a} and {b}: {table[a]}" for a in table for b in table if a < b and table[a] == table[b]]
    together += [f"{name}: {new}" for name, new in table.items() if new in every]
    if together:
        print("fall together: " + "; ".join(sorted(together)))
        return 1
    turn = lambda match: match[0] if match[0].startswith('"') else table.get(match[0], match[0])
    changed = 0
    for path in [*texts(".antt", ".rt", ".edit"), *sorted(glob.glob("docs/*.md")), "README.md"]:
        with open(path, encoding="utf-8") as file:
            old = file.read()
        new = TOKEN.sub(turn, old)
        if new != old:
            changed += 1
            with open(path, "w", encoding="utf-8") as file:
                file.write(new)
    print(f"{len(table)} names, {changed} files")
    return 0


sys.exit(main())
