"""Lists places in crates/*/src that another form may suit better: a second way of counting, beside grep.

    python3 tools/places.py [FOLDER]

Prints, each with its functions: parameters that stand together in three functions or more, clauses that stand in three or
more, bodies that are alike but for names and numbers, loops that are no `for`, and fields that are flags. Tests are left out.
A row is a place to look at and no verdict.
"""
import collections
import itertools
import pathlib
import re
import sys

WORD = re.compile(r"[A-Za-z_][A-Za-z0-9_]*|\d[\d_]*|\S")
KEYWORDS = {"match", "if", "else", "return", "let", "Ok", "Err", "Some", "None", "self", "for", "in", "mut", "as"}


def functions(text):
    """(name, parameters, clauses, body) of each function, tests left out."""
    text = text.split("#[cfg(test)]")[0]
    for found in re.finditer(r"^( *)(?:pub(?:\(crate\))? )?(?:final )?fn (\w+)(?:<[^>]*(?:->[^>]*)?>)?\(", text, re.M):
        depth, at = 1, found.end()
        while depth:
            depth += {"(": 1, ")": -1}.get(text[at], 0)
            at += 1
        inside = text[found.end() : at - 1]
        opens = re.compile(r"^%s\{$|\{$" % found[1], re.M).search(text, at)
        ends = re.compile(r";$", re.M).search(text, at)
        closes = re.compile(r"^%s\}" % found[1], re.M).search(text, at)
        has_body = opens and closes and not (ends and ends.start() < opens.start())
        rest = text[at : opens.start() if has_body else ends.end()]
        clauses = re.findall(r"(?:requires|ensures)\*?(?: \w+)? \{ (.*) \};?$", rest, re.M)
        body = text[opens.end() : closes.start()] if has_body else ""
        parameters = re.findall(r"(\w+): ([^,]+(?:<[^>]*>)?)", inside)
        yield found[2], parameters, clauses, body


def shape(body):
    """A body with each name and number replaced by its first place of standing."""
    names = {}
    out = []
    for word in WORD.findall(re.sub(r"//.*", "", body)):
        if word in KEYWORDS or not (word[0].isalnum() or word[0] == "_"):
            out.append(word)
        else:
            out.append(str(names.setdefault(word, len(names))))
    return " ".join(out)


def show(title, rows):
    print("%s: %d" % (title, len(rows)))
    for what, where in rows:
        print("    %s: %s" % (what, ", ".join(where)))


def main():
    top = pathlib.Path(sys.argv[1] if len(sys.argv) > 1 else ".")
    pairs, clauses, bodies = (collections.defaultdict(list) for _ in range(3))
    loops, flags = [], []
    for file in sorted(top.glob("crates/*/src/**/*.rt")):
        crate = file.parts[-3]
        if crate == "cases":
            continue
        text = file.read_text()
        for name, parameters, said, body in functions(text):
            place = "%s/%s %s" % (crate, file.stem, name)
            for pair in itertools.combinations(sorted(set(parameters)), 2):
                pairs["%s: %s and %s: %s" % (pair[0] + pair[1])].append(place)
            for clause in said:
                clauses[re.sub(r"\b(?:self|out|page|bytes)\b", "x", clause)].append(place)
            if len(WORD.findall(body)) > 2:
                bodies[shape(body)].append(place)
            loops += [(word, [place]) for word in re.findall(r"^ *(while|loop)\b", body, re.M)]
        flags += [(field, ["%s/%s" % (crate, file.stem)]) for field in re.findall(r"^ *(?:pub )?(\w+): bool,", text, re.M)]
    show("parameters together", [(k, v) for k, v in pairs.items() if len(v) > 2])
    show("clauses repeated", [(k, v) for k, v in clauses.items() if len(v) > 2])
    show("bodies alike", [(k[:60], v) for k, v in bodies.items() if len(v) > 1])
    show("loops that are no for", loops)
    show("flags", flags)


main()
