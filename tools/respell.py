#!/usr/bin/env python3
"""Respells this repository's own definitions and lemmas as today's Rattle does: words in snake case, types, facts and modules in camel case.

usage: python3 tools/respell.py [--dry]        at the top of the repository, once, after port.py

A name is turned where an .antt file of crates/ declares it and a part of it (parts are joined by dashes) begins small and has a capital
within. Names of Rust items and strings stay as they are; must-fail edits are turned with the text
that they name. With --dry it lists what it would turn, and which new names a file that is turned has already.
"""

import os
import re
import sys

DECLARED = re.compile(r"^\s*(?:(?:pub|abbrev|unfoldable)\s+)*([^\s:(){}.,;]+)\s*:(?!:)\s")
RECORD = re.compile(r"^\s*(?:(?:pub|abbrev|unfoldable)\s+)*(?:record|data|ruleset)\s+([^\s:(){}.,;]+)")
FIELD = re.compile(r"[;{]\s*(?:pub\s+)?([^\s:(){}.,;]+)\s*:\s")
TOKEN = re.compile(r"[^\s`(){}\[\]⦃⦄.,;:@\"λ«»⌜⌝]+")
STRING = re.compile(r'"(?:[^"\\]|\\.)*"')
# words of the older library that own lemmas carry in their names
WORDS = {"getD": "get_or", "eqb": "eqb"}
# names that would fall together with another: the test on an absent tag with the Rust function on two tags, a lemma with its function
OWN = {"atOrBelow": "is_at_or_below", "step_count": "step_count_lem"}

# what port.py turned in code and not in comments and edits, and two local names
ALSO = {"isNumber": "is_number", "isTaken": "is_taken", "stepOf": "step_of", "lineAt": "line_at", "wasTaken": "was_taken", "cellMeans": "cell_means"}


def files():
    for folder, dirs, names in os.walk("crates"):
        dirs[:] = sorted(d for d in dirs if d != "out")
        for n in sorted(names):
            if n.endswith((".rt", ".antt", ".edit")):
                yield os.path.join(folder, n)


def part(p):
    if p in WORDS:
        return WORDS[p]
    if p[:1].islower() and re.search(r"[a-z0-9][A-Z]", p):
        return re.sub(r"(?<=[a-z0-9])([A-Z])", lambda m: "_" + m[1].lower(), p)
    return p


def turned(name):
    return OWN.get(name) or "-".join(part(p) for p in name.split("-"))


def declared(texts):
    own = set()
    for p, t in texts.items():
        if p.endswith(".antt"):
            for line in t.splitlines():
                m = DECLARED.match(line) or RECORD.match(line)
                if m:
                    own.add(m[1])
                own.update(FIELD.findall(line))
    return own


def spelled(text, names, has_strings):
    def word(m):
        w = m[0]
        return names.get(w, w)

    if not has_strings:
        return TOKEN.sub(word, text)
    out, at = [], 0
    for m in STRING.finditer(text):
        out += [TOKEN.sub(word, text[at : m.start()]), m[0]]
        at = m.end()
    return "".join(out + [TOKEN.sub(word, text[at:])])


def main(argv):
    texts = {p: open(p, encoding="utf-8").read() for p in files()}
    names = {n: turned(n) for n in declared(texts) if turned(n) != n}
    names |= ALSO
    dry = "--dry" in argv
    taken = {}
    for n, to in names.items():
        taken.setdefault(to, []).append(n)
    for to, old in sorted(taken.items()):
        if len(old) > 1:
            print("fall together:", to, old)
    for p, t in sorted(texts.items()):
        new = spelled(t, names, not p.endswith(".antt"))
        if new == t:
            continue
        words = set(TOKEN.findall(t))
        for n in sorted(w for w in words if w in names and names[w] in words):
            print("look:", p, n, names[n])
        if not dry:
            with open(p, "w", encoding="utf-8") as f:
                f.write(new)
    print(len(names), "names")
    if dry:
        print(" ".join(sorted(f"{n}:{to}" for n, to in names.items())))


if __name__ == "__main__":
    main(sys.argv[1:])
