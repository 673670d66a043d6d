#!/usr/bin/env python3
"""Brings the repository's own names in specs, proofs and clauses to today's spelling.

A fact or a type is in upper camel case, every other word in snake case. Names that the
code has, that Rattle makes or that the library has keep their spelling. To be run once,
right after the kit's own port.py, at the top of the repository. `--dry` only tells.
"""

import glob
import re
import sys

# A definition, lemma or field with a dash in its name, at its signature.
SIGNATURE = re.compile(
    r"^[ \t]*(?:(?:abbrev|unfoldable|opaque|pub|record|data)[ \t]+)*"
    r"([^\s:(){}.,;]*-[^\s:(){}.,;]*)[ \t]*(?:\([^)]*\)[ \t]*)*:",
    re.M,
)
# Names of our own that no signature gives: imported under another name, or bound in a term.
BOUND = """actions-in arrival-of at-met at-stride counted-in matching-label most-a most-b
some-a some-b partner-of Goes_on whole-seconds word-code word-place word-offers-back
word-offers-exact word-rows-back word-rows-exact""".split()
# Names that would fall together with a type of the code, and one that the kit's script
# respelled first.
OTHERWISE = {
    "Goes_on": "GoesOn",
    "Word-fault": "WordAtFault",
    "Row-read": "RowIsRead",
    "Rows-read": "RowsAreRead",
}
TOKEN = re.compile(r"[^\s(){},;.«»⟦⟧λ↦|∷]+")


def spelled(name):
    if name in OTHERWISE:
        return OTHERWISE[name]
    parts = name.split("-")
    if name[0].isupper():
        return "".join(p[:1].upper() + p[1:] for p in parts)
    return "_".join(parts)


def code(line):
    """The line up to its comment."""
    at = min([i for i in (line.find("--"), line.find("//")) if i >= 0], default=len(line))
    return line[:at], line[at:]


def read(path):
    with open(path, encoding="utf-8") as f:
        return f.read()


def own_names(files):
    names = set(BOUND)
    for path in files:
        text = read(path)
        for m in SIGNATURE.finditer(text):
            line = text[m.start() :].lstrip("\n").split("\n")[0]
            if ": goal." not in line:
                names.add(m.group(1))
    return names


def main():
    antt = sorted(
        glob.glob("crates/*/specs/**/*.antt", recursive=True)
        + glob.glob("crates/*/proofs/**/*.antt", recursive=True)
    )
    names = own_names(antt)
    for path in antt + sorted(glob.glob("crates/*/src/**/*.rt", recursive=True)):
        text = read(path)
        tokens = set(TOKEN.findall("\n".join(code(l)[0] for l in text.split("\n"))))
        out = []
        for line in text.split("\n"):
            body, comment = code(line)
            out.append(TOKEN.sub(lambda m: spelled(m[0]) if m[0] in names else m[0], body) + comment)
        for n in sorted(names & tokens):
            if spelled(n) in tokens:
                print(f"{path}: {n} falls together with {spelled(n)}")
        new = "\n".join(out)
        if new != text and "--dry" not in sys.argv:
            with open(path, "w", encoding="utf-8") as f:
                f.write(new)
    by_new = {}
    for n in names:
        by_new.setdefault(spelled(n), []).append(n)
    for new, olds in sorted(by_new.items()):
        if len(olds) > 1:
            print(f"{olds} fall together as {new}")


if __name__ == "__main__":
    main()
