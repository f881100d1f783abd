#!/usr/bin/env python3
"""Takes the library's `if .. then .. else ..` in place of the one that the crate basics defined, which today's gate refuses as a second of that name.

usage: python3 tools/plain_if.py [FILE..]    at the top of the repository; without names, every .antt and .rt file of the crates

The library's does not chain, so what follows an `else` as another `if` gets parentheses. A file that has been turned stays as it is.
"""
import os
import re
import sys

OPEN, CLOSE = "([{", ")]}"
# What ends an operand at its own level: weaker operators and words
ENDS = {"≡", "→", "×", "⊎", "↔", "in", "where", "↦", "|", ";", ","}
TOKEN = re.compile(r"--[^\n]*|\"(?:[^\"\\]|\\.)*\"|[()\[\]{},;]|[^\s()\[\]{},;]+|\n[ ]*|[ ]+")


def tokens(text):
    return TOKEN.findall(text)


GOES_ON = {"else", "then", "=", "(", "[", "{", "∙", "→", "×", "⊎", "++", "∷", "+", "-", "and", "or", "in"}


def chained(text):
    toks = tokens(text)
    out = []
    indent = 0
    # the brackets that are open, each with the indents of the lines where our parentheses in it began
    waiting = [[]]
    last = ""
    for i, tok in enumerate(toks):
        if tok.startswith("\n"):
            if last not in GOES_ON:
                while waiting[-1] and len(tok) - 1 <= waiting[-1][-1]:
                    out.append(")")
                    waiting[-1].pop()
            indent = len(tok) - 1
            out.append(tok)
            continue
        if tok in OPEN:
            waiting.append([])
        elif tok in CLOSE and len(waiting) > 1:
            out.append(")" * len(waiting.pop()))
        elif tok in ENDS and waiting[-1]:
            k = len(out)
            while k and not out[k - 1].strip():
                k -= 1
            out.insert(k, ")" * len(waiting[-1]))
            waiting[-1].clear()
        if tok == "if" and last == "else":
            out.append("(")
            waiting[-1].append(indent)
        out.append(tok)
        if tok.strip() and not tok.startswith("--"):
            last = tok
    out.append(")" * len(waiting[-1]))
    return "".join(out)


def imported(text, head):
    """The import moved from the crate basics to the library's prelude."""
    found = re.search(r"^((?:ghost )?use Rattle\.basics\.specs\.Basics\.\{)([^}]*)\}(;?)\n", text, re.M)
    names = [n.strip() for n in found[2].split(",")]
    names.remove("if◌then◌else◌")
    line = f"{found[1]}{', '.join(names)}}}{found[3]}\n" if names else ""
    text = text[: found.start()] + line + text[found.end() :]
    at = re.search(r"^((?:ghost )?use Rattle\.std\.specs\.Prelude\.\{)([^}]*)\}", text, re.M)
    if at:
        return text[: at.start()] + f"{at[1]}{at[2]}, if◌then◌else◌}}" + text[at.end() :]
    first = re.search(r"^(?:ghost )?use ", text, re.M)
    return text[: first.start()] + f"{head}use Rattle.std.specs.Prelude.{{if◌then◌else◌}}{found[3]}\n" + text[first.start() :]


def turn(path):
    with open(path, encoding="utf-8") as f:
        text = f.read()
    if not re.search(r"use Rattle\.basics\.specs\.Basics\.\{[^}]*if◌then◌else◌", text):
        if not path.endswith("basics/specs/Basics.antt") or "infixr 5 if◌then◌else◌" not in text:
            return
    new = text
    if path.endswith("basics/specs/Basics.antt"):
        new = re.sub(r"infixr 5 if◌then◌else◌\n(?:--[^\n]*\n)?abbrev pub if◌then◌else◌ :[^\n]*\n(?:if◌then◌else◌ [^\n]*\n)+\n", "", new)
    else:
        new = imported(new, "ghost " if path.endswith(".rt") else "")
    if path.endswith(".antt"):
        new = chained(new)
    with open(path, "w", encoding="utf-8") as f:
        f.write(new)
    print(path)


def main(names):
    if not names:
        names = [os.path.join(d, f) for d, _, fs in os.walk("crates") if "/out" not in d for f in fs if f.endswith((".antt", ".rt"))]
    for path in sorted(names):
        turn(path)


main(sys.argv[1:])
