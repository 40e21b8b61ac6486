#!/usr/bin/env python3
"""Gives this repository's own definitions and lemmas the spelling of today's Rattle.

usage: python3 tools/respell.py            at the top of the repository, once, after the kit's port.py

Words are in snake case (in-keys becomes in_keys), types and statements in camel case (No-item becomes NoItem). Only
names that the repository declares in specs/ and proofs/, its ghost names, and the names that a file gives to what it
imports (`use .. as ..`) are respelled. A name that is also that of a goal keeps its spelling everywhere, and a name that
a file imports from the library keeps it in that file. Names that would fall together are printed, and then nothing is
written, but with the word --anyway.
"""
import re
import sys
from pathlib import Path

NAME = r"[A-Za-zα-ωΑ-Ω][\w']*"
TOKEN = re.compile(r"(?<![\w'-])(" + NAME + r"(?:-[\w']+)*)(?![\w'-])")
DECLARED = re.compile(r"(?m)^[ \t]*((?:(?:abbrev|unfoldable|pub|data|record|\|) +)*)(" + NAME + r"(?:-[\w']+)*)(?= *(?:: | *\{| *\())")
LET = re.compile(r"\blet (" + NAME + r"(?:-[\w']+)+) *(?==|:)")
USE = re.compile(r"\b(?:pub +)?use +([^;\n{]*?)(?:\.\{([^}]*)\})?(?: as [\w'-]+)?(?=;|\n|$)")
OWN = re.compile(r"Rattle\.(\w+)\b")
# names whose plain respelling is taken by a word of the library
OTHERWISE = {"bit-or": "bit_of_or"}


def respelled(name):
    """The name in today's spelling."""
    if name in OTHERWISE:
        return OTHERWISE[name]
    parts = name.split("-")
    if name[0].isupper():
        return "".join(p[:1].upper() + p[1:] for p in parts)
    return "_".join(parts)


def is_goal(text, m):
    """Whether a declaration answers a goal or gives an invariant: Rattle made its name."""
    after = text[m.end():m.end() + 400]
    return re.match(r"(?:\s*\{[^}]*\})*\s*:\s*(?:goal|given)\." + re.escape(m[2]) + r"(?![\w'-])", after) is not None


def files(root):
    for p in sorted(root.glob("crates/*/*/**/*")):
        if p.suffix in (".rt", ".antt") and "out" not in p.relative_to(root).parts:
            yield p


def aliases(text):
    """The dashed names that a file gives to what it imports."""
    return set(re.findall(r"\bas (" + NAME + r"(?:-[\w']+)+)", text))


def declared(text):
    """The dashed names that a proof or spec file declares."""
    names, made = set(), set()
    for m in DECLARED.finditer(text):
        if "-" in m[2]:
            (made if is_goal(text, m) else names).add(m[2])
    names |= {m[1] for m in LET.finditer(text)} | aliases(text)
    return names - made, made


def borrowed(text, crates):
    """The names that a file imports from the library."""
    out = set()
    for m in USE.finditer(text):
        own = OWN.match(m[1].strip())
        if m[2] and not (own and own[1] in crates):
            out |= {w for w in TOKEN.findall(m[2])}
    return out


def main():
    root = Path(".")
    crates = {p.name for p in root.glob("crates/*")}
    texts = {p: p.read_text() for p in files(root)}
    names, made = set(), set()
    for p, t in texts.items():
        if p.suffix == ".antt":
            a, b = declared(t)
            names |= a
            made |= b
        else:
            names |= set(re.findall(r"(?m)^\s*(?:pub )?ghost ([a-z]\w*(?:-\w+)+)", t)) | aliases(t)
    for n in sorted(names & made):
        print("a goal has this name too, and keeps it:", n, file=sys.stderr)
    names -= made
    turned = {n: respelled(n) for n in names}

    fallen = []
    back = {}
    for n, r in sorted(turned.items()):
        if r in back:
            fallen.append(f"{n} and {back[r]} both become {r}")
        back[r] = n
    new = {}
    for p, t in texts.items():
        keep = borrowed(t, crates)
        # a function of the program may have the name of the definition that its contract cites
        plain = set(TOKEN.findall(t)) - set(re.findall(r"\bfn (\w+)", t)) - {f for part in p.parts for f in part.split("+")}
        here = set()

        def turn(m):
            w = m[1]
            if w not in turned or w in keep:
                return w
            before = t[max(0, m.start() - 5):m.start()]
            if before.endswith("goal.") or before.endswith("given."):
                return w
            here.add(w)
            return turned[w]

        new[p] = TOKEN.sub(turn, t)
        for w in sorted(here):
            if turned[w] in plain:
                fallen.append(f"{p}: {w} becomes {turned[w]}, which stands there already")
    if fallen and "--anyway" not in sys.argv:
        print("\n".join(fallen))
        print(f"{len(fallen)} places where names fall together: nothing written", file=sys.stderr)
        return 1
    changed = 0
    for p, t in texts.items():
        if new[p] != t:
            p.write_text(new[p])
            changed += 1
    print(f"{len(turned)} names respelled in {changed} files")
    return 0


if __name__ == "__main__":
    sys.exit(main())
