#!/usr/bin/env python3
"""Brings the repository's own definitions and lemmas to snake case: a-name becomes a_name.

usage: python3 tools/respell.py [--dry]     at the top of the repository

It renames what the files of specs/ and proofs/ declare: definitions, lemmas, fields, constructors. Names that Rattle makes for a
goal, a measure or an invariant (`returns-in_ok-x`, `loop-x-preserved`) keep their dashes, as do names of the library.
Edits in must-fail/ are turned too. It tells with 'look:' where a new name stands in some file already, and turns it all the same.
"""

import os
import re
import sys

WORD = r"[^\s(){}\[\];,.:=λ→∀|⌜⌝`\"]+"
DECLARED = re.compile(r"^\s*(?:(?:abbrev|unfoldable|pub|data|record|mutual|ruleset)\s+)*(" + WORD + r")\s*(?:\{[^}]*\}\s*|\([^)]*\)\s*)*:(?=\s)")
MADE = re.compile(r":\s*(?:goal|need|goals|needs)\.")
SEVERAL = re.compile(r"^\s*(?:pub\s+)?(" + WORD + r"(?:\s+" + WORD + r")+)\s*:(?=\s)")
TOKEN = re.compile(r"[A-Za-zℕℤ_][A-Za-z0-9ℕℤ_'-]*(?:-[A-Za-z0-9ℕℤ_']+)+")


def files(root):
    for folder, dirs, names in os.walk(os.path.join(root, "crates")):
        dirs[:] = sorted(d for d in dirs if d not in ("out", "data"))
        for n in sorted(names):
            if n.endswith((".antt", ".rt", ".edit")):
                yield os.path.join(folder, n)


def read(path):
    with open(path, encoding="utf-8") as f:
        return f.read()


def made_in(text):
    return {DECLARED.match(l).group(1) for l in text.splitlines() if MADE.search(l) and DECLARED.match(l)}


def declared_in(text):
    found = set()
    for l in text.splitlines():
        if l.lstrip().startswith("--"):
            continue
        m = DECLARED.match(l)
        if m and not MADE.search(l):
            found.add(m.group(1))
        m = SEVERAL.match(l)
        if m:
            found.update(w for w in m.group(1).split() if w != "pub")
    return found


def main():
    dry = "--dry" in sys.argv
    texts = {p: read(p) for p in files(".")}
    own, made = set(), set()
    for p, t in texts.items():
        if p.endswith(".antt"):
            own |= declared_in(t)
            made |= made_in(t)
    turned = {n: n.replace("-", "_") for n in own - made if "-" in n and TOKEN.fullmatch(n)}
    kept = {n for n in own - made if "-" in n and not TOKEN.fullmatch(n)}
    tokens = set()
    for p, t in texts.items():
        tokens.update(re.findall(r"[A-Za-z_][A-Za-z0-9_']*(?:-[A-Za-z0-9_']+)*", t))
    together = sorted(n for n in turned if turned[n] in tokens)
    for n in together:
        where = [p for p, t in texts.items() if re.search(r"(?<![\w-])" + re.escape(turned[n]) + r"(?![\w-])", t)]
        print("look:", n, "->", turned[n], "stands in", " ".join(where[:4]))
    for n in sorted(kept):
        print("kept:", n)
    changed = 0
    for p, t in texts.items():
        new = TOKEN.sub(lambda m: turned.get(m.group(0), m.group(0)), t)
        if new != t:
            changed += 1
            if not dry:
                with open(p, "w", encoding="utf-8") as f:
                    f.write(new)
    print(f"{len(turned)} names, {changed} files" + (" (nothing written)" if dry else ""))


main()
