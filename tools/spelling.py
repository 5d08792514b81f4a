#!/usr/bin/env python3
"""Spells the repository's own definitions, lemmas and fields in snake case: a dash in such a name becomes an underscore.

usage: python3 tools/spelling.py      at the top of the repository, once, after port.py

A name is the repository's own if a file of specs/, or a lemma file of proofs/, declares it. Names of the kit's library keep their
spelling, and so do goals, exported C names, functions of src/ and strings. Says which new names stood in the tree before.
"""

import glob
import os
import re
import sys

PART = r"[^\s(){}\[\];,.:λ⟦⟧\"`|]"
DECLARED = re.compile(
    rf"^\s*(?:(?:pub|abbrev|unfoldable|mutual)\s+)*((?:{PART}+\s+)*{PART}*-{PART}*(?:\s+{PART}+)*)\s+:(?!:)", re.M
)
USED = re.compile(r"\buse\s+([^\s{}]+?)\.\{([^}]*)\}")
WORD = re.compile(rf"{PART}+")
STRING = re.compile(r'b?"(?:[^"\\]|\\.)*"')


def read(path):
    with open(path, encoding="utf-8") as f:
        return f.read()


def own_crate(module):
    parts = module.split(".")
    return len(parts) > 1 and parts[0] == "Rattle" and os.path.isdir(os.path.join("crates", parts[1]))


def main():
    specs = sorted(glob.glob("crates/*/specs/**/*.antt", recursive=True) + glob.glob("crates/*/proofs/*.antt"))
    proofs = sorted(set(glob.glob("crates/*/proofs/**/*.antt", recursive=True)) - set(specs))
    code = sorted(glob.glob("crates/*/src/**/*.rt", recursive=True))
    foreign, words = set(), set()
    for path in specs + proofs + code:
        text = read(path)
        words |= set(WORD.findall(text))
        for module, names in USED.findall(text):
            if not own_crate(module):
                foreign |= {n.split(" as ")[0].strip() for n in names.split(",")}
    own = set()
    for path in specs:
        for names in DECLARED.findall(re.sub(r"--.*", "", read(path))):
            own |= {n for n in names.split() if "-" in n.strip("-") and re.search(r"\w", n)}
    own -= foreign
    turned = {n: n.replace("-", "_") for n in own}
    for old, new in sorted(turned.items()):
        if new in words:
            print(f"look: {old}: {new} stood in the tree before")
    seen = {}
    for old, new in turned.items():
        if seen.setdefault(new, old) != old:
            print(f"look: {old} and {seen[new]} fall together in {new}")
    swap = lambda text: WORD.sub(lambda m: turned.get(m.group(0), m.group(0)), text)
    changed = 0
    for path in specs + proofs + code:
        text = read(path)
        if path in code:  # strings keep their words
            out, at = [], 0
            for m in STRING.finditer(text):
                out += [swap(text[at : m.start()]), m.group(0)]
                at = m.end()
            new = "".join(out) + swap(text[at:])
        elif path in proofs:  # a goal that is named as a definition keeps its name
            goals = set(re.findall(rf"^\s*(?:abbrev )?({PART}+) : (?:{PART}+ : )?tie\.", text, re.M))
            new = WORD.sub(lambda m: m.group(0) if m.group(0) in goals else turned.get(m.group(0), m.group(0)), text)
        else:
            new = swap(text)
        if new != text:
            changed += 1
            with open(path, "w", encoding="utf-8") as f:
                f.write(new)
    print(f"spelling: {len(turned)} names, {changed} files")


if __name__ == "__main__":
    sys.exit(main())
