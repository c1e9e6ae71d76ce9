#!/usr/bin/env python3
"""Brings the repository's own antt names to one spelling: words in snake case (`after-form` becomes `after_form`).

usage: python3 tools/respell.py [FOLDER]      rewrites the files below FOLDER/crates (default: here) in place

A name is the repository's own where a file of specs/ or proofs/ defines it at its head, as a record's field or as a
constructor. Names that the check makes (goals and steps of a function's proof) and names of the library keep their spelling:
a file that imports a name from the library keeps it. Run it once, after port.py.
"""

import os
import re
import sys

NAME = r"[^\s(){}\[\].,;:∷λ→≡]+"
WORD = r"A-Za-z0-9_'\-₀-₉′⊎∥∘"
HEAD = re.compile(r"^(?:(?:abbrev|unfoldable|pub) )*(" + NAME + r")(?: \{[^}]*\}| \([^)]*\))* :(?: |$)")
FIELD = re.compile(r"^ +(?:(?:abbrev|unfoldable|pub) )*(" + NAME + r")(?: \{[^}]*\}| \([^)]*\))* :(?: |$)")
IMPORT = re.compile(r"^(?:ghost use|use) ([^\n]*?)\.\{([^}]*)\};?$", re.M)
OWN = re.compile(r"^Rattle\.(\w+)\.")


def files(root, ends=(".antt", ".rt")):
    for folder, dirs, names in os.walk(os.path.join(root, "crates")):
        dirs[:] = sorted(d for d in dirs if d != "out")
        for n in sorted(names):
            if n.endswith(ends):
                yield os.path.join(folder, n)


def read(p):
    with open(p, encoding="utf-8") as f:
        return f.read()


def snake(name):
    return name.replace("-", "_").replace("′", "'")


def main(root):
    crates = set(os.listdir(os.path.join(root, "crates")))
    own = set()
    for p in files(root, (".antt",)):
        made = "/proofs/" in p and os.path.basename(p) in ("Answers.antt", "Invariants.antt")
        inside = False
        for line in read(p).split("\n"):
            if not line.startswith(" ") and line.strip():
                inside = re.match(r"(pub )?(data|record|module|mutual)\b", line) is not None
            m = HEAD.match(line)
            if m and not (made and f": goal.{m[1]}" in line):
                own.add(m[1])
            m = FIELD.match(line)
            if m and inside:
                own.add(m[1])
    own = {n for n in own if snake(n) != n and re.match(r"[A-Za-z]", n)}
    clash = {}
    for n in own:
        clash.setdefault(snake(n), set()).add(n)
    taken = set()
    for p in files(root):
        taken |= set(re.findall(r"(?<![%s])[A-Za-z][%s]*(?![%s])" % (WORD, WORD, WORD), read(p)))
    for s, ns in sorted(clash.items()):
        if len(ns) > 1 or s in taken:
            print("falls together:", s, sorted(ns), "(in use)" if s in taken else "")
    token = re.compile(r"(?<![%s])(%s)(?![%s])" % (WORD, "|".join(sorted(map(re.escape, own), key=len, reverse=True)), WORD))
    changed = 0
    for p in files(root):
        text = read(p)
        foreign = set()
        for m in IMPORT.finditer(text):
            o = OWN.match(m[1] + ".")
            if not (o and o[1] in crates):
                for it in m[2].split(","):
                    foreign.add(it.strip().split(" as ")[-1].strip())

        def turn(line):
            if p.endswith(".rt") and line.lstrip().startswith("//"):
                return line
            if re.match(r"^(?:pub )?[\w-]+ : goal\.", line):
                return line
            m = IMPORT.match(line)
            if m:
                o = OWN.match(m[1] + ".")
                if not (o and o[1] in crates):
                    return line
            return token.sub(lambda m: m[1] if m[1] in foreign else snake(m[1]), line)

        if p.endswith(".rt"):
            # clauses, ghost items and ghost imports alone: a hyphen in code is a minus
            out = []
            for line in text.split("\n"):
                s = line.strip()
                if re.match(r"(requires|ensures|ghost)\b", s):
                    out.append(turn(line))
                else:
                    out.append(line)
            new = "\n".join(out)
        else:
            new = "\n".join(turn(l) for l in text.split("\n"))
        if new != text:
            with open(p, "w", encoding="utf-8") as f:
                f.write(new)
            changed += 1
    print(f"respell: {len(own)} names, {changed} files")


if __name__ == "__main__":
    main(sys.argv[1] if len(sys.argv) > 1 else ".")
