#!/usr/bin/env python3
"""Respells this repository's own definitions and lemmas: words in snake case, types in camel case.

usage: python3 tools/respell.py          at the top of the repository, once, right after the kit's port.py
       python3 tools/respell.py --list   prints what would be renamed

A name is ours if a file of specs/ or proofs/ declares it (a definition, lemma, field, constructor or binder) and no
file imports it from a library. Comments, strings and the code of src/ keep their words.
"""

import os
import re
import sys

IDENT = r"[^\W\d][\w'′₀-₉-]*"
TOKEN = re.compile(r"(?<![\w'′-])" + IDENT + r"(?![\w'′-])")

# names that would fall together with another of ours
APART = {"Well-formed": "WellFormedGraph", "bit-or": "bit_of_or", "bit-and": "bit_of_and"}


def files(root):
    for folder, dirs, names in os.walk(os.path.join(root, "crates")):
        dirs[:] = sorted(d for d in dirs if d != "out")
        for n in sorted(names):
            if n.endswith((".antt", ".rt")):
                yield os.path.join(folder, n)


def code_of(line):
    """The part of a line of antt before its comment."""
    if line.lstrip().startswith("--"):
        return ""
    at = line.find(" -- ")
    return line if at < 0 else line[:at]


def ghost_of(text):
    """The lines of a .rt file that hold ghost text."""
    out = []
    for i, line in enumerate(text.split("\n")):
        s = line.strip()
        if re.match(r"(pub )?ghost\b|requires\b|ensures\b", s):
            out.append(i)
    return out


def own_import(path, owned):
    return any(path.startswith("Rattle." + c + ".") for c in owned)


def gather(root):
    owned = sorted(os.listdir(os.path.join(root, "crates")))
    declared, foreign, goals = {}, set(), set()
    for p in files(root):
        text = open(p, encoding="utf-8").read()
        for m in re.finditer(r"^\s*(?:ghost |pub )*use ([\w.·]+)\.\{([^}]*)\}", text, re.M):
            if not own_import(m.group(1), owned):
                foreign.update(x.split(" as ")[0].strip() for x in m.group(2).split(","))
        if not p.endswith(".antt"):
            continue
        for line in text.split("\n"):
            code = code_of(line)
            g = re.match(r"\s*(?:abbrev |unfoldable |pub )*(" + IDENT + r") : goal\.", code)
            if g:
                goals.add(g.group(1))
                continue
            for m in re.finditer(r"(?:^|[\s({λ])((?:" + IDENT + r"\s+)*" + IDENT + r")\s+:\s", code):
                for n in m.group(1).split():
                    declared.setdefault(n, p)
            for m in re.finditer(r"\b(?:data|record|let)\s+(" + IDENT + r")", code):
                declared.setdefault(m.group(1), p)
            for m in re.finditer(r"λ\s+((?:" + IDENT + r"\s+)*" + IDENT + r")\.\s", code):
                for n in m.group(1).split():
                    declared.setdefault(n, p)
    return declared, foreign, goals


def turned(name):
    """The name's spelling today."""
    if name in APART:
        return APART[name]
    if "-" not in name:
        return name
    if name[0].isupper():
        parts = re.split(r"[-_]", name)
        return "".join(w[:1].upper() + w[1:] for w in parts)
    return name.replace("-", "_")


def main():
    root = os.getcwd()
    declared, foreign, goals = gather(root)
    names = {n: turned(n) for n in declared if n not in foreign and n not in goals}
    # what the kit's script turned halfway
    for n in declared:
        if re.fullmatch(r"[A-Z][a-z]\w*_\w+", n) and n not in foreign:
            names[n] = "".join(w[:1].upper() + w[1:] for w in n.split("_"))
    names = {a: b for a, b in names.items() if a != b}
    clash = {b for b in names.values() if b in declared}
    twice = [b for b in set(names.values()) if sum(1 for v in names.values() if v == b) > 1]
    if "--list" in sys.argv:
        for a in sorted(names):
            print(a, names[a], declared[a][len(root) + 1:])
        print("held back, as a goal has the name:", sorted(n for n in declared if "-" in n and n in goals))
        print("held back, as a library has it:", sorted(n for n in declared if "-" in n and n in foreign))
        print("falls together with a declared name:", {b: (declared[b][len(root) + 1:], [declared[a][len(root) + 1:] for a in names if names[a] == b]) for b in sorted(clash)})
        print("two names become one:", twice)
        return

    def turn(code):
        return TOKEN.sub(lambda m: names.get(m.group(0), m.group(0)), code)

    for p in files(root):
        text = open(p, encoding="utf-8").read()
        lines = text.split("\n")
        if p.endswith(".antt"):
            new = [turn(code_of(l)) + l[len(code_of(l)):] for l in lines]
        else:
            ghost = set(ghost_of(text))
            new = [turn(l) if i in ghost else l for i, l in enumerate(lines)]
        if new != lines:
            open(p, "w", encoding="utf-8").write("\n".join(new))


main()
