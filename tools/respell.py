#!/usr/bin/env python3
"""Brings the repository's own definitions and lemmas to the spelling of today's Rattle: words in snake case, a prime as an apostrophe.

usage: python3 tools/respell.py [--check]     at the top of the repository, once, after port.py

It takes the names that the files of specs/ and proofs/ declare (definitions, lemmas, fields, constructors), turns each lower-case one to snake case, and
writes the new name wherever the old one stands in an .antt file, in the ghost text of a .rt file and in an edit. A lemma that would get a definition's name
ends in _lem. Functions of src/, exported C names, strings, inputs and outputs keep their names: a .rt file's names are in snake case already, so none of the
names that are turned is one of them. --check prints the names that fall together and writes nothing.
"""

import os
import re
import sys

SPECIAL = r"\s(){}.;,@\"«»\[\]\\λ:"
WORD = r"[^" + SPECIAL + r"]+"
TOKEN = re.compile(r"--[^\n]*|\"(?:[^\"\\\n]|\\.)*\"|«[^»]*»|" + WORD)
DECLARED = re.compile(r"(?m)^(?P<in> *)(?P<mark>(?:(?:abbrev|unfoldable|pub|data|record) +)*)(?P<name>" + WORD + r") *(?:\([^\n]*?\)|\{[^\n]*?\})* *:(?!=)")
LIBRARY = set("length take drop map append set keep count replicate zero suc true false none some eqb ltb not cond sum get_or reverse pow add sub mul".split())
KEEP = {"returns", "returns-2", "returns-3", "returns-4", "returns-5", "returns-6", "returns-7", "returns-8"}


def files(root, end):
    for folder, dirs, names in os.walk(os.path.join(root, "crates")):
        dirs[:] = sorted(d for d in dirs if d not in ("out", "target"))
        for n in sorted(names):
            if n.endswith(end):
                yield os.path.join(folder, n)


def read(p):
    with open(p, encoding="utf-8") as f:
        return f.read()


def snake(name):
    name = name.replace("′", "'").replace("-", "_")
    name = re.sub(r"(?<=[a-z0-9])([A-Z])", lambda m: "_" + m.group(1).lower(), name)
    return name


def joined(name, known):
    """A lemma's name: a dash stays where it joins two names that are known, as in length-take, and a plain word is added with _."""
    parts = [snake(p) for p in name.split("-")]
    out = parts[0]
    for i in range(1, len(parts)):
        left = any("_".join(parts[k:i]) in known for k in range(i))
        right = any("_".join(parts[i:k]) in known for k in range(i + 1, len(parts) + 1))
        out += ("-" if left and right else "_") + parts[i]
    return out


def declared(root):
    """Each name that is declared, with the files and whether it is a definition, a field or constructor, or a lemma."""
    found = {}
    for p in files(root, ".antt"):
        text = re.sub(r"(?m)--.*$", "", read(p))
        where = "proof" if os.path.basename(p) == "Proof.antt" else "specs" if "/specs/" in p else "lemmas"
        for m in DECLARED.finditer(text):
            name, mark = m.group("name"), m.group("mark")
            if m.group("in") and where == "proof":
                continue
            rest = text[m.end() : m.end() + 200]
            if where == "proof" and (re.match(r"\s*tie\.", rest) or re.match(r"\s*\{M : Type 1\}", rest) or "·" in name):
                continue
            kind = "field" if m.group("in") else "def" if ("abbrev" in mark or "unfoldable" in mark or "data" in mark or "record" in mark) else "lemma"
            found.setdefault(name, set()).add((kind, p))
    return found


def mapping(root):
    own = declared(root)
    lower = {n: v for n, v in own.items() if re.match(r"[a-z]", n) and n not in KEEP}
    defs = {n for n, v in own.items() if any(k in ("def", "field") for k, _ in v)}
    known = {snake(n) for n in defs if any(k == "def" for k, _ in own[n])} | LIBRARY
    turned, taken = {}, {}
    # definitions first: a lemma gives way to them
    for n in sorted(lower, key=lambda n: (n not in defs, "-" in n, n)):
        s = snake(n) if n in defs else joined(n, known)
        if s in taken:
            s += "_lem"
        if s in taken:
            print("falls together:", n, "->", s, "with", taken[s])
            s += "_too"
        taken[s] = n
        if s != n:
            turned[n] = s
    return turned


def turn(text, to):
    return TOKEN.sub(lambda m: to.get(m.group(0), m.group(0)), text)


def turn_rt(text, to):
    """The ghost text of a .rt file: lines of 'ghost use' and what stands in the braces of a clause or a ghost field. Its camel-case names occur nowhere else."""
    camel = {k: v for k, v in to.items()}
    out, at = [], 0
    for m in re.finditer(r"(?m)^ *(?:pub )?ghost\b[^;{]*(?:\{|;)|\b(?:requires|ensures)\*?(?: \w+)? \{", text):
        if m.start() < at:
            continue
        out.append(text[at : m.start()])
        end = m.end()
        if text[end - 1] == "{":
            depth = 1
            while depth:
                depth += {"{": 1, "}": -1}.get(text[end], 0)
                end += 1
        out.append(turn(text[m.start() : end], camel))
        at = end
    out.append(text[at:])
    return "".join(out)


def turn_edit(text, to):
    """The lines old: and new: of an edit, and not its words on what it is."""
    return "".join(turn(l, to) if re.match(r"(old|new): ", l) else l for l in text.splitlines(keepends=True))


def main(argv):
    root = "."
    to = mapping(root)
    if "--check" in argv:
        for p in list(files(root, ".antt")) + list(files(root, ".rt")):
            text = read(p)
            words = {m.group(0) for m in TOKEN.finditer(text)}
            for n in sorted(words & set(to)):
                if to[n] in words and p.endswith(".antt"):
                    print("both in", p, n, to[n])
        return 0
    for p in list(files(root, ".antt")) + list(files(root, ".edit")) + list(files(root, ".rt")):
        text = read(p)
        new = turn_rt(text, to) if p.endswith(".rt") else turn_edit(text, to) if p.endswith(".edit") else turn(text, to)
        if new != text:
            with open(p, "w", encoding="utf-8") as f:
                f.write(new)
    with open("tools/respelled.tsv", "w", encoding="utf-8") as f:
        f.writelines(f"{k}\t{v}\n" for k, v in sorted(to.items()))
    return 0


if __name__ == "__main__":
    raise SystemExit(main(sys.argv[1:]))
