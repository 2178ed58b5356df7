#!/usr/bin/env python3
"""Writes the repository's own definitions, fields and lemmas in snake case, as the kit's library has its own.

usage: tools/respell.py            at the top of the repository: rewrites crates/*/{specs,proofs}/**.antt and the clauses of crates/*/src/**.rt
       tools/respell.py --list     prints the old and new names, a pair a line, and where names fall together; writes nothing
       tools/respell.py --names FILE     takes the pairs that --list printed from FILE

A name is the repository's own where a file of specs/ or proofs/ uses it and no file imports it from the kit. `listOutcome` becomes list_outcome and
`same-beginning` same_beginning. A lemma that would have the name of a definition gets _lem behind it: `row-order`, beside the definition rowOrder, becomes
row_order_lem. Types, variants and modules keep their capitals.
"""
import collections
import os
import re
import sys

WORD = re.compile(r"[^\W\d][\w·']*(?:-[\w·']+)*|[^\W\d]")
USE = re.compile(r"^\s*(?:ghost |unfoldable |pub )*use ([\w·+'-]+(?:\.[\w·+'-]+)*)(?:\.\{([^}]*)\})?", re.M)
# Names of the kit's library that stand behind a path.
KIT = {"suc-suc", "suc-zero", "zero-suc", "zero-zero"}
# Names of definitions/specs/Basics for words of the kit.
DOTTED = {"Option·map": "option_map", "Option·getD": "option_get_or", "Option·elim": "option_elim", "Ordering·lt": "ordering_lt", "Ordering·eq": "ordering_eq", "Ordering·gt": "ordering_gt"}
# A definition: the name that a signature gives.
SIGNED = re.compile(r"(?m)^\s*(?:(?:pub|abbrev|unfoldable) )*([^\W\d][\w'-]*) :")


def files(root):
    for folder, dirs, names in os.walk(os.path.join(root, "crates")):
        dirs[:] = sorted(d for d in dirs if d not in ("out", "must-fail", "data"))
        for name in sorted(names):
            if name.endswith((".antt", ".rt")):
                yield os.path.join(folder, name)


def of_a_function(path):
    """Is it a proof of one function, whose names are mostly the checker's?"""
    parts = path.split(os.sep)
    at = parts.index("crates")
    return parts[at + 2] == "proofs" and len(parts) > at + 4


def no_comments(text, rust):
    if rust:
        return re.sub(r"//[^\n]*", "", text)
    return re.sub(r"--[^\n]*", "", text)


def spaced(name):
    """The words of a name in snake case."""
    name = name.replace("-", "_")
    return re.sub(r"(?<=[a-z0-9'])(?=[A-Z])|(?<=[A-Z])(?=[A-Z][a-z])", "_", name).lower()


def respelled(name):
    if not name[0].islower() or not re.search(r"[A-Z-]", name) or "·" in name:
        return name
    return spaced(name)


def crate_names(root):
    return set(os.listdir(os.path.join(root, "crates")))


def used(text):
    for m in USE.finditer(text):
        yield m.group(1), [w.strip() for w in (m.group(2) or "").split(",") if w.strip()]


def pairs(root):
    own_crates = crate_names(root)
    kit = set()
    own = set()
    signed = set()
    where = collections.defaultdict(set)
    for path in files(root):
        rust = path.endswith(".rt")
        text = no_comments(open(path, encoding="utf-8").read(), rust)
        for module, names in used(text):
            parts = module.split(".")
            if not (parts[0] == "Rattle" and len(parts) > 1 and parts[1] in own_crates):
                for n in names:
                    n, _, other = n.partition(" as ")
                    kit.add(n.strip())
                    if other:
                        own.add(other.strip())
        if rust or of_a_function(path):
            continue
        signed.update(SIGNED.findall(text))
        for m in WORD.finditer(text):
            own.add(m.group(0))
            where[m.group(0)].add(path)
    table = {n: respelled(n) for n in sorted(own - kit - KIT) if respelled(n) != n}
    # A lemma that would have a definition's name gets _lem behind it.
    taken = {new for old, new in table.items() if "-" not in old}
    for old in [n for n in table if "-" in n]:
        if table[old] in taken or table[old] in own or table[old] in kit:
            table[old] += "_lem"
    for name in sorted(taken & signed):
        table[name] = name + "_lem"
    table.update({old: new for old, new in DOTTED.items() if old in own})
    return table, where


def together(root, table):
    """Names of one file that would be one name: (path, new, olds)."""
    for path in files(root):
        rust = path.endswith(".rt")
        text = no_comments(open(path, encoding="utf-8").read(), rust)
        olds = collections.defaultdict(set)
        names = of_file(path, text, table)
        for m in WORD.finditer(text):
            olds[names.get(m.group(0), m.group(0))].add(m.group(0))
        for new, many in sorted(olds.items()):
            if len(many) > 1:
                yield path, new, sorted(many)


def turned(text, table, rust):
    """The text with its names respelled; in a comment only what is written in backticks or in camel case."""
    def word(m):
        return table.get(m.group(0), m.group(0))

    def in_comment(m):
        name = m.group(0)
        camel = re.search(r"[a-z][A-Z]", name)
        return table.get(name, name) if camel else name

    def ticked(m):
        return "`" + WORD.sub(word, m.group(1)) + "`"

    mark = "//" if rust else "--"
    out = []
    for line in text.split("\n"):
        at = line.find(mark)
        code, comment = (line, "") if at < 0 else (line[:at], line[at:])
        comment = re.sub(r"`([^`]*)`", ticked, comment)
        out.append(WORD.sub(word, code) + WORD.sub(in_comment, comment))
    return "\n".join(out)


def of_file(path, text, table):
    """The names to respell in a file: functions of src/ keep theirs, and a proof of one names them."""
    cited = {n.partition(" as ")[0].strip() for _, names in used(text) for n in names}
    plain = path.endswith(".rt") or of_a_function(path)
    return {old: new for old, new in table.items() if not plain or re.search(r"[A-Z-]", old) or (old in cited and not path.endswith(".rt"))}


def main(argv):
    root = "."
    table, where = pairs(root)
    if "--names" in argv:
        table = dict(l.rstrip("\n").split("\t") for l in open(argv[argv.index("--names") + 1], encoding="utf-8") if "\t" in l)
    if "--list" in argv:
        for old, new in table.items():
            print(f"{old}\t{new}")
        n = 0
        for path, new, many in together(root, table):
            print(f"together: {path}: {new}: {' '.join(many)}")
            n += 1
        print(f"{len(table)} names, {n} places where names fall together")
        return 0
    for path in files(root):
        rust = path.endswith(".rt")
        text = open(path, encoding="utf-8").read()
        new = turned(text, of_file(path, text, table), rust)
        if new != text:
            open(path, "w", encoding="utf-8").write(new)
    return 0


if __name__ == "__main__":
    raise SystemExit(main(sys.argv[1:]))
