#!/usr/bin/env python3
"""Brings the repository's own definitions and lemmas to one spelling: words in snake case, modules in upper camel case.

usage: python3 tools/respell.py [--list]     at the top of the repository; --list only prints old and new names

It was run once, when the repository moved to a newer Rattle. What is renamed: each name that a file of specs/, or a file of
lemmas in proofs/, declares in camel case or with dashes, and helpers of a proof that answer no goal. Functions, fields,
constants and exported names of src/ keep theirs.
"""
import os
import re
import sys

NAMES = re.compile(r"^(\s*)(?:(?:abbrev|unfoldable|axiom)\s+)*(?:pub\s+)?([^\s:(){}.,;]+)\s*:(?!\S)\s*(.*)$", re.M)
TOKEN = re.compile(r"[^\s(){}\[\].,;λ∷\"]+")
# Lemmas whose new name would fall together with that of a definition, and those that a first script had brought into that state.
APART = {name: name.replace("-", "_") + "_lem" for name in (
    "broken-of command-of command-size idle-admitted idle-net idle-row idle-worth member-on net-of refused-of rows-of row-size "
    "trade-worth best_of every_of reads_on").split()}
# The library has a crate of that name now.
CRATES = {"bytes": "byte_layer"}


def files(*ends):
    for folder, dirs, names in os.walk("crates"):
        dirs[:] = sorted(d for d in dirs if d != "out")
        for name in sorted(names):
            if name.endswith(ends):
                yield os.path.join(folder, name)


def read(path):
    with open(path, encoding="utf-8") as f:
        return f.read()


def snake(name):
    if name in APART:
        return APART[name]
    if re.match(r"^[a-z]", name):
        name = re.sub(r"(?<=[a-z0-9'])([A-Z])", lambda m: "_" + m.group(1).lower(), name)
    return name.replace("-", "_")


def wants(name):
    return name in APART or bool(re.match(r"^[a-z][\w'₀-₉]*[A-Z]", name) or re.match(r"^[A-Za-z][\w'₀-₉-]*-", name))


def of_lemmas(path):
    parts = path.split(os.sep)
    return parts[2] == "specs" or (parts[2] == "proofs" and len(parts) == 4)


def declared():
    """The names to change: those of files of lemmas, and by file those of helpers that stand in a proof."""
    everywhere, fields, local = set(), set(), {}
    for path in files(".antt"):
        for indent, name, kind in NAMES.findall(read(path)):
            if not wants(name):
                continue
            if of_lemmas(path):
                (fields if indent else everywhere).add(name)
            elif not kind.startswith("goal."):
                local.setdefault(path, set()).add(name)
    return everywhere, fields, local


def turn(text, names, fields):
    out, last = [], 0
    for m in TOKEN.finditer(text):
        word = m.group(0)
        before = text[m.start() - 1] if m.start() else ""
        if word in names and not (before == "." and "-" in word and word not in fields):
            out += [text[last:m.start()], snake(word)]
            last = m.end()
    return "".join(out) + text[last:]


def imports(text, names):
    """In an import each name stands behind a dot or in braces: turned as a name."""
    def item(m):
        return m.group(1) + re.sub(r"[^\s,{}]+", lambda w: snake(w.group(0)) if w.group(0) in names else w.group(0), m.group(2)) + m.group(3)
    return re.sub(r"(use Rattle\.[^;\n{]*\{)([^}]*)(\})", item, text)


def change(path, new, text):
    if new != text:
        with open(path, "w", encoding="utf-8") as f:
            f.write(new)


def rename_crates():
    for old, new in CRATES.items():
        if os.path.isdir(f"crates/{old}"):
            os.rename(f"crates/{old}", f"crates/{new}")
        text = read("crates.txt")
        change("crates.txt", re.sub(rf"\b{old}\b", new, text), text)
        for path in files(".antt", ".rt", ".edit"):
            text = read(path)
            change(path, re.sub(rf"\bRattle\.{old}\b", f"Rattle.{new}", re.sub(rf"\b{old}::", f"{new}::", text)), text)


def rename_modules():
    """The modules of laws, as every module, begin with a capital."""
    for folder, dirs, names in list(os.walk("crates")):
        if os.path.basename(folder) != "specs":
            continue
        if os.path.exists(f"{folder}/laws.antt"):
            os.rename(f"{folder}/laws.antt", f"{folder}/Laws.antt")
            os.rename(f"{folder}/laws", f"{folder}/Laws")
            text = read(f"{folder}/Lib.antt")
            change(f"{folder}/Lib.antt", text.replace("pub mod laws", "pub mod Laws"), text)
    for path in files(".antt", ".rt"):
        text = read(path)
        change(path, re.sub(r"\b(Rattle\.\w+\.specs)\.laws\b", r"\1.Laws", text), text)


def main():
    if "--list" not in sys.argv:
        rename_crates()
        rename_modules()
    everywhere, fields, local = declared()
    olds = everywhere | fields | {n for names in local.values() for n in names}
    news = {}
    for old in sorted(olds):
        news.setdefault(snake(old), []).append(old)
    if "--list" in sys.argv:
        for old in sorted(olds):
            print(old, snake(old))
        return
    for path in files(".antt", ".rt"):
        text = read(path)
        names = everywhere | fields | local.get(path, set())
        change(path, turn(imports(text, names), names, fields), text)


main()
