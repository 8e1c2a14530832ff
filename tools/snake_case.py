#!/usr/bin/env python3
"""Brings the definitions, lemmas and fields of this repository to Rattle's spelling of names: words in snake case, types and modules in
camel case, and an apostrophe for a prime. It was run once, at the top, on what /opt/rattle/port/port.py had written.

Functions of src/, goals, and names of the toolchain's own library keep their names. A name that would stand twice among what it names is an error,
and nothing is written then; a definition may have the name of the function that computes it, or of a module of src/ on a path.
"""

import os
import re

NAME = r"[A-Za-z_][A-Za-z0-9_'′-]*"
PARAMETERS = r"(?: (?:\([^()]*(?:\([^()]*\)[^()]*)*\)|\{[^{}]*\}))*"
DECLARED = re.compile(rf"^[ \t]*(?:(?:pub|abbrev|unfoldable) )*(?:(?:record|data) )?({NAME}){PARAMETERS} :(?:$| (?!goal\.))", re.M)
RENAMED_IN_IMPORT = re.compile(rf" as ({NAME})")
# `getD` is no word of today's library: its name there stands for it.
# `ReadBack` is a module of proofs/ there.
BY_HAND = {"getD-pieces": "slice_index_or_pieces", "Read-back": "ReadsBack", "Written-back": "WritesBack"}


def texts():
    for folder, folders, files in os.walk("crates"):
        folders[:] = sorted(f for f in folders if f != "out")
        for file in sorted(files):
            if file.endswith((".antt", ".rt", ".edit")):
                path = os.path.join(folder, file)
                with open(path, encoding="utf-8") as f:
                    yield path, f.read()


def spelled(name):
    if name in BY_HAND:
        return BY_HAND[name]
    name = name.replace("′", "'")
    if name[0].isupper():
        first, *rest = name.split("-")
        return first + "".join(w[:1].upper() + w[1:] for w in rest)
    return name.replace("-", "_")


def token(name):
    return re.compile(rf"(?<![\w'′◌·-]){re.escape(name)}(?![\w'′◌·-])")


def in_path(name):
    return re.compile(rf"proofs\.(?:\w+\.)*{re.escape(name)}\.")


def main():
    all_texts = list(texts())
    names = set()
    for path, text in all_texts:
        if path.endswith(".antt"):
            names |= {n for n in DECLARED.findall(text)}
        if not path.endswith(".edit"):
            names |= {n for line in text.splitlines() if re.match(r"\s*(ghost )?use ", line) for n in RENAMED_IN_IMPORT.findall(line)}
    turned = {n: spelled(n) for n in sorted(names) if spelled(n) != n}
    bad = False
    for old, new in turned.items():
        taken = [p for p, t in all_texts if p.endswith(".antt") and token(new).search(t)]
        taken = [p for p in taken if not in_path(new).search(dict(all_texts)[p])]
        twins = [o for o, n in turned.items() if n == new and o != old]
        if taken or twins:
            print(f"look: {old} -> {new}, which stands in {', '.join(taken[:4])}", *twins)
            bad = True
    if bad:
        raise SystemExit(1)
    pattern = re.compile(rf"(?<![\w'′◌·-])(?:{'|'.join(re.escape(n) for n in sorted(turned, key=len, reverse=True))})(?![\w'′◌·-])")
    changed = 0
    for path, text in all_texts:
        lines = text.split("\n")
        new = "\n".join(l if l.lstrip().startswith(("//", "--")) else pattern.sub(lambda m: turned[m[0]], l) for l in lines)
        if new != text:
            changed += 1
            with open(path, "w", encoding="utf-8") as f:
                f.write(new)
    print(f"{len(turned)} names turned in {changed} files")


main()
