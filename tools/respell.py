#!/usr/bin/env python3
"""Brings the repository's own names in specs/, proofs/, clauses and edits to the spelling of today's Rattle.

usage: python3 tools/respell.py      at the top, once, directly after the kit's port.py

A function, lemma, field or variable in lower camel case goes to snake case (netOf: net_of; each part of a name that has
dashes), and the modules `between` go to upper camel case. Names of types, constructors, Rust and C are left. A few names
would fall together with another: those are in TOGETHER. Names of the standard library are left to port.py.
"""
import os
import re
import subprocess
import sys

# lemmas that would have the name of the function that they speak of, by crate: the lemma gets `_lem`
LEMMAS = {
    "pass_sheet": ["in_order"],
    "gates": ["start_cell"],
    "blif_text": ["row_before", "word_byte"],
    "blif_writing": ["same_bit"],
    "blif_write": ["too_long"],
    "blif_read": ["too_long"],
    "pass_report": ["too_large"],
}
# names that would fall together with a parameter of a Rust function or another definition
TOGETHER = {
    "flatMap": "flat_map",
    "getD": "get_or",
}
CAMEL = re.compile(r"(?<![A-Za-z0-9_])[a-z][a-z0-9_]*[A-Z][A-Za-z0-9_]*")


def snake(m):
    name = m.group(0)
    if name in TOGETHER:
        return TOGETHER[name]
    out = ""
    for i, c in enumerate(name):
        if c.isupper():
            out += ("" if name[i - 1] == "_" else "_") + c.lower()
        else:
            out += c
    return out


def lemmas(text, names):
    for n in names:
        text = re.sub(r"(?<![\w.'-])" + n + r"(?![\w'-])", n + "_lem", text)
    return text


def crate_files(root):
    for folder, dirs, files in os.walk(os.path.join(root, "crates")):
        dirs[:] = sorted(d for d in dirs if d != "out")
        for f in sorted(files):
            if f.endswith((".rt", ".antt", ".edit")):
                yield os.path.join(folder, f)


def main():
    root = subprocess.run(["git", "rev-parse", "--show-toplevel"], capture_output=True, text=True, check=True).stdout.strip()
    changed = 0
    for path in crate_files(root):
        with open(path, encoding="utf-8") as f:
            old = f.read()
        text = old
        parts = os.path.relpath(path, root).split(os.sep)
        if parts[2] == "proofs" and parts[1] in LEMMAS:
            text = lemmas(text, LEMMAS[parts[1]])
        text = CAMEL.sub(snake, text)
        text = re.sub(r"(?<=specs\.)between(?=[.;\s])", "Between", text)
        text = re.sub(r"(?m)^(pub mod )between$", r"\1Between", text)
        text = text.replace("file: specs/between/", "file: specs/Between/")
        if text != old:
            changed += 1
            with open(path, "w", encoding="utf-8") as f:
                f.write(text)
    for name in sorted(os.listdir(os.path.join(root, "crates"))):
        specs = os.path.join(root, "crates", name, "specs")
        for old, new in (("between.antt", "Between.antt"), ("between", "Between")):
            if os.path.exists(os.path.join(specs, old)):
                os.rename(os.path.join(specs, old), os.path.join(specs, new))
    print(f"respell: {changed} files")


if __name__ == "__main__":
    sys.exit(main())
