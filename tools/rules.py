#!/usr/bin/env python3
"""Checks docs/RULES.md: each name in its table stands in the file that stands before it.

    tools/rules.py      fails where a file isn't there, or doesn't hold the name; says how many rules there are
"""
import os
import re
import sys

TOP = os.path.dirname(os.path.dirname(os.path.realpath(__file__)))
DRIVE = "crates/qc_conn/src/driving.rt"


def text_of(path):
    full = f"{TOP}/{path}"
    if not os.path.isfile(full):
        return None
    with open(full, encoding="utf-8") as file:
        return file.read()


def fault_of(file, name):
    ending = ".antt" if "/specs/" in file else ".rt" if "/src/" in file else ""
    path = DRIVE if file == "drive" else f"crates/{file}{ending}"
    text = text_of(path)
    if text is None:
        return f"there is no {path}"
    return None if re.search(rf"(?<![\w-]){re.escape(name)}(?![\w-])", text) else f"{path} has no {name}"


def main():
    rows = [line for line in (text_of("docs/RULES.md") or "").split("\n") if line.startswith("| ")][1:]
    faults = []
    for row in rows:
        cells = [it.strip() for it in row.strip("|").split(" | ")]
        if len(cells) != 6:
            faults.append(f"a row of {len(cells)} cells: {row[:60]}")
            continue
        for cell in cells[2:]:
            for file, names in re.findall(r"`([^`:]+): ([^`]+)`", cell):
                faults += [it for it in (fault_of(file, name) for name in names.split(", ")) if it]
    for fault in faults:
        print(f"docs/RULES.md: {fault}", file=sys.stderr)
    print(f"{len(rows)} rules, {len(faults)} faults")
    return 1 if faults or not rows else 0


sys.exit(main())
