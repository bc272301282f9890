#!/usr/bin/env python3
"""Prints the sizes of each crate: lines without comments, blank ones and imports, edits (of the gate and beside it), and functions.

Call it at the top of the repository. Definitions and laws are the files of specs/, laws those whose name says so; proofs are
the files of proofs/. Tests are the files of src/ with `test`, `trial`, `random` or `own_hooks` in their names; a test that stands in a
file of code is counted there.
"""
import glob
import os
import re

COLUMNS = ["code", "tests", "definitions", "laws", "proofs", "edits", "functions"]
IMPORT = re.compile(r"^(ghost use|pub use|use|pub mod|mod)\b")


def lines_of(path):
    """The lines of a file that count. An import that spans lines counts as none."""
    counted, in_import = [], False
    with open(path, encoding="utf-8") as file:
        for line in (it.strip() for it in file):
            if in_import or IMPORT.match(line):
                in_import = ";" not in line and (in_import or path.endswith(".rt"))
            elif line and not line.startswith(("//", "--")):
                counted.append(line)
    return counted


def column_of(path):
    """Which column the lines of a file stand in."""
    name = os.path.basename(path)
    if "/proofs/" in path:
        return "proofs"
    if "/specs/" in path:
        return "laws" if "Laws" in name else "definitions"
    return "tests" if re.search("test|trial|random|own_hooks", name) else "code"


def sizes_of(crate):
    """The number in each column for a crate."""
    sizes = dict.fromkeys(COLUMNS, 0)
    for folder, ending in (("src", "rt"), ("specs", "antt"), ("proofs", "antt")):
        for path in glob.glob(f"{crate}/{folder}/**/*.{ending}", recursive=True):
            lines = lines_of(path)
            sizes[column_of(path)] += len(lines)
            if column_of(path) == "code":
                sizes["functions"] += sum(1 for line in lines if re.match(r"(pub(\(crate\))? )?fn ", line))
    sizes["edits"] = len(glob.glob(f"{crate}/must-fail/*.edit") + glob.glob(f"{crate}/more-edits/*.edit"))
    return sizes


def main():
    total = dict.fromkeys(COLUMNS, 0)
    print(f"{'crate':18}" + "".join(f"{it:>13}" for it in COLUMNS))
    for crate in sorted(glob.glob("crates/*")):
        sizes = sizes_of(crate)
        total = {it: total[it] + sizes[it] for it in COLUMNS}
        print(f"{os.path.basename(crate):18}" + "".join(f"{sizes[it]:>13}" for it in COLUMNS))
    print(f"{'all':18}" + "".join(f"{total[it]:>13}" for it in COLUMNS))


if __name__ == "__main__":
    main()
