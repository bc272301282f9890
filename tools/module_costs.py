#!/usr/bin/env python3
"""Prints what the modules of a crate's check cost: their seconds by kind, and the dearest.

Call it as `tools/module_costs.py NAME [N]` at the top of the repository, after `rm -rf crates/NAME/out && rt check NAME --jobs 1`,
on a machine that does nothing else. The seconds are those between the moments at which the check kept its modules. Of the kinds,
`Lts` is what the borrow checker asks for: it grows with each place where a value of many parts is let go of without a call.
"""
import collections
import os
import sys

KINDS = {"Lts", "Statement", "Goals", "Proof", "Code", "Met", "Tie", "Given", "Answers", "Invariants"}

name, most = sys.argv[1], int(sys.argv[2]) if len(sys.argv) > 2 else 15
written = []
for folder, _, files in os.walk(f"crates/{name}/out/incremental"):
    written += [(os.stat(f"{folder}/{it}").st_mtime, it) for it in files]
written.sort()
kinds, modules = collections.Counter(), collections.Counter()
for (before, _), (after, file) in zip(written, written[1:]):
    module = file.replace(".decls", "").replace(".oantt", "").replace("Rattle-", "")
    kind = module.rsplit(".", 1)[-1]
    kinds[kind if kind in KINDS else "other"] += after - before
    modules[module] += after - before
for title, costs in (("kind", kinds.most_common()), ("module", modules.most_common(most))):
    print(title)
    for of, seconds in costs:
        print(f"{seconds:9.1f} {of}")
