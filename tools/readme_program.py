#!/usr/bin/env python3
"""Whether README and LIBRARY show their programs as they stand: prints which block of a page doesn't stand so in its file, and ends
with status 1 where there is one."""

import pathlib
import sys

# README shows a part of its program, LIBRARY all of its.
SHOWN = [
    ("README.md", "crates/watchexec_programs/src/prints.rt", "/// Prints what changed."),
    ("docs/LIBRARY.md", "crates/watchexec_folder/src/main.rt", "//! Watches the folder"),
]

top = pathlib.Path(__file__).resolve().parent.parent
status = 0
for page, program, begin in SHOWN:
    blocks = [part.split("```", 1)[0] for part in (top / page).read_text().split("```rust\n")[1:]]
    stands = (top / program).read_text()
    shown = [block for block in blocks if block.startswith(begin) and block in stands]
    print(f"{page} shows {program} as it stands" if shown else f"{page} shows {program} otherwise")
    status |= not shown
sys.exit(status)
