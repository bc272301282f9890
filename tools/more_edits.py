#!/usr/bin/env python3
"""Tries the edits that stand beside the gate, in crates/NAME/more-edits: the prover must refuse each.

Call it at the top of the repository. `tools/more_edits.py` says of each such edit of all crates whether it can still be applied: its old
text stands once in its file. `tools/more_edits.py NAME..` tries those of these crates, and with `--all` those of all crates, with `--gate` too
those that the gate tries. It makes each in the crate itself and takes it back, and has `rt check` prove the functions that it changes; where they
are proved, the whole crate. The libraries below are proved first where they aren't built, which may take an hour. While that runs, nothing else
may read these crates. It ends with status 1 where one can't be applied or isn't refused.
"""
import pathlib
import re
import subprocess
import sys

TOP = pathlib.Path(__file__).resolve().parent.parent
CHECK = ["rt", "check", "--jobs", "1"]
FUNCTION = re.compile(r"^( *)(?:pub(?:\(crate\))? )?(?:unsafe )?fn (\w+)")
OWNER = re.compile(r"^(?:unsafe )?(impl|trait)\b(?:<.*?>)? *(.*)")


def changes(edit):
    """Returns the pairs of texts that the edit exchanges, each with its file, or why it cannot be applied."""
    crate, path, texts, old, found = edit.parent.parent, "", {}, None, []
    for line in edit.read_text(encoding="utf-8").split("\n"):
        if line.startswith("file: "):
            path = line.removeprefix("file: ").strip()
        elif line.startswith("old: "):
            old = line.removeprefix("old: ")
        elif line.startswith("new:") and old is not None:
            text = texts.get(path) or (crate / path).read_text(encoding="utf-8")
            if text.count(old) != 1:
                return [], f"an old text stands {text.count(old)} times in {path}"
            new = line.removeprefix("new:").removeprefix(" ")
            found.append((path, text.index(old)))
            texts[path], old = text.replace(old, new), None
    return [texts, found], None if texts else "it changes nothing"


def owner_of(line):
    """Returns the words that a check puts before the functions of this impl or trait, or None where the line begins neither."""
    head = OWNER.match(line)
    if not head:
        return None
    name = lambda it: re.split(r"[<\s{]", it.strip().removeprefix("&").strip())[0].split("::")[-1]
    of, _, whose = head[2].partition(" for ")
    return f"{name(whose)}{name(of)}::" if whose else f"{name(of)}::"


def function_at(path, text, at):
    """Returns the function of this file in which this place stands, as a check names it, or None."""
    lines = text[: at + 1].split("\n")
    for number in range(len(lines) - 1, -1, -1):
        head = FUNCTION.match(lines[number])
        if head:
            owner = next((it for it in map(owner_of, reversed(lines[:number])) if it), "") if head[1] else ""
            return f"{pathlib.PurePath(path).stem}::{owner}{head[2]}"
    return None


def checked(crate, names):
    """Returns the status and the output of a check of these functions of the crate, or of all."""
    only = [word for it in names for word in ("--only", it)]
    ran = subprocess.run([*CHECK, *only], cwd=crate, stdout=subprocess.PIPE, stderr=subprocess.STDOUT, text=True, errors="replace", check=False)
    return ran.returncode, ran.stdout


def is_refused(edit):
    """Makes the edit, has the crate checked, takes it back, and returns whether it was refused, and what was said."""
    crate = edit.parent.parent
    (texts, places), _ = changes(edit)
    kept = {path: (crate / path).read_text(encoding="utf-8") for path in texts}
    names = {function_at(path, kept[path], at) for path, at in places}
    try:
        for path, text in texts.items():
            (crate / path).write_text(text, encoding="utf-8")
        for only in [sorted(names), []] if None not in names else [[]]:
            status, said = checked(crate, only)
            if "has no function" in said:
                continue
            told = next((it for it in said.split("\n") if re.search(r"^note: src/|: error|not proved", it)), "no reason was told")
            if status == 1 and re.search(r"\berror\[", said):
                return False, f"it did not reach the prover: {told}"
            if status:
                return status == 1, told
        return False, "it is still proved"
    finally:
        for path, text in kept.items():
            (crate / path).write_text(text, encoding="utf-8")


def main(words):
    names = [it for it in words if not it.startswith("--")]
    crates = [TOP / "crates" / it for it in names] or sorted((TOP / "crates").iterdir())
    folders = ["more-edits", "must-fail"] if "--gate" in words else ["more-edits"]
    edits = [it for crate in crates for folder in folders for it in sorted(crate.glob(f"{folder}/*.edit"))]
    bad = {it: why for it in edits if (why := changes(it)[1])}
    for edit, why in bad.items():
        print(f"{edit.relative_to(TOP)}: {why}")
    print(f"{len(edits) - len(bad)} of {len(edits)} edits can be applied")
    if bad or not (names or "--all" in words):
        return 1 if bad else 0
    refused = 0
    for edit in edits:
        well, said = is_refused(edit)
        refused += well
        print(f"{edit.relative_to(TOP)}: {'refused' if well else 'NOT REFUSED'}: {said[:160]}", flush=True)
    print(f"{refused} of {len(edits)} edits were refused")
    return 0 if refused == len(edits) else 1


if __name__ == "__main__":
    sys.exit(main(sys.argv[1:]))
