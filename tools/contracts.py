#!/usr/bin/env python3
"""Prints the signature, the docstring and the clauses of each public function of crates.

Call it at the top of the repository: `tools/contracts.py NAME..`, with names of folders of crates/. With `--names` behind the
names it prints of each function the name and the labels of its clauses alone, a clause without a label as `-`. Public are the
functions and types that src/lib.rt offers of its own, the calls of these types and of types of other crates, and those of the
traits that it offers. It reads the layout that `rt fmt` writes.
"""
import pathlib
import re
import sys

TOP = pathlib.Path(__file__).resolve().parent.parent
DECLARED = re.compile(r"^(?:pub(?:\(crate\))? )?(?:struct|enum|trait) (\w+)", re.M)
OFFER = re.compile(r"^pub use (\w+)::(?:\{([^}]*)\}|(\w+));", re.M)
FUNCTION = re.compile(r"^ *(?:pub |final )?(?:const )?fn (\w+)")
OWNER = re.compile(r"^(?:pub )?(impl|trait)\b(.*?)\{?$")
CLAUSE = re.compile(r"^ +(requires|ensures|ghost|also_owns|also_shares)\b *(\w*)")


def hidden_of(crate):
    """The types, traits and functions of a crate that its library doesn't offer. None are hidden where there is no library."""
    root = TOP / "crates" / crate / "src/lib.rt"
    if not root.exists():
        return set()
    offered = set(re.findall(r"^pub (?:fn|struct|enum|trait) (\w+)", root.read_text(), re.M))
    for _, several, one in OFFER.findall(root.read_text()):
        offered.update(name.strip().split(" as ")[0] for name in (several or one).split(","))
    texts = [path.read_text() for path in root.parent.glob("*.rt")]
    declared = {name for text in texts for name in DECLARED.findall(text) + re.findall(r"^pub fn (\w+)", text, re.M)}
    return declared - offered


def owner_of(line):
    """Of a line that begins an `impl` or a trait: the name of the type or of the trait, and what heads its functions."""
    word, rest = OWNER.match(line).groups()
    head = re.sub(r"^<[^>]*>+", "", rest.split(" where ")[0]).strip()
    name = re.split(r"\bfor ", head)[-1] if word == "impl" else head
    found = re.search(r"\w+", re.sub(r"^&(mut )?", "", name))
    return (found.group(0) if found else ""), f"{word} {head}".strip()


def read_function(lines, at):
    """The lines of the signature and of the clauses of the function that begins here, up to its body."""
    indent = len(lines[at]) - len(lines[at].lstrip())
    taken = []
    for line in lines[at:]:
        if line.rstrip() in (" " * indent + "{", " " * indent + "{}"):
            break
        taken.append(line[indent:].removesuffix(" {"))
        if line.endswith((";", " {", "}")) and not CLAUSE.match(line) and not line.startswith(" " * (indent + 2)):
            break
        if line.endswith(";") and CLAUSE.match(line):
            break
    return taken


def docstring_above(lines, at):
    """The lines of the docstring above this line, beyond attributes."""
    taken = []
    while at > 0 and re.match(r" *(///|#\[)", lines[at - 1]):
        at -= 1
        if "///" in lines[at]:
            taken.insert(0, lines[at].strip())
    return taken


def functions_of(path, hidden):
    """Of each public function of a file: what it belongs to, its name, its docstring, and its signature with its clauses."""
    lines = path.read_text(encoding="utf-8").split("\n")
    owner, head = "", ""
    for at, line in enumerate(lines):
        if OWNER.match(line):
            owner, head = owner_of(line)
        elif line == "}":
            owner, head = "", ""
        found = FUNCTION.match(line)
        if not found or len(line) - len(line.lstrip()) != (4 if head else 0):
            continue
        is_open = re.match(r" *pub ", line) or " for " in head or head.startswith("trait")
        if is_open and (owner or found.group(1)) not in hidden:
            yield head, found.group(1), docstring_above(lines, at), read_function(lines, at)


def labels_of(taken):
    """The labels of the clauses, after `requires` or `ensures`."""
    found = (CLAUSE.match(line) for line in taken)
    return " ".join(f"{it.group(1)}:{it.group(2) or '-'}" for it in found if it)


def main():
    names = [name for name in sys.argv[1:] if name != "--names"]
    if not names:
        sys.exit(__doc__)
    for crate in names:
        hidden = hidden_of(crate)
        for path in sorted((TOP / "crates" / crate / "src").glob("*.rt")):
            for head, name, docstring, taken in functions_of(path, hidden):
                if "--names" in sys.argv:
                    print(f"{crate}/{path.name}: {head + ': ' if head else ''}{name}: {labels_of(taken)}".rstrip())
                else:
                    print("\n".join([f"// {crate}/{path.name}{', ' + head if head else ''}", *docstring, *taken, ""]))


main()
