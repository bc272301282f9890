#!/usr/bin/env python3
"""Lists the types with a derived `Drop` by how many drops one value of them stands for in a proof: of its parts, and of theirs.

Call it as `tools/drop_parts.py [N]` at the top of the repository; it lists the N longest, 30 where N is left out. A list, a text, a
box and any type with a `Model` or with a `Drop` of its own count once, numbers and references not. Of a choice all cases count.
"""
import collections
import glob
import re
import sys

OPENING, CLOSING = "<([{", ">)]}"
PLAIN = {"bool", "char", "Global", "usize", *(f"{sign}{bits}" for sign in "ui" for bits in (8, 16, 32, 64, 128))}
TYPE = re.compile(r"((?:#\[[^\]]*\]\s*)+)(?:pub(?:\([a-z]+\))? )?(struct|enum) (\w+)(?:<[^{(;]*>)?\s*([{(])")


def inside(text, at):
    """What stands between the bracket at this place and the one that closes it."""
    depth = 0
    for end in range(at, len(text)):
        depth += (text[end] in "{(") - (text[end] in "})")
        if not depth:
            return re.sub(r"//.*|#\[[^\]]*\]", "", text[at + 1 : end])
    return ""


def pieces(text):
    """The pieces between the commas that stand in no bracket."""
    found, depth = [""], 0
    for at, char in enumerate(text):
        depth += (char in OPENING) - (char in CLOSING and text[at - 1 : at] not in ("-", "="))
        found = [*found, ""] if char == "," and not depth else [*found[:-1], found[-1] + char]
    return [piece.strip() for piece in found if piece.strip()]


def read():
    """The types by their names, and the names of those that are dropped by one call."""
    types, whole = collections.defaultdict(list), {"Text", "List", "Vec", "Box", "Rc", "RefCell", "BTreeMap", "BTreeSet", "HashMap"}
    for file in sorted(glob.glob("crates/*/src/**/*.rt", recursive=True)):
        text, crate = open(file).read(), file.split("/")[1]
        whole.update(re.findall(r"impl(?:<[^\n]*?>)? (?:Model|Drop) for (\w+)", text))
        for found in TYPE.finditer(text):
            attributes, kind, name, _ = found.groups()
            derived = {word for list_ in re.findall(r"derive\(([^)]*)\)", attributes) for word in re.split(r",\s*", list_)}
            types[name].append((crate, kind, derived, inside(text, found.end() - 1)))
    return types, whole


def drops(spelled, crate, above=()):
    """How many drops a value of the type stands for."""
    spelled = spelled.strip()
    if not spelled or spelled[0] in "&*" or spelled in PLAIN or spelled.startswith("fn"):
        return 0
    if spelled[0] == "(":
        return sum(drops(piece, crate, above) for piece in pieces(spelled[1:-1]))
    named = re.match(r"(?:\w+::)*(\w+)(?:<(.*)>)?$", spelled, re.S)
    name = named.group(1) if named else ""
    if name in ("Option", "Result"):
        parts = sum(drops(piece, crate, above) for piece in pieces(named.group(2) or ""))
        return parts and parts + 1
    own = sorted(types.get(name, []), key=lambda it: it[0] != crate)
    if name in whole or name in above or not own:
        return 1
    return 0 if "Copy" in own[0][2] else parts_of(*own[0], (*above, name))


def parts_of(crate, kind, _derived, body, above):
    """How many drops the fields of a type stand for, or the cases of a choice."""
    if kind == "struct":
        fields = [re.sub(r"^pub(\([a-z]+\))? ", "", piece) for piece in pieces(body)]
        return sum(drops(re.sub(r"^\w+\s*:(?!:)", "", it), crate, above) for it in fields if not it.startswith("ghost "))
    cases = [re.match(r"\w+\s*[({](.*)[)}]$", piece, re.S) for piece in pieces(body)]
    return sum(1 + parts_of(crate, "struct", _derived, case.group(1), above) for case in cases if case)


types, whole = read()
listed = [
    (parts_of(*one, (name,)), one[0], one[1], name)
    for name, all_ in types.items()
    for one in all_
    if "Drop" in one[2] and name not in whole
]
for count, crate, kind, name in sorted(listed, reverse=True)[: int(sys.argv[1]) if len(sys.argv) > 1 else 30]:
    print(f"{count:5d} {crate}: {kind} {name}")
