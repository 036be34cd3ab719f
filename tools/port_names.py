#!/usr/bin/env python3
"""Brings a checkout of the older spelling to today's, before and after the kit's port.py.

usage: python3 tools/port_names.py before    at the top of a checkout of the older repository, then commit there
       python3 /opt/rattle/port/port.py
       python3 tools/port_names.py after

port.py passes over folders named `target`, and one of the crates has that name. So `before` gives the crate
another name, and `after` gives it its own again. `after` then respells what port.py leaves: definitions,
lemmas, fields and locals of this repository's own in snake case.
"""
import pathlib
import re
import subprocess
import sys

ROOT = pathlib.Path.cwd()
OWN, AWAY = "target", "targetlib"

# letters of a name; a dot parts names
NAME = re.compile(r"[^\W\d][\w'-]*")
DECLARED = [
    re.compile(r"^\s*(?:pub |abbrev |unfoldable |data )*([^\W\d][\w'-]*) :(?!:)", re.M),
    re.compile(r"\blet ([^\W\d][\w'-]*)"),
    re.compile(r"[({]((?:[^\W\d][\w'-]* )+): "),
    re.compile(r"λ ((?:[^\W\d][\w'-]* ?)+)\."),
]
# goals are named by the check
GOAL = re.compile(r"^(?:abbrev )?pub ([^\W\d][\w'-]*) : (?:goal|need)\.", re.M)

# names that would fall together, or that a definition's new name would take
SPECIAL = {
    "four_bytes": "four_bytes-stands",
    "four-bytes-stand": "stands-four_bytes",
    "read-front": "read_front_lem",
    "own-form": "own_form_lem",
}
# definitions that get the name of the Rust function which they mirror: its file brings them in under another
MIRRORED = {
    "againstZero": "against_zero",
    "branchFormat": "branch_format",
    "jumpFormat": "jump_format",
}
# what a call gave goes by the called function's name
CALLED = {"read-front": "read_front"}


def files(*endings):
    for path in sorted((ROOT / "crates").rglob("*")):
        if path.suffix in endings and "out" not in path.parts and path.is_file():
            yield path


def swap(old, new):
    """The crate's folder, its name in crates.txt, and the paths that begin with it."""
    subprocess.run(["git", "mv", f"crates/{old}", f"crates/{new}"], cwd=ROOT, check=True)
    lines = ROOT / "crates.txt"
    lines.write_text("".join(
        line if line.startswith("#") else re.sub(rf"\b{old}\b", new, line) for line in lines.read_text().splitlines(keepends=True)
    ))
    for path in files(".rt", ".antt", ".edit"):
        text = path.read_text()
        turned = re.sub(rf"\bRattle([·.]){old}(?=[·.])", rf"Rattle\1{new}", text)
        turned = re.sub(rf"\b{old}::", f"{new}::", turned)
        if turned != text:
            path.write_text(turned)


def snake(name):
    return re.sub(r"(?<=[a-z0-9])([A-Z])", lambda m: "_" + m[1].lower(), name).replace("-", "_")


def old_spelling(name):
    return "-" in name or (name[0].islower() and re.search(r"[a-z][A-Z]", name))


def own_names():
    names, goals = set(), set()
    for path in files(".antt"):
        text = path.read_text()
        goals |= set(GOAL.findall(text))
        for pattern in DECLARED:
            for found in pattern.findall(text):
                names |= set(found.split())
    return {n for n in names - goals if old_spelling(n)}


def library_names():
    """What the files bring in from elsewhere keeps its spelling."""
    names = set()
    for path in files(".rt", ".antt"):
        for module, items in re.findall(r"use ([\w.'·]+)\.\{([^}]*)\}", path.read_text()):
            if not any(module.startswith(f"Rattle.{c.name}.") for c in (ROOT / "crates").iterdir()):
                names |= {item.split(" as ")[0].strip() for item in items.split(",")}
    return names


def respell():
    library = library_names()
    turned = {n: snake(n) for n in own_names() - library}
    # a name that a clause brings in under another one: `code as codeOf`
    for path in files(".rt", ".antt"):
        for alias in re.findall(r" as ([^\W\d][\w'-]*)", path.read_text()):
            if old_spelling(alias):
                turned[alias] = snake(alias)
    turned |= SPECIAL
    look(turned)
    for path in files(".rt", ".antt"):
        text = path.read_text()
        # a quoted byte or text is no name
        new = re.sub(r'"[^"\n]*"|[.]?[^\W\d][\w\'-]*', lambda m: turn(m[0], turned, path.suffix == ".rt"), text)
        new = re.sub(r"^ghost use .*", bring_in, new, flags=re.M) if path.suffix == ".rt" else new
        if new != text:
            path.write_text(new)
    for old, new in sorted(turned.items()):
        print(f"{old} -> {new}")


def turn(word, turned, source):
    if word.startswith("."):
        return "." + (CALLED.get(word[1:]) or turn(word[1:], turned, source))
    if source and word in MIRRORED:
        return MIRRORED[word] + "_of"
    return turned.get(word, word)


def bring_in(line):
    return re.sub(rf"\b({'|'.join(MIRRORED.values())})_of\b", r"\1 as \1_of", line[0])


def look(turned):
    """Says which names fall together."""
    taken = {}
    for old, new in turned.items():
        if old not in MIRRORED:
            taken.setdefault(new, []).append(old)
    here = set()
    for path in files(".rt", ".antt"):
        here |= set(NAME.findall(path.read_text()))
    for new, olds in sorted(taken.items()):
        if len(olds) > 1 or (new in here and new not in SPECIAL):
            print(f"look: {', '.join(olds)} and {new} fall together")


def main():
    if sys.argv[1:] == ["before"]:
        swap(OWN, AWAY)
    elif sys.argv[1:] == ["after"]:
        swap(AWAY, OWN)
        respell()
    else:
        raise SystemExit(__doc__)


if __name__ == "__main__":
    main()
