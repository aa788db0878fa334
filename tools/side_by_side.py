#!/usr/bin/env python3
"""Public signatures, clauses, type invariants and definitions of two checkouts, old and new side by side, as Markdown.

    side_by_side.py OLD NEW

OLD and NEW are folders with crates/. It reads by text, with the contracts.py of the toolchain's port folder.
"""
import json
import pathlib
import re
import subprocess
import sys

CONTRACTS = "/opt/rattle/port/contracts.py"
PUBLIC = r'\bpub (extern "C" )?fn {}\b'


def is_public(root, place):
    """Whether the function at 'CRATE FILE NAME' is public in that checkout; None where its file is not there."""
    crate, file, name = place.split(" ", 2)
    path = pathlib.Path(root, "crates", crate, file)
    if not path.exists():
        return None
    return re.search(PUBLIC.format(re.escape(re.split(r"[ .:]", name)[-1])), path.read_text()) is not None


def public(old, new, place):
    here = is_public(old, place)
    return is_public(new, place) if here is None else here


def pair(title, old, new):
    """One entry: its name, then the old lines and the new ones."""
    return "\n".join([f"{title}", *(f"- {x}" for x in old or ["(none)"]), *(f"+ {x}" for x in new or ["(none)"])])


def clauses(requires, ensures):
    said = [f"requires {name} {{ {text} }}".replace("  ", " ") for name, text in requires]
    return said + [f"ensures {name} {{ {text} }}".replace("  ", " ") for name, text in ensures]


def invariants(root):
    """The ghost fields of each struct: 'CRATE STRUCT' to its facts."""
    found = {}
    for path in sorted(pathlib.Path(root).glob("crates/*/src/**/*.rt")):
        for name, body in re.findall(r"struct (\w+)[^{;(]*\{\n(.*?)\n\}", path.read_text(), re.S):
            facts = re.findall(r"ghost (\w+): \{ (.*?) \}(?: by|,)", body)
            if facts:
                found[f"{path.relative_to(root).parts[1]} {name}"] = [f"{n}: {f}" for n, f in facts]
    return found


def block(title, entries):
    return f"### {title}\n\n" + ("```diff\n" + "\n\n".join(entries) + "\n```\n" if entries else "None.\n")


def main(old, new):
    said = subprocess.run([sys.executable, CONTRACTS, old, new, "--json"], capture_output=True, text=True, check=True).stdout
    found = json.loads(said)
    one = lambda text: re.sub(r"\s+", " ", text)
    signatures = [pair(p, [one(a)], [one(b)]) for p, a, b in found["signatures changed"] if public(old, new, p)]
    changed = [pair(p, clauses(a, b), clauses(c, d)) for p, a, b, c, d in found["contracts changed"] if public(old, new, p)]
    gone = [p for p in found["functions not found again"] if is_public(old, p.split(" (requires")[0])]
    before, after = invariants(old), invariants(new)
    facts = [pair(n, before.get(n, []), after.get(n, [])) for n in sorted({**before, **after}) if before.get(n) != after.get(n)]
    definitions = [pair(f"{c} {n}", a, b) for c, n, a, b in found["definitions"]["changed"]]
    print(block("Public signatures", signatures))
    print(block("Clauses of public functions", changed))
    print(block("Public functions that are gone", gone))
    print(block("Type invariants", facts))
    print(block("Definitions", definitions))
    print(block("Definitions that are gone", [" ".join(x) for x in found["definitions"]["gone"]]))
    return 0


if __name__ == "__main__":
    sys.exit(main(*sys.argv[1:3]))
