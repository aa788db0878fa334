#!/usr/bin/env python3
"""Writes the repository's own names of antt in snake case: checkTree becomes check_tree, in specs, proofs, clauses and must-fail edits.

usage: python3 tools/respell.py [FOLDER]

It was run once, after Rattle's port.py had turned the spelling of an older Rattle (docs/PORT.md). A name is turned if it begins with a
small letter and has a capital after a small letter or a digit; types, and the parts of names that are a type's, keep theirs. Lemmas of
BESIDE had a name that a definition now gets: they go back to a dash. Where no name is left to turn, nothing is written.
"""

import pathlib
import re
import sys

# a lemma in snake case whose name a definition gets: one_more beside oneMore
BESIDE = (
    "at_first by_name code_is count_at goes_on laid_out left_after met_at no_byte no_stores one_class one_more second_at"
).split()
TOKEN = re.compile(r"[^\s(){}.;,@\"«»\[\]\\λ`:/]+")
HUMP = re.compile(r"([a-z0-9])([A-Z])")


def snake(name):
    return HUMP.sub(lambda it: f"{it[1]}_{it[2].lower()}", name)


def turned(it):
    name = it[0]
    return snake(name) if name[0].islower() and HUMP.search(name) else name


def antt_of(text, path):
    """Names that go back to a dash do so where they stand free: a step or a folder of that name is a function's."""
    if path.suffix == ".antt":
        for name in BESIDE:
            text = re.sub(rf"(?<![\w.'-]){name}(?![\w.'-])", name.replace("_", "-"), text)
    return TOKEN.sub(turned, text)


def main():
    root = pathlib.Path(sys.argv[1] if len(sys.argv) > 1 else pathlib.Path(__file__).parents[1])
    paths = [it for it in sorted((root / "crates").rglob("*")) if it.suffix in (".antt", ".rt", ".edit") and "out" not in it.relative_to(root).parts]
    texts = {it: it.read_text(encoding="utf-8") for it in paths}
    if all(TOKEN.sub(turned, text) == text for text in texts.values()):
        return
    for path, old in texts.items():
        new = antt_of(old, path)
        if new != old:
            path.write_text(new, encoding="utf-8")


if __name__ == "__main__":
    main()
