#!/usr/bin/env python3
"""Counts the places of docs/DESIGN-PASS.md in the code of the crates (crates/*/src/*.rt).

    places.py [--root FOLDER] [--list POINT]

Without --list: a line for each point with its count. With it: the places of that point, a line each.
"""
import argparse
import collections
import pathlib
import re
import sys

POINTS = {
    "1a": "own enums of the shape of Option or Result",
    "1b": "numbers that stand for none or full",
    "1c": "questions by number",
    "1d": "constants for kinds and opcodes",
    "1e": "tests of a kind or an opcode by its number",
    "2": "groups of functions with one shape",
    "3": "loops that count by hand",
    "4": "equality, copying, conversion, printing by hand",
    "5a": "facts that three or more functions require",
    "5b": "groups of three or more parameters that travel together",
    "6": "buffers with a count beside them",
    "7": "switches on which step to run",
}
BY_HAND = re.compile(
    r"^(same|below|is_(letter|digit|name)|copy|move|paste|clear|wide|widened|narrow|smaller|larger|hex|decimal|digit|shown|print|leading)(_|$)"
)
COUNTS = r"(n|k|m|count|len|size|used|end|from|done|open)"


class Function:
    """A function: its file and line, name, parameters, the facts that it requires, and its body's lines."""

    def __init__(self, file, line, name, params, requires, body):
        self.file, self.line, self.name = file, line, name
        self.params, self.requires, self.body = params, requires, body

    def at(self):
        return f"{self.file}:{self.line} {self.name}"


def bare(line):
    """The line without its comment; nothing of a ghost line."""
    if re.match(r"\s*(ghost|//|#!?\[)", line):
        return ""
    return re.sub(r"\s*//.*$", "", line)


def split_top(text, mark):
    """The parts of the text between marks that stand in no bracket."""
    parts, depth, part, i = [], 0, "", 0
    while i < len(text):
        if text[i] in "([{<" and not text.startswith("<=", i):
            depth += 1
        elif text[i] in ")]}>" and text[i - 1 : i + 1] not in ("->", "=>"):
            depth -= 1
        if depth == 0 and text.startswith(mark, i):
            parts.append(part)
            part, i = "", i + len(mark)
            continue
        part += text[i]
        i += 1
    return [p.strip() for p in parts + [part] if p.strip()]


def functions_of(file, lines):
    """The functions of a file."""
    found, i = [], 0
    while i < len(lines):
        m = re.match(r"(\s*)(pub(\(crate\))? )?fn (\w+)", lines[i])
        if not m:
            i += 1
            continue
        head, j = lines[i], i
        while j + 1 < len(lines) and not re.search(r"\)( -> .*)?( \{)?$", head):
            j += 1
            head += " " + lines[j].strip()
        inside = re.search(r"fn \w+(?:<[^(]*>)?\((.*)\)", head)
        params = split_top(inside.group(1), ",") if inside else []
        requires = []
        while j < len(lines) and not (lines[j].rstrip() == m.group(1) + "{" or lines[j].endswith(" {")):
            j += 1
            if j < len(lines):
                r = re.match(r"\s*requires \{ (.*) \}$", lines[j])
                if r:
                    requires += split_top(r.group(1), " × ")
        body, j = [], j + 1
        while j < len(lines) and lines[j].rstrip() != m.group(1) + "}":
            body.append((j + 1, bare(lines[j])))
            j += 1
        found.append(Function(file, i + 1, m.group(4), params, requires, body))
        i = j
    return found


def enums_of(file, lines):
    """The enums of a file: place, name, variants."""
    found = []
    for i, line in enumerate(lines):
        m = re.match(r"\s*(pub(\(crate\))? )?enum (\w+)", line)
        if not m:
            continue
        variants, j, depth = [], i + 1, 0
        while j < len(lines) and (depth or lines[j].strip() != "}"):
            text = bare(lines[j]).strip()
            if text and depth == 0:
                variants.append(text)
            depth += text.count("{") - text.count("}")
            j += 1
        found.append((f"{file}:{i + 1} {m.group(3)}", variants))
    return found


def shape(body):
    """A body with names, numbers and strings taken out."""
    text = "\n".join(t.strip() for _, t in body if t.strip())
    text = re.sub(r'b?"[^"]*"', "s", text)
    return re.sub(r"\b(?!if\b|else\b|while\b|for\b|return\b|match\b|let\b|mut\b|in\b|as\b)[A-Za-z_]\w*(::\w+)*|\b\d[\w]*", "x", text)


def places(root):
    """All places by point."""
    found = {point: [] for point in POINTS}
    functions = []
    for path in sorted(root.glob("crates/*/src/**/*.rt")):
        file, lines = str(path.relative_to(root)), path.read_text().split("\n")
        crate = file.split("/")[1]
        mine = functions_of(file, lines)
        functions += mine
        for at, variants in enums_of(file, lines):
            if len(variants) == 2 and any("(" in v or "{" in v for v in variants):
                found["1a"].append(at)
        for i, line in enumerate(lines):
            text, at = bare(line), f"{file}:{i + 1} {line.strip()}"
            if re.search(r"\breturn 0;|\bOVER\b|\b(p|q|next|r|end|slot|made|i) == 0\b|^    0$", text) and crate != "numerals":
                found["1b"].append(at)
            if re.search(r"\b(Refused|Unread|Err|refused|noted|No|note)\((\w+, )?\d+\b|return (1[0-9]|2[0-4]|3[1-5]);", text) and crate != "questions":
                found["1c"].append(at)
            if crate == "numerals" and re.search(r"/(expr|stmt|operators|ops|op_bytes|op_places)\.rt$", file) and re.search(r"\bpub const \w+: ", text):
                found["1d"].append(at)
            elif re.search(r"\b(expr|stmt|operators|ops|op_bytes|op_places)::[A-Z_0-9]+\b", text) and not re.match(r"\s*(pub )?use ", text):
                found["1e"].append(at)
            if re.search(r"\bwhile\b|\bloop \{", text):
                found["3"].append(at)
    by_shape, facts, groups = (collections.defaultdict(list) for _ in range(3))
    for f in functions:
        if sum(1 for _, t in f.body if t.strip()) >= 4:
            by_shape[shape(f.body)].append(f.at())
        for fact in f.requires:
            facts[re.sub(r"\b(\w+)\.(now|old)\b", r"\1", fact).strip("() ")].append(f.at())
        for n in range(3, len(f.params) + 1):
            for k in range(len(f.params) - n + 1):
                groups[tuple(f.params[k : k + n])].append(f.at())
        if BY_HAND.match(f.name):
            found["4"].append(f.at())
        for a, b in zip(f.params, f.params[1:]):
            if re.search(r": &('\w+ )?(mut )?\[", a) and re.match(COUNTS + r": (u32|usize)$", b):
                found["6"].append(f"{f.at()} ({a}, {b})")
        for p in f.params:
            m = re.match(r"(\w+): (bool|u8|u32)$", p)
            text = "\n".join(t for _, t in f.body)
            if m and re.search(rf"\bif {m.group(1)} (\{{|==)|\bmatch {m.group(1)} \{{", text):
                found["7"].append(f"{f.at()} ({p})")
    found["2"] = [" | ".join(v) for v in by_shape.values() if len(v) > 1]
    found["5a"] = [f"{k}: {len(set(v))}" for k, v in facts.items() if len(set(v)) >= 3]
    often = {k: len(set(v)) for k, v in groups.items() if len(set(v)) >= 3}
    for k, n in often.items():
        if not any(len(o) > len(k) and often[o] >= n and any(o[i : i + len(k)] == k for i in range(len(o))) for o in often):
            found["5b"].append(f"({', '.join(k)}): {n}")
    return found


def main():
    parser = argparse.ArgumentParser(description=__doc__, formatter_class=argparse.RawDescriptionHelpFormatter)
    parser.add_argument("--root", type=pathlib.Path, default=pathlib.Path(__file__).resolve().parent.parent)
    parser.add_argument("--list", choices=sorted(POINTS), help="the point whose places are listed")
    args = parser.parse_args()
    found = places(args.root)
    if args.list:
        print("\n".join(found[args.list]))
        return 0
    for point, what in POINTS.items():
        print(f"{point:3} {len(found[point]):4}  {what}")
    return 0


if __name__ == "__main__":
    sys.exit(main())
