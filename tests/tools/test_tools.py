"""Tests of the tools that a person uses: a script's text to a tree record, and the building of the command."""

import io
import os
import pathlib
import re
import shutil
import subprocess
import sys
import tempfile
import unittest

ROOT = pathlib.Path(__file__).resolve().parents[2]
sys.path.insert(0, str(ROOT / "tools"))

import tree_of  # noqa: E402

SAMPLES = sorted((ROOT / "samples").glob("*.py"))

# locales and encodings that a terminal may have
TERMINALS = [
    {},
    {"LC_ALL": "C", "PYTHONUTF8": "0", "PYTHONCOERCECLOCALE": "0"},
    {"LC_ALL": "POSIX", "PYTHONIOENCODING": "latin-1"},
    {"PYTHONIOENCODING": "ascii:strict"},
]


def run(tool, arguments, terminal, data=b""):
    command = [sys.executable, str(ROOT / "tools" / tool), *arguments]
    return subprocess.run(command, input=data, capture_output=True, check=False, env={**os.environ, **terminal})

# a script and the bytes after the header
TREES = {
    "": "0000",
    "pass": "000102",
    "while True:\n    break\n": "0001 07 02 0001 00",
    "a and b": "0001 03 08 0c 0601 61 0601 62",
    "a and b and c": "0001 03 08 0c 08 0c 0601 61 0601 62 0601 63",
    "if a:\n    pass\nelif b:\n    pass\n": "0001 06 0601 61 0001 02 0001 0601 62 0001 02 00",
    "if a:\n    pass\nelse:\n    if b:\n        pass\n": "0001 06 0601 61 0001 02 0000 01 0001 06 0601 62 0001 02 0000 00",
    "a, (b, c) = t": "0001 05 0d 0002 0601 61 0d 0002 0601 62 0601 63 0601 74",
    "() = t": "0001 05 0d 0000 0601 74",
    "o.x = 1": "0001 05 0a 0601 6f 01 78 03 0000000000000001",
    "o[i] = -1.5": "0001 05 10 0601 6f 0601 69 07 01 04 3ff8000000000000",
    "for i in r:\n    continue\n": "0001 08 01 69 0601 72 0001 01",
    "def f(a, b):\n    return\n": "0001 09 01 66 0002 01 61 01 62 0001 04 00",
    "class C:\n    x = 1\n    def m(self):\n        pass\n": "0001 0a 01 43 0001 01 6d 0001 04 73656c66 0001 02 0001 01 78 03 0000000000000001",
    "f(1 // 2, 'ab')": "0001 03 09 0601 66 0002 08 04 03 0000000000000001 03 0000000000000002 05 0002 6162",
    "{1: 2}": "0001 03 0c 0001 03 0000000000000001 03 0000000000000002",
    "{1}": "0001 03 0e 0001 03 0000000000000001",
    "lambda x: not x": "0001 03 11 0001 01 78 07 00 0601 78",
    "x = 9223372036854775807": "0001 05 0601 78 03 7fffffffffffffff",
    "__for_iter___": "0001 03 060d 5f5f666f725f697465725f5f5f",
    "__for_iter_x__": "0001 03 060e 5f5f666f725f697465725f785f5f",
    "__for_iter_2___": "0001 03 060f 5f5f666f725f697465725f325f5f5f",
    "'__for_iter_2__'": "0001 03 05000e 5f5f666f725f697465725f325f5f",
    "'é'": "0001 03 050002 c3a9",
    "'e\u0301'": "0001 03 050003 65cc81",
    "'\\xe9'": "0001 03 050002 c3a9",
    "'\u07ff\u0800\ud7ff\ue000\uffff'": "0001 03 05000e dfbf e0a080 ed9fbf ee8080 efbfbf",
    "'\U00010000\U0010ffff'": "0001 03 050008 f0908080 f48fbfbf",
    "class C:\n    x = 'é'\n": "0001 0a 01 43 0000 0001 01 78 050002 c3a9",
    "if 'é':\n    pass\nelif b:\n    pass\n": "0001 06 050002 c3a9 0001 02 0001 0601 62 0001 02 00",
    f"__for_iter_{'0' * 52}__": "0001 03 0641 5f5f666f725f697465725f" + "30" * 52 + "5f5f",
    # the lowering refuses these
    "a, b.c = t": "0001 05 0d 0002 0601 61 0a 0601 62 01 63 0601 74",
    "[a] = t": "0001 05 0b 0001 0601 61 0601 74",
    "x = 'é'": "0001 05 0601 78 05 0002 c3a9",
    "x = '\\ud800'": "0001 05 0601 78 05 0003 eda080",
    "é = 1": "0001 05 0602 c3a9 03 0000000000000001",
}

# a script, and where its parts stand: first byte, line and column, last line
PLACES = {
    "": [],
    "pass\nbreak": [(7, 1, 1, 1), (8, 2, 1, 2)],
    "a, b = f(1)": [(7, 1, 1, 1), (8, 1, 1, 1), (11, 1, 1, 1), (12, 1, 1, 1), (14, 1, 4, 1), (15, 1, 4, 1), (17, 1, 8, 1), (18, 1, 8, 1), (19, 1, 8, 1), (23, 1, 10, 1)],
    "class C:\n  x = 1\n  def m(self): pass": [(7, 1, 1, 3), (8, 1, 7, 1), (12, 3, 7, 3), (16, 3, 9, 3), (23, 3, 16, 3), (26, 2, 3, 2), (28, 2, 7, 2)],
    "'é', (o\n . a)": [(7, 1, 1, 2), (8, 1, 1, 2), (11, 1, 1, 1), (16, 1, 7, 2), (17, 1, 7, 1), (18, 1, 7, 1), (20, 2, 4, 2)],
    "if 'é': a\nelif b: c": [(7, 1, 1, 2), (8, 1, 4, 1), (15, 1, 9, 1), (16, 1, 9, 1), (17, 1, 9, 1), (21, 2, 6, 2), (22, 2, 6, 2), (26, 2, 9, 2), (27, 2, 9, 2), (28, 2, 9, 2)],
}

# a script, the line and column of what is refused, and a word of the message
REFUSALS = [
    ("x += 1", 1, 1, "augmented"),
    ("x = 1 < y < 2", 1, 5, "chained comparison"),
    ("a = b = 1", 1, 1, "chained assignment"),
    ("pass\nimport os", 2, 1, "import"),
    ("x = [i for i in y]", 1, 5, "comprehension"),
    ("x = y[1:2]", 1, 7, "slice"),
    ("f(x=1)", 1, 1, "by name"),
    ("def f(x=1):\n    pass", 1, 1, "plain names"),
    ("for a, b in c:\n    pass", 1, 5, "plain name"),
    ("while a:\n    pass\nelse:\n    pass", 4, 5, "else block"),
    ("x = 9223372036854775808", 1, 5, "64 bits"),
    ("f('é', x=1)", 1, 1, "by name"),
    ("f('é', [i for i in y])", 1, 8, "comprehension"),
    ("x = '" + "é" * 32768 + "'", 1, 5, "65,535 bytes in a string"),
    ("x = 2 ** 3", 1, 5, "operator"),
    ("x = a in b", 1, 5, "comparison"),
    ("x = (1", 1, 5, "never closed"),
    ("class C(B):\n    pass", 1, 1, "bases"),
]

# a script, and the line and column of a name that is refused, with a word of the message
NAMES = [
    ("é = 1", 1, 1, "ASCII"),
    ("x = ['é', é]", 1, 11, "ASCII"),
    ("pass\ndef é():\n    pass", 2, 5, "ASCII"),
    ("o.é = 1", 1, 3, "ASCII"),
    ("x = lambda a, é: 1", 1, 15, "ASCII"),
    ("class É:\n    pass", 1, 7, "ASCII"),
    ("\ufb01n = 1", 1, 1, "ASCII"),
    ("pass\nx = __for_iter_2__", 2, 5, "__for_iter_2__ is one of a loop's iterator (33)"),
    ("o . __for_iter_2__ = 1", 1, 5, "(33)"),
    ("(o.p\n  .__for_iter_2__)()", 2, 4, "(33)"),
    ("for __for_iter_2__ in r:\n    pass", 1, 5, "(33)"),
    ("def __for_iter_2__():\n    pass", 1, 5, "(33)"),
    ("def f(a, __for_iter_2__):\n    pass", 1, 10, "(33)"),
    ("class __for_iter_2__:\n    pass", 1, 7, "(33)"),
    ("class C:\n    def __for_iter_2__(self):\n        pass", 2, 9, "(33)"),
    ("class C:\n    __for_iter_2__ = 1", 2, 5, "(33)"),
    ("class C:\n    a = [1, __for_iter_2__]", 2, 13, "(33)"),
    ("x = lambda __for_iter_2__: 1", 1, 12, "(33)"),
    ("a, (b, __for_iter_2__) = t", 1, 8, "(33)"),
    ("f(__for_iter_" + "0" * 51 + "__)", 1, 3, "(33)"),
]


class TreeOf(unittest.TestCase):
    def test_trees(self):
        for source, rest in TREES.items():
            with self.subTest(source=source):
                tree = tree_of.tree_of(source)
                expected = bytes.fromhex("01" + rest)
                self.assertEqual(tree[4:].hex(), expected.hex())
                self.assertEqual(int.from_bytes(tree[:4], "big"), len(tree) - 4)

    def test_refusals(self):
        for source, line, column, word in REFUSALS:
            with self.subTest(source=source):
                with self.assertRaises(tree_of.Refused) as caught:
                    tree_of.tree_of(source)
                self.assertEqual((caught.exception.line, caught.exception.column), (line, column))
                self.assertIn(word, str(caught.exception))

    def test_names(self):
        for source, line, column, word in NAMES:
            with self.subTest(source=source):
                with self.assertRaises(tree_of.Refused) as caught:
                    tree_of.judge_names(source)
                self.assertEqual((caught.exception.line, caught.exception.column), (line, column))
                self.assertIn(word, str(caught.exception))
        for source in TREES:
            with self.subTest(source=source):
                if source != "é = 1":
                    tree_of.judge_names(source)

    def test_places(self):
        for source, places in PLACES.items():
            with self.subTest(source=source):
                self.assertEqual(list(tree_of.places(tree_of.tree_of(source))), places)

    def test_samples(self):
        for script in SAMPLES:
            with self.subTest(script=script.name):
                tree = tree_of.tree_of(script.read_text(encoding="utf-8"))
                self.assertEqual(tree, script.with_suffix(".tree").read_bytes())

    def test_command(self):
        for terminal in TERMINALS:
            with self.subTest(terminal=terminal):
                good = run("tree_of.py", ["-"], terminal)
                self.assertEqual((good.returncode, good.stdout.hex()), (0, "00000003010000"))
                accents = run("tree_of.py", ["-"], terminal, "'é'".encode("utf-8"))
                self.assertEqual((accents.returncode, accents.stdout[7:].hex()), (0, "03050002c3a9"))
                marked = run("tree_of.py", ["-"], terminal, "'é'".encode("utf-8-sig"))
                self.assertEqual(marked.stdout, accents.stdout)
                bad = run("tree_of.py", ["-"], terminal, b"x += 1")
                self.assertEqual((bad.returncode, bad.stdout), (1, b""))
                self.assertTrue(bad.stderr.startswith(b"<stdin>:1:1: "))
                named = run("tree_of.py", ["-"], terminal, "f('é', é)".encode("utf-8"))
                self.assertEqual((named.returncode, named.stdout), (1, b""))
                self.assertTrue(named.stderr.startswith(b"<stdin>:1:8: "))
                latin = run("tree_of.py", ["-"], terminal, "'é'".encode("latin-1"))
                self.assertEqual((latin.returncode, latin.stdout), (1, b""))
                self.assertIn(b"not UTF-8", latin.stderr)


    def test_each(self):
        scripts = [b"pass", b"x += 1", "'é'".encode("latin-1"), b"", "é = 1".encode("utf-8"), b"x = 1\n"]
        stream = b"".join(len(script).to_bytes(4, "big") + script for script in scripts)
        for terminal in TERMINALS:
            with self.subTest(terminal=terminal):
                answers = io.BytesIO(run("tree_of.py", ["--each"], terminal, stream).stdout)
                for script in scripts:
                    unfit = answers.read(1) == b"\x01"
                    told = answers.read(int.from_bytes(answers.read(4), "big"))
                    alone = run("tree_of.py", ["-", "--places"], terminal, script)
                    said = alone.stderr.strip()[len(b"<stdin>"):] if unfit else alone.stdout
                    self.assertEqual((unfit, told), (alone.returncode == 1, said))
                self.assertEqual(answers.read(), b"")


# what stands in for rt: it proves each crate in its folder, or fails at the crate parts
PROVES = """#!/bin/sh
[ "$*" = lib ] && [ "${PWD%/crates/*}" != "$PWD" ] && echo "logic=proved functions=1"
"""
FAILS = """#!/bin/sh
[ "${PWD##*/}" != parts ] || { echo "fn parts::ask: not proved"; exit 1; }
"""
# what stands in for cargo: it builds a command that says its words
BUILDS = """#!/bin/sh
mkdir -p target/release
printf '#!/bin/sh\necho "words: $*"\n' >target/release/rulketoos
chmod +x target/release/rulketoos
"""


class Build(unittest.TestCase):
    """tools/build and tools/show in a copy of the repository, with stand-ins for rt and cargo."""

    def setUp(self):
        folder = tempfile.TemporaryDirectory()
        self.addCleanup(folder.cleanup)
        self.root = pathlib.Path(folder.name)
        shutil.copytree(ROOT / "tools", self.root / "tools", ignore=shutil.ignore_patterns("__pycache__"))
        for name in ("crates.txt", "README.md"):
            shutil.copy(ROOT / name, self.root)
        self.crates = re.findall("^([a-z0-9_]+)(?: staticlib)?:", (ROOT / "crates.txt").read_text(), re.MULTILINE)
        for name in ("rust/rulketoos", "bin", *(f"crates/{crate}" for crate in self.crates)):
            (self.root / name).mkdir(parents=True)
        for name in "awk bash cat chmod cut dirname env grep mkdir mktemp python3 readlink rm sed sh sort tail".split():
            (self.root / "bin" / name).symlink_to(shutil.which(name))

    def has(self, name, text):
        path = self.root / "bin" / name
        path.write_text(text)
        path.chmod(0o755)

    def run_tool(self, *words):
        command = [str(self.root / "tools" / words[0]), *words[1:]]
        path = {"PATH": str(self.root / "bin"), "HOME": str(pathlib.Path.home())}
        return subprocess.run(command, env=path, capture_output=True, text=True, check=False)

    def test_progress(self):
        for name, text in (("rt", PROVES), ("cargo", BUILDS), ("cc", PROVES)):
            self.has(name, text)
        first = self.run_tool("show", "spine.py")
        self.assertEqual((first.returncode, first.stdout), (0, "words: show spine.py\n"), first.stderr)
        total = first.stderr.split()[1]
        second = self.crates[1]
        self.assertRegex(first.stderr, f"(?m)^1 of {total}: definitions proved \\([0-9]+ s\\); [0-9]+ s so far; next: {second}$")
        self.assertIn(f"2 of {total}: {second} proved (", first.stderr)
        self.assertRegex(first.stderr, f"(?m)^{total} of {total}: exports proved \\(.*; next: the command$")
        self.assertIn("rulketoos is built; ", first.stderr)
        again = self.run_tool("rulketoos", "check", "a b")
        self.assertEqual((again.stdout, again.stderr), ("words: check a b\n", ""))

    def test_missing_tools(self):
        missing = self.run_tool("show", "spine.py")
        self.assertEqual((missing.returncode, missing.stdout), (2, ""))
        for name in ("rt is missing: install the Rattle toolchain", "cargo is missing: install", "cc is missing: install"):
            self.assertIn(name, missing.stderr)
        self.assertNotIn("python3 is missing", missing.stderr)

    def test_failed_proof(self):
        for name, text in (("rt", FAILS), ("cargo", BUILDS), ("cc", PROVES)):
            self.has(name, text)
        failed = self.run_tool("build")
        self.assertEqual(failed.returncode, 1)
        self.assertIn("fn parts::ask: not proved\nrt lib in crates/parts failed", failed.stderr)


if __name__ == "__main__":
    unittest.main()
