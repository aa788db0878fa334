#!/usr/bin/env python3
"""Turns a script's source text into a tree record (docs/FORMAT.md).

    tools/tree_of.py SCRIPT [-o TREE] [--places]      SCRIPT may be - for standard input
    tools/tree_of.py --each                           for programs: many scripts

The script is UTF-8, whatever the locale. It is read by Python's own parser; what
Python has and the language has not is refused with its line and column, counted
in characters from 1, and so are names outside ASCII and names of loops'
iterators (33). Nothing is written where the script is refused. Other names,
strings, targets and depths are not judged here: the lowering does that.

With --places no name is judged, and the tree is followed by a line for each
statement, expression and name in it: the number of its first byte, its line and
its column, and its last line. The tree's header says where these lines begin.

With --each scripts come on standard input, each after its length in four bytes.
Each is answered before the next is read: by the byte 0, a length in four bytes
and the tree with its places, as by --places; or by 1, a length and what is wrong,
as it would stand after the script's name.
"""

import argparse
import ast
import functools
import io
import itertools
import re
import struct
import sys
import tokenize
import types

UNARY = {ast.Not: 0, ast.USub: 1, ast.UAdd: 2}
BINARY = {ast.Add: 0, ast.Sub: 1, ast.Mult: 2, ast.Div: 3, ast.FloorDiv: 4, ast.Mod: 5}
COMPARE = {ast.Eq: 6, ast.NotEq: 7, ast.Lt: 8, ast.LtE: 9, ast.Gt: 10, ast.GtE: 11}
LOGICAL = {ast.And: 12, ast.Or: 13}

WORDS = {
    ast.AugAssign: "an augmented assignment (write x = x + 1)",
    ast.AnnAssign: "an annotated assignment",
    ast.Import: "import",
    ast.ImportFrom: "import",
    ast.Global: "global",
    ast.Nonlocal: "nonlocal",
    ast.Delete: "del",
    ast.Raise: "raise",
    ast.Try: "try",
    ast.With: "with",
    ast.Assert: "an assert statement (write assert(x))",
    ast.IfExp: "a conditional expression",
    ast.ListComp: "a comprehension",
    ast.SetComp: "a comprehension",
    ast.DictComp: "a comprehension",
    ast.GeneratorExp: "a generator",
    ast.JoinedStr: "a formatted string",
    ast.Starred: "a starred expression",
    ast.Slice: "a slice",
    ast.NamedExpr: "an assignment expression",
    ast.Await: "await",
    ast.Yield: "yield",
    ast.YieldFrom: "yield",
    ast.AsyncFunctionDef: "async",
    ast.AsyncFor: "async",
    ast.AsyncWith: "async",
}


# the names of iterators that are not too long for a name
ITERATOR = re.compile("__for_iter_[0-9]{1,51}__")


class Refused(Exception):
    """What the language has not, and where: line and column from 1."""

    def __init__(self, line, column, message):
        super().__init__(message)
        self.line = line
        self.column = column


def place(node):
    return getattr(node, "lineno", 1), getattr(node, "col_offset", 0) + 1


def refuse(node, message):
    raise Refused(*place(node), message)


def count_characters(module, lines):
    """Columns of Python's nodes count bytes; here they count characters."""
    for node in ast.walk(module):
        for line, column in (("lineno", "col_offset"), ("end_lineno", "end_col_offset")):
            if hasattr(node, column):
                before = lines[getattr(node, line) - 1].encode("utf-8")[: getattr(node, column)]
                setattr(node, column, len(before.decode("utf-8", "replace")))


def after_word(node, lines):
    """Where the name of a def or class stands: after that word."""
    word = re.match("(def|class)[ \t\f]+", lines[node.lineno - 1][node.col_offset :])
    return types.SimpleNamespace(lineno=node.lineno, col_offset=node.col_offset + word.end()) if word else node


def at_end(node):
    """Where the name of an attribute stands: at its end."""
    return types.SimpleNamespace(lineno=node.end_lineno, col_offset=node.end_col_offset - len(node.attr))


class Part(bytes):
    """Bytes of a tree, with the pieces they were joined from and the node they were made of, if any."""

    pieces = ()
    node = None

    def __add__(self, other):
        return joined([self, other])

    def __radd__(self, other):
        return joined([other, self])


def joined(pieces):
    part = Part(b"".join(pieces))
    starts = itertools.accumulate(map(len, pieces), initial=0)
    part.pieces = [(start, piece) for start, piece in zip(starts, pieces) if isinstance(piece, Part)]
    return part


def placed(make):
    """What is made of a node keeps the node."""

    @functools.wraps(make)
    def made(node, *rest):
        part = joined([make(node, *rest)])
        part.node = node
        return part

    return made


def places(tree):
    """Where each part that keeps its node stands: the number of its first byte, its line and its column, its last line."""
    todo = [(0, tree)]
    while todo:
        start, part = todo.pop()
        if part.node is not None:
            line, column = place(part.node)
            yield start, line, column, getattr(part.node, "end_lineno", line)
        todo.extend((start + inside, piece) for inside, piece in reversed(part.pieces))


def not_in_language(node):
    what = WORDS.get(type(node), "this form (" + type(node).__name__ + ")")
    refuse(node, what + " is not in the language")


def count(node, n, what):
    if n > 0xFFFF:
        refuse(node, "more than 65,535 " + what)
    return struct.pack(">H", n)


def counted(node, parts, what):
    return count(node, len(parts), what) + joined(parts)


@placed
def name(node, text):
    data = text.encode("utf-8")
    if len(data) > 255:
        refuse(node, "a name of more than 255 bytes")
    return bytes([len(data)]) + data


def constant(node):
    value = node.value
    if value is None:
        return b"\x00"
    if value is False:
        return b"\x01"
    if value is True:
        return b"\x02"
    if isinstance(value, int):
        if value >= 1 << 63:
            refuse(node, "an integer outside 64 bits")
        return b"\x03" + struct.pack(">q", value)
    if isinstance(value, float):
        return b"\x04" + struct.pack(">d", value)
    if isinstance(value, str):
        data = value.encode("utf-8", "surrogatepass")
        return b"\x05" + count(node, len(data), "bytes in a string") + data
    refuse(node, "a constant of type " + type(value).__name__ + " is not in the language")


def logical(node):
    """`a and b and c` is `(a and b) and c`."""
    tree = expression(node.values[0])
    for value in node.values[1:]:
        tree = bytes([8, LOGICAL[type(node.op)]]) + tree + expression(value)
    return tree


def comparison(node):
    if len(node.ops) != 1:
        refuse(node, "a chained comparison is not in the language")
    operator = COMPARE.get(type(node.ops[0]))
    if operator is None:
        refuse(node, "this comparison (" + type(node.ops[0]).__name__ + ") is not in the language")
    return bytes([8, operator]) + expression(node.left) + expression(node.comparators[0])


def operation(node):
    if isinstance(node, ast.UnaryOp):
        if type(node.op) not in UNARY:
            refuse(node, "this operator (" + type(node.op).__name__ + ") is not in the language")
        return bytes([7, UNARY[type(node.op)]]) + expression(node.operand)
    if type(node.op) not in BINARY:
        refuse(node, "this operator (" + type(node.op).__name__ + ") is not in the language")
    return bytes([8, BINARY[type(node.op)]]) + expression(node.left) + expression(node.right)


def call(node):
    if node.keywords:
        refuse(node, "arguments by name are not in the language")
    arguments = [expression(argument) for argument in node.args]
    return b"\x09" + expression(node.func) + counted(node, arguments, "arguments")


def dictionary(node):
    pairs = []
    for key, value in zip(node.keys, node.values):
        if key is None:
            refuse(value, "** is not in the language")
        pairs.append(expression(key) + expression(value))
    return b"\x0c" + counted(node, pairs, "pairs")


def parameters(node, arguments):
    extra = arguments.posonlyargs + arguments.kwonlyargs
    if extra or arguments.vararg or arguments.kwarg or arguments.defaults or arguments.kw_defaults:
        refuse(node, "parameters are plain names in the language")
    names = []
    for argument in arguments.args:
        if argument.annotation is not None:
            refuse(argument, "an annotation is not in the language")
        names.append(name(argument, argument.arg))
    return counted(node, names, "parameters")


@placed
def expression(node):
    if isinstance(node, ast.Constant):
        return constant(node)
    if isinstance(node, ast.Name):
        return b"\x06" + name(node, node.id)
    if isinstance(node, (ast.UnaryOp, ast.BinOp)):
        return operation(node)
    if isinstance(node, ast.BoolOp):
        return logical(node)
    if isinstance(node, ast.Compare):
        return comparison(node)
    if isinstance(node, ast.Call):
        return call(node)
    if isinstance(node, ast.Attribute):
        return b"\x0a" + expression(node.value) + name(at_end(node), node.attr)
    if isinstance(node, ast.Dict):
        return dictionary(node)
    displays = {ast.List: 11, ast.Tuple: 13, ast.Set: 14}
    if type(node) in displays:
        elements = [expression(element) for element in node.elts]
        return bytes([displays[type(node)]]) + counted(node, elements, "elements")
    if isinstance(node, ast.Subscript):
        return b"\x10" + expression(node.value) + expression(node.slice)
    if isinstance(node, ast.Lambda):
        return b"\x11" + parameters(node, node.args) + expression(node.body)
    not_in_language(node)


def assignment(node):
    if len(node.targets) != 1:
        refuse(node, "a chained assignment is not in the language")
    return b"\x05" + expression(node.targets[0]) + expression(node.value)


def conditional(node, lines):
    """An if with its elifs: Python nests an elif as an if in the else block."""
    tree = b"\x06" + expression(node.test) + block(node, node.body, lines)
    elifs = []
    rest = node.orelse
    while len(rest) == 1 and isinstance(rest[0], ast.If) and is_elif(rest[0], lines):
        elifs.append(expression(rest[0].test) + block(rest[0], rest[0].body, lines))
        rest = rest[0].orelse
    tree += counted(node, elifs, "elifs")
    return tree + (b"\x01" + block(node, rest, lines) if rest else b"\x00")


def is_elif(node, lines):
    return lines[node.lineno - 1][node.col_offset :].startswith("elif")


def loop(node, lines):
    if node.orelse:
        refuse(node.orelse[0], "an else block of a loop is not in the language")
    if isinstance(node, ast.While):
        return b"\x07" + expression(node.test) + block(node, node.body, lines)
    if not isinstance(node.target, ast.Name):
        refuse(node.target, "a loop's variable is a plain name in the language")
    return b"\x08" + name(node.target, node.target.id) + expression(node.iter) + block(node, node.body, lines)


def definition(node, lines):
    """A def or method without its kind byte."""
    if node.decorator_list:
        refuse(node.decorator_list[0], "a decorator is not in the language")
    if node.returns is not None:
        refuse(node.returns, "an annotation is not in the language")
    return name(after_word(node, lines), node.name) + parameters(node, node.args) + block(node, node.body, lines)


def class_definition(node, lines):
    if node.bases or node.keywords or node.decorator_list:
        refuse(node, "a class has no bases and no decorators in the language")
    methods = []
    attributes = []
    for item in node.body:
        if isinstance(item, ast.FunctionDef):
            methods.append(definition(item, lines))
        elif isinstance(item, ast.Assign) and len(item.targets) == 1 and isinstance(item.targets[0], ast.Name):
            attributes.append(name(item, item.targets[0].id) + expression(item.value))
        elif not isinstance(item, ast.Pass):
            refuse(item, "a class holds methods, attributes (x = value) and pass")
    head = b"\x0a" + name(after_word(node, lines), node.name)
    return head + counted(node, methods, "methods") + counted(node, attributes, "attributes")


@placed
def statement(node, lines):
    simple = {ast.Break: 0, ast.Continue: 1, ast.Pass: 2}
    if type(node) in simple:
        return bytes([simple[type(node)]])
    if isinstance(node, ast.Expr):
        return b"\x03" + expression(node.value)
    if isinstance(node, ast.Return):
        return b"\x04" + (b"\x00" if node.value is None else expression(node.value))
    if isinstance(node, ast.Assign):
        return assignment(node)
    if isinstance(node, ast.If):
        return conditional(node, lines)
    if isinstance(node, (ast.While, ast.For)):
        return loop(node, lines)
    if isinstance(node, ast.FunctionDef):
        return b"\x09" + definition(node, lines)
    if isinstance(node, ast.ClassDef):
        return class_definition(node, lines)
    not_in_language(node)


def block(node, statements, lines):
    return counted(node, [statement(item, lines) for item in statements], "statements")


def judge_names(source):
    """Refuses names outside ASCII, and names of loops' iterators (33), wherever they stand."""
    for token in tokenize.generate_tokens(io.StringIO(source, newline=None).readline):
        line, column = token.start
        if token.type in (tokenize.NAME, tokenize.ERRORTOKEN) and not token.string.isascii():
            raise Refused(line, column + 1, "a name with letters outside ASCII")
        if token.type == tokenize.NAME and ITERATOR.fullmatch(token.string):
            raise Refused(line, column + 1, f"the name {token.string} is one of a loop's iterator (33)")


def tree_of(source):
    """The tree record of a script's text."""
    try:
        module = ast.parse(source)
    except SyntaxError as error:
        raise Refused(error.lineno or 1, error.offset or 1, error.msg) from None
    except (ValueError, RecursionError, MemoryError) as error:
        raise Refused(1, 1, "Python's parser gives up: " + str(error)) from None
    lines = re.split("\r\n|\r|\n", source)
    if not source.isascii():
        count_characters(module, lines)
    rest = b"\x01" + block(module, module.body, lines)
    return struct.pack(">I", len(rest)) + rest


class Unfit(Exception):
    """What is wrong with a script, as it stands after the script's name."""


def record(data, with_places):
    """The tree of a script's bytes, with its places; or without, and its names are judged."""
    try:
        source = data.decode("utf-8-sig")
        tree = tree_of(source)
        if with_places:
            return tree + "".join(f"{start} {line} {column} {last}\n" for start, line, column, last in places(tree)).encode("ascii")
        judge_names(source)
        return tree
    except UnicodeDecodeError as error:
        raise Unfit(f": byte {error.start} is not UTF-8") from None
    except Refused as refusal:
        raise Unfit(f":{refusal.line}:{refusal.column}: {refusal}") from None
    except RecursionError:
        raise Unfit(": nested too deeply") from None


def each(scripts, answers):
    """Answers each script of a stream, before it reads the next."""
    while length := scripts.read(4):
        data = scripts.read(int.from_bytes(length, "big"))
        try:
            unfit, told = 0, record(data, True)
        except Unfit as error:
            unfit, told = 1, str(error).encode("utf-8", "backslashreplace")
        answers.write(struct.pack(">BI", unfit, len(told)) + told)
        answers.flush()


def main():
    sys.setrecursionlimit(5000)  # what is deeper than the lowering takes should still reach it, and be refused by 6
    parser = argparse.ArgumentParser(description="Turns a script's source text into a tree record.")
    parser.add_argument("script", nargs="?", help="the script's file, or - for standard input")
    parser.add_argument("-o", "--output", help="the tree's file; standard output if none is given")
    parser.add_argument("--places", action="store_true", help="after the tree, where each part of it stands in the script")
    parser.add_argument("--each", action="store_true", help="for programs: answers scripts that come on standard input")
    arguments = parser.parse_args()
    sys.stderr.reconfigure(encoding="utf-8", errors="backslashreplace")
    if arguments.each:
        each(sys.stdin.buffer, sys.stdout.buffer)
        return
    if arguments.script is None:
        parser.error("the script's file is missing")
    shown = "<stdin>" if arguments.script == "-" else arguments.script
    try:
        if arguments.script == "-":
            data = sys.stdin.buffer.read()
        else:
            with open(arguments.script, "rb") as file:
                data = file.read()
        tree = record(data, arguments.places)
    except OSError as error:
        sys.exit(f"{shown}: {error.strerror}")
    except Unfit as error:
        sys.exit(f"{shown}{error}")
    if arguments.output:
        with open(arguments.output, "wb") as file:
            file.write(tree)
    else:
        sys.stdout.buffer.write(tree)


if __name__ == "__main__":
    main()
