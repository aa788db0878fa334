#!/usr/bin/env python3
"""Holds the definitions against the vectors by computing.

Makes a copy of crates/definitions in a temporary folder, with a module of
theorems `definition of this record ≡ answer of the vectors` in the place of its
proofs, each proved by computing alone, and has rt check it. Long records are
left to the programs.
The last line is 'N passed, M failed'.
"""

import pathlib
import shutil
import subprocess
import sys
import tempfile

ROOT = pathlib.Path(__file__).resolve().parents[2]
VECTORS = ROOT / "tests" / "vectors"
LONGEST_TREE = 600
LONGEST_CONSOLE_TREE = 2100
LONGEST_MODULE = 1500
LONGEST_CUT_TREE = 400
LARGEST_BUDGET = 5000
CASES_A_THEOREM = 40

HEAD = """-- The definitions give the vectors' answers.
use Rattle.std.specs.Prelude.{ℕ, ◌≡◌, Bool, true, false, ◌&&◌, List, [], ◌∷◌, eqb}
use Rattle.std.proofs.Common.{refl}
use Rattle.definitions.specs.Bytes.{Answer, refused, accepted, same}
use Rattle.definitions.specs.Module.{office, console}
use Rattle.definitions.specs.Run.{Ran}
use Rattle.definitions.specs.Calls.{lower_answer, read_call, run_answer}
use Rattle.definitions.specs.Heights.{heights_answer}
use Rattle.definitions.specs.Order.{Ordering, less, equal, greater, order_answer}
use Rattle.definitions.specs.Cut.{Cut, not_refused, cut_to, cut_answer}
use Rattle.definitions.specs.Open.{everything}

unfoldable agrees : {A : Type 0} → (A → A → Bool) → Answer A → Answer A → Bool
agrees eq (refused q) (refused r) = eqb q r
agrees eq (refused q) (accepted b) = false
agrees eq (accepted a) (refused r) = false
agrees eq (accepted a) (accepted b) = eq a b

unfoldable same_unit : Unit {0} → Unit {0} → Bool
same_unit a b = true

unfoldable same_ran : Ran → Ran → Bool
same_ran a b = eqb a.ending b.ending && eqb a.steps b.steps && eqb a.used b.used && same a.events b.events

unfoldable same_order : Ordering → Ordering → Bool
same_order less less = true
same_order less equal = false
same_order less greater = false
same_order equal less = false
same_order equal equal = true
same_order equal greater = false
same_order greater less = false
same_order greater equal = false
same_order greater greater = true

unfoldable same_cut : Cut (List ℕ) → Cut (List ℕ) → Bool
same_cut not_refused not_refused = true
same_cut not_refused (cut_to b) = false
same_cut (cut_to a) not_refused = false
same_cut (cut_to a) (cut_to b) = same a b
"""

ORDERS = {"before": "less", "equal": "equal", "after": "greater"}


def lines(name):
    text = (VECTORS / name).read_text(encoding="ascii")
    return [line.split("\t") for line in text.splitlines()]


def record(field):
    return b"" if field == "-" else bytes.fromhex(field)


def numbers(data):
    return "(" + "".join(f"{byte} ∷ " for byte in data) + "[])"


def answer(text, accepted):
    if text.startswith("refused "):
        return "(refused " + text.split()[1] + ")"
    return "(accepted " + accepted(text) + ")"


def ran(text):
    ending, steps, used, events = text.split()
    return f"(record {{ ending = {ending}; steps = {steps}; used = {used}; events = {numbers(record(events))} }})"


def cut(text):
    return "not_refused" if text == "not refused" else f"(cut_to {numbers(record(text))})"


def cases():
    for file, limits, longest in [("trees.txt", "office", LONGEST_TREE), ("console.txt", "console", LONGEST_CONSOLE_TREE)]:
        for _, tree, text in lines(file):
            if len(record(tree)) <= longest:
                wanted = answer(text, lambda module: numbers(record(module)))
                yield f"agrees same (lower_answer {limits} 16384 16384 65536 {numbers(record(tree))}) {wanted}"
    for _, first, second, text in lines("orders.txt"):
        if len(record(first)) <= LONGEST_TREE:
            call = f"order_answer office 16384 16384 {numbers(record(first))} {numbers(record(second))}"
            yield f"agrees same_order ({call}) {answer(text, ORDERS.__getitem__)}"
    for _, limits, tree, room, text in lines("cuts.txt"):
        if len(record(tree)) <= LONGEST_CUT_TREE:
            yield f"agrees same_cut (cut_answer {limits} 16384 16384 {room} {numbers(record(tree))}) {answer(text, cut)}"
    for _, module, text in lines("modules.txt"):
        if len(record(module)) <= LONGEST_MODULE:
            yield f"agrees same_unit (read_call {numbers(record(module))}) {answer(text, lambda _: 'tt')}"
    for _, module, text in lines("heights.txt"):
        if len(record(module)) <= LONGEST_MODULE:
            yield f"agrees same_unit (heights_answer 131072 {numbers(record(module))}) {answer(text, lambda _: 'tt')}"
    for _, module, function, answers, budget, room, text in lines("runs.txt"):
        if len(record(module)) <= LONGEST_MODULE and int(budget) <= LARGEST_BUDGET:
            call = f"run_answer {numbers(record(module))} {function} {numbers(record(answers))} {budget} {room}"
            yield f"agrees same_ran ({call}) {answer(text, ran)}"


def theorems(tests):
    parts = [HEAD]
    for start in range(0, len(tests), CASES_A_THEOREM):
        name = f"cases{start}"
        conjunction = "\n    && ".join(tests[start : start + CASES_A_THEOREM])
        parts.append(f"{name} : ({conjunction}) ≡ true\nunfolding everything agrees same_unit same_ran same_order same_cut\n{name} = refl\n")
    return "\n".join(parts)


def main():
    tests = list(cases())
    with tempfile.TemporaryDirectory() as folder:
        copy = pathlib.Path(folder)
        crate = copy / "crates" / "definitions"
        shutil.copytree(ROOT / "crates" / "definitions", crate, ignore=shutil.ignore_patterns("must-fail", "out", "proofs"))
        (copy / "crates.txt").write_text("definitions:\n", encoding="ascii")
        proofs = crate / "proofs"
        proofs.mkdir()
        (proofs / "Vectors.antt").write_text(theorems(tests), encoding="utf-8")
        (proofs / "Lib.antt").write_text("pub mod Vectors\n", encoding="utf-8")
        result = subprocess.run(["rt", "check"], cwd=crate, capture_output=True, text=True, check=False)
    good = result.returncode == 0 and "logic=proved" in result.stdout
    if not good:
        print((result.stdout + result.stderr)[-4000:])
    print(f"{len(tests) if good else 0} passed, {0 if good else len(tests)} failed")
    return 0 if good else 1


if __name__ == "__main__":
    sys.exit(main())
