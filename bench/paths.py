#!/usr/bin/env python3
"""What long paths of steps cost, and a formula that no step touches.

    bench/paths.py [--kivd PATH] [--old PATH] [--runs N]

Three tables. The first has paths of steps `cut F`, where F has 97 nodes, through the last premise of each step and through
the first one, where all the others wait. The second has 490 steps that each change one small equation, beside a formula
of growing size that stays as it is. The third has the peak memory of a check for each node of a project's formulas. With
`--old` the same is asked of another program in the same run, and the ratio of the times is told. Each time is the least
of several. Ends with status 1 where an answer isn't the one that was wanted.
"""
import sys

import measure
from check import conjunction

STEPS = [122, 245, 490]
NODES = [2500, 12500, 25000, 49000]
THEOREMS = [5, 20]


def project(theorem, proof):
    unit = "unit A basic\n  sort s;\n  fun a : s;\n  fun b : s;\n  pred p;\nend\n"
    return f"project 1\n{unit}theorem t : {theorem};\nproof t = {proof} qed\n"


def open_goals(count):
    return f"unit A ok\ntheorem A.t open {count}\n.\n"


def cuts(count, is_first):
    """A path of so many cuts through the first premises, or through the last ones."""
    form = conjunction(49, "p")
    script = "open"
    for _ in range(count):
        script = f"cut {form} {{ {script} | open }}" if is_first else f"cut {form} {{ open | {script} }}"
    return project("p", script), open_goals(count + 1)


def carried(nodes):
    """490 steps beside a formula with so many nodes, less one where that is even."""
    form = conjunction((nodes + 1) // 2, "p")
    return project(f"{form} -> a = b", "impR 1; " + "swap R 1; " * 489 + "open"), open_goals(1)


def formulas(theorems):
    """So many theorems of 49,999 nodes each."""
    form = conjunction(25000)
    lines = "".join(f"theorem t{number} : {form};\n" for number in range(theorems))
    rows = "".join(f"theorem A.t{number} open 1\n" for number in range(theorems))
    return f"project 1\nunit A basic\n  pred a;\nend\n{lines}", f"unit A ok\n{rows}.\n"


class Asked:
    """The calls of a script's programs, and whether all answers were right."""

    def __init__(self, words):
        self.programs = [words.kivd] + ([words.old] if words.old else [])
        self.runs = words.runs
        self.is_right = True

    def check(self, case):
        """The seconds and the peak memory in MB of each program."""
        text, wanted = case
        told = []
        for program in self.programs:
            calls = measure.calls(program, self.runs, "check", text)
            self.is_right &= all(code == 0 and answer == wanted for _, _, code, answer in calls)
            told.append((min(call[0] for call in calls), max(call[1] for call in calls)))
        return told

    def cells(self, case):
        told = self.check(case)
        cells = [f"{seconds * 1000:.0f} | {measure.memory(peak)}" for seconds, peak in told]
        if len(told) == 2:
            cells.append(f"{told[1][0] / told[0][0]:.1f} | {told[1][1] / told[0][1]:.1f}")
        return " | ".join(cells)

    def head(self, first):
        columns = [first, "Time, ms", "Peak memory, MB"]
        if len(self.programs) == 2:
            columns += ["Old time, ms", "Old memory, MB", "Times as fast", "Times less memory"]
        return "| " + " | ".join(columns) + " |\n" + "|---" * len(columns) + "|"


def main():
    parser = measure.words("What long paths of steps cost.")
    parser.add_argument("--old")
    asked = Asked(parser.parse_args())
    print(measure.machine())
    print(asked.head("A path of cuts"))
    for is_first in (False, True):
        for count in STEPS:
            way = "first" if is_first else "last"
            print(f"| {count}, through the {way} premises | {asked.cells(cuts(count, is_first))} |")
    print(asked.head("490 steps beside a formula of nodes"))
    for nodes in NODES:
        print(f"| {nodes:,} | {asked.cells(carried(nodes))} |")
    small, large = (asked.check(formulas(theorems)) for theorems in THEOREMS)
    nodes = 49999 * (THEOREMS[1] - THEOREMS[0])
    each = [f"{(more[1] - less[1]) * 1024 * 1024 / nodes:.0f}" for less, more in zip(small, large)]
    print(f"Bytes of peak memory for a node: {', once '.join(each)}")
    if not asked.is_right:
        print("not the wanted answer", file=sys.stderr)
    sys.exit(0 if asked.is_right else 1)


if __name__ == "__main__":
    main()
