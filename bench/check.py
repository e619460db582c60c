#!/usr/bin/env python3
"""How the time and the memory of `kivd check` grow with the project.

    bench/check.py [--kivd PATH] [--runs N] [--most RATIO]

Makes projects of growing size, runs `kivd check` on each, and prints the least time of the runs, the time's growth
for each doubling since the size before, and the greatest peak memory, which can be told only where it passes this
script's own. Ends with status 1 where an answer isn't the one that was wanted, or where a growth passes the ratio.
"""
import math
import sys

import measure

THEOREM = "theorem t{0} : a and b -> b and a;\n"
PROOF = "proof t{0} = impR 1; andL 1; andR 1 {{ close 2 1 | close 1 1 }} qed\n"


def unit(name, count):
    """A unit with so many theorems, each proved."""
    head = f"unit {name} basic\n  pred a;\n  pred b;\nend\n"
    theorems = "".join(THEOREM.format(i) for i in range(count))
    return head + theorems + "".join(PROOF.format(i) for i in range(count))


def status(names_and_rows):
    """The answer to `status` for units with these rows."""
    lines = []
    for name, rows in names_and_rows:
        lines.append(f"unit {name} ok")
        lines.extend(rows)
    return "\n".join(lines + [".", ""])


def proved(name, count):
    return name, [f"theorem {name}.t{i} proved" for i in range(count)]


def one_unit(count):
    """All theorems in one unit."""
    return "project 1\n" + unit("A", count), status([proved("A", count)])


def many_units(count):
    """Ten theorems a unit."""
    names = [f"U{i}" for i in range(count // 10)]
    text = "project 1\n" + "".join(unit(name, 10) for name in names)
    return text, status([proved(name, 10) for name in names])


def conjunction(leaves, leaf="a"):
    """The formula that joins so many leaves by `and`, in halves; it has 2 * leaves - 1 nodes."""
    if leaves == 1:
        return leaf
    half = leaves // 2
    return "(" + conjunction(leaves - half, leaf) + " and " + conjunction(half, leaf) + ")"


def one_formula(nodes):
    """One theorem whose formula has the number of nodes, less one where that is even; its proof is open."""
    form = conjunction((nodes + 1) // 2)
    text = f"project 1\nunit A basic\n  pred a;\nend\ntheorem t : {form};\n"
    return text, status([("A", ["theorem A.t open 1"])])


def halves(leaves, extra):
    """The script that shows the conjunction leaf by leaf, with so many steps more than it needs."""
    if leaves == 1:
        return "andL 2; close 1 1" if extra > 0 else "close 1 1"
    half = leaves // 2
    first = leaves - half
    left = min(extra, first)
    return f"andR 1 {{ {halves(first, left)} | {halves(half, extra - left)} }}"


def one_script(steps):
    """One theorem whose proof has exactly so many steps, each of which is visited."""
    leaves = steps // 3 + 1
    extra = steps - 2 - (2 * leaves - 1)
    form = f"a -> (a and a -> {conjunction(leaves)})"
    script = f"impR 1; impR 1; {halves(leaves, extra)}"
    assert script.count("andR") + script.count("andL") + script.count("close") + 2 == steps
    text = f"project 1\nunit A basic\n  pred a;\nend\ntheorem t : {form};\nproof t = {script} qed\n"
    return text, status([("A", ["theorem A.t proved"])])


FAMILIES = [
    ("theorems of one unit", one_unit, [250, 500, 1000, 2000, 5000]),
    ("theorems, ten a unit", many_units, [250, 500, 1000, 2000, 5000]),
    ("nodes of one formula", one_formula, [12500, 25000, 50000]),
    ("steps of one script", one_script, [12500, 25000, 50000]),
]


def main():
    parser = measure.words("How kivd check grows with the project.")
    parser.add_argument("--most", type=float, default=2.6)
    words = parser.parse_args()
    bad = 0
    print(measure.machine())
    print("| What grows | Size | Text, bytes | Time, ms | Growth for a doubling | Peak memory, MB |")
    print("|---|---|---|---|---|---|")
    for what, make, sizes in FAMILIES:
        before = None
        for size in sizes:
            text, wanted = make(size)
            calls = measure.calls(words.kivd, words.runs, "check", text)
            for _, _, code, answer in calls:
                if code != 0 or answer != wanted:
                    print(f"{what}, {size}: status {code}, not the wanted answer", file=sys.stderr)
                    bad = 1
            seconds = min(call[0] for call in calls)
            peak = measure.memory(max(call[1] for call in calls))
            growth = ""
            if before is not None:
                ratio = (seconds / before[1]) ** (1 / math.log2(size / before[0]))
                growth = f"{ratio:.2f}"
                if ratio > words.most:
                    print(f"{what}, {size}: grows by {ratio:.2f} for a doubling", file=sys.stderr)
                    bad = 1
            print(f"| {what} | {size:,} | {len(text):,} | {seconds * 1000:.1f} | {growth} | {peak} |")
            before = (size, seconds)
    sys.exit(bad)


if __name__ == "__main__":
    main()
