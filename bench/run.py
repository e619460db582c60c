#!/usr/bin/env python3
"""What `kivd run` takes for each command, and what a long `status` takes of a run.

    bench/run.py [--kivd PATH] [--runs N]

The first part runs `theorem` commands on a project of 500 units and tells, for growing numbers of them, the time of a
command, that time as a share of one `check` of the project that they lead to, and the peak memory. The second part runs
one `status` on a project of 5,000 theorems, and tells the share of it in the run. The third one changes a proof there,
and tells the time of one such edit. Each time is the least of several. Ends with status 1 where an answer isn't the one
that was wanted.
"""
import sys

import measure
from check import many_units

UNITS = 500
THEOREMS = [250, 500, 1000]
EDITS = 20


def units(theorems):
    """The project of 500 units, with so many open theorems, one after another in turn over the units."""
    lines = ["project 1\n"]
    for unit in range(UNITS):
        lines.append(f"unit U{unit} basic\n  pred a;\nend\n")
        lines.extend(f"theorem t{number} : a -> a;\n" for number in range(unit, theorems, UNITS))
    return "".join(lines)


def commands(theorems):
    return "".join(f"theorem U{number % UNITS} t{number} : a -> a\n.\n" for number in range(theorems))


def answers(theorems):
    return "".join(f"ok valid 0 open {number + 1} invalid 0\n.\n" for number in range(theorems))


def least(calls, wanted):
    """The least time and the greatest memory of the calls; None in place of the time where an answer isn't the wanted one."""
    right = all(code == 0 and answer == wanted for _, _, code, answer in calls)
    return min(call[0] for call in calls) if right else None, max(call[1] for call in calls)


def edits(words):
    """The lines of the first part, and whether all answers were right."""
    empty, _ = least(measure.calls(words.kivd, words.runs, "run", units(0)), "")
    for theorems in THEOREMS:
        seconds, peak = least(measure.calls(words.kivd, words.runs, "run", units(0), commands(theorems)), answers(theorems))
        checks = measure.calls(words.kivd, words.runs, "check", units(theorems))
        if seconds is None or empty is None:
            return False
        each = (seconds - empty) / theorems
        share = each / min(call[0] for call in checks)
        print(f"| {theorems:,} | {each * 1000:.2f} | {share:.2f} | {measure.memory(peak)} |")
    return True


def long_status(words):
    """The line of the second part, and whether all answers were right."""
    text, rows = many_units(5000)
    empty, _ = least(measure.calls(words.kivd, words.runs, "run", text), "")
    seconds, peak = least(measure.calls(words.kivd, words.runs, "run", text, "status\n.\n"), rows)
    if seconds is None or empty is None:
        return False
    print(f"| {len(rows):,} | {seconds * 1000:.1f} | {(seconds - empty) / seconds:.2f} | {measure.memory(peak)} |")
    return True


def late_edits(words):
    """The line of the third part, and whether all answers were right."""
    text, _ = many_units(5000)
    empty, _ = least(measure.calls(words.kivd, words.runs, "run", text), "")
    seconds, peak = least(
        measure.calls(words.kivd, words.runs, "run", text, "proof U0 t0 = open\n.\n" * EDITS),
        "ok valid 4999 open 1 invalid 0\n.\n" * EDITS,
    )
    if seconds is None or empty is None:
        return False
    print(f"| {EDITS} | {(seconds - empty) / EDITS * 1000:.1f} | {measure.memory(peak)} |")
    return True


def main():
    words = measure.words("What kivd run takes for each command.").parse_args()
    print(measure.machine())
    print("| Commands `theorem` | Time of one, ms | Share of one check | Peak memory, MB |")
    print("|---|---|---|---|")
    right = edits(words)
    print("| Bytes of a `status` of 5,000 rows | Time of the run, ms | Share of the status | Peak memory, MB |")
    print("|---|---|---|---|")
    right = long_status(words) and right
    print("| Edits of a proof beside 4,999 others | Time of one, ms | Peak memory, MB |")
    print("|---|---|---|")
    right = late_edits(words) and right
    if not right:
        print("not the wanted answer", file=sys.stderr)
    sys.exit(0 if right else 1)


if __name__ == "__main__":
    main()
