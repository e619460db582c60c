#!/usr/bin/env python3
"""The same theorems for kivd and for other provers, whole and after one edit.

    bench/peers.py [--kivd PATH] [--runs N] [--theorems N]

Gives each program so many theorems `a and b -> b and a`, each with a proof by the same five steps (coqc) or for an automatic
prover (why3 with z3), and times the whole, and what has to be done again after one proof was changed. A program that isn't on
the path is left out, and said so. Each time is the least of several, but why3 runs once. Ends with status 1 where a program
doesn't accept what it was given.
"""
import os
import shutil
import subprocess
import sys
import tempfile
import time

sys.dont_write_bytecode = True
import check  # noqa: E402
import measure  # noqa: E402

FILES = 50
EDITS = 20
FAULTS = []


class Run:
    """One call of a program, with all that it starts and waits for: what it took and what it answered."""

    def __init__(self, words, folder, commands=""):
        put(folder, "commands", commands)
        begin = time.monotonic()
        with open(os.path.join(folder, "commands"), "rb") as given:
            with subprocess.Popen(words, cwd=folder, stdin=given, stdout=subprocess.PIPE, stderr=subprocess.STDOUT) as it:
                self.output = it.stdout.read().decode(errors="replace")
                _, status, usage = os.wait4(it.pid, 0)
                self.code = it.returncode = os.waitstatus_to_exitcode(status)
        self.wall, self.processor = time.monotonic() - begin, usage.ru_utime + usage.ru_stime
        self.peak = usage.ru_maxrss / 1024


def put(folder, name, text):
    with open(os.path.join(folder, name), "w", encoding="utf-8") as it:
        it.write(text)


def version(*words):
    output = subprocess.run(words, capture_output=True, text=True, check=False).stdout
    return output.strip().split("\n")[0]


def shown(seconds):
    return f"{seconds * 1000:.1f} ms" if seconds < 0.1 else f"{seconds * 1000:.0f} ms" if seconds < 1 else f"{seconds:.1f} s"


def told(what, wall, processor, peak):
    print(f"| {what} | {shown(wall)} | {shown(processor)} | {measure.memory(peak)} |", flush=True)


def least(what, runs, is_right):
    """Tells the least times of runs, which all have to be right."""
    for it in runs:
        if not is_right(it.code, it.output):
            FAULTS.append(f"{what}: status {it.code}: {it.output[-300:]}")
    told(what, min(it.wall for it in runs), min(it.processor for it in runs), max(it.peak for it in runs))


def kivd(words, folder):
    text, wanted = check.one_unit(words.theorems)
    script = "impR 1; andL 1; andR 1 { close 2 1 | close 1 1 }"
    longer = script.replace("andR 1 {", "cut a { close 1 2 | andR 1 {") + " }"
    head = f"proof t{words.theorems // 2} = "
    put(folder, "all.kiv", text)
    put(folder, "again.kiv", text.replace(head + script, head + longer))
    program = os.path.realpath(words.kivd)

    def runs(mode, name, commands=""):
        return [Run([program, mode, name], folder, commands) for _ in range(words.runs)]

    for what, name in (("all", "all.kiv"), ("the file again", "again.kiv")):
        least(f"`kivd check`: {what}", runs("check", name), lambda code, output: (code, output) == (0, wanted))
    counts = f"ok valid {words.theorems} open 0 invalid 0\n.\n"
    commands = "".join(f"proof A t{number} = {longer}\n.\n" for number in range(EDITS))
    none, edits = runs("run", "all.kiv"), runs("run", "all.kiv", commands)
    if any((it.code, it.output) != (0, counts * EDITS) for it in edits):
        FAULTS.append("kivd run: not the wanted answers")
    wall = (min(it.wall for it in edits) - min(it.wall for it in none)) / EDITS
    processor = (min(it.processor for it in edits) - min(it.processor for it in none)) / EDITS
    told("`kivd run`: the proof again, as a command", wall, processor, max(it.peak for it in edits))


def coq_text(first, count, edited=None):
    """Theorems for coqc, from the first number on; the edited one's proof has one step more."""
    lines = ["Parameters a b : Prop."]
    for number in range(first, first + count):
        more = " idtac." if number == edited else ""
        lines.append(f"Theorem t{number} : a /\\ b -> b /\\ a.")
        lines.append(f"Proof. intro H. destruct H as [Ha Hb].{more} split. exact Hb. exact Ha. Qed.")
    return "\n".join(lines + [""])


def coqc(words, folder):
    def runs(name):
        return [Run(["coqc", "-q", name], folder) for _ in range(words.runs)]

    def is_right(code, output):
        return (code, output) == (0, "")

    each = words.theorems // FILES
    put(folder, "Whole.v", coq_text(0, words.theorems))
    put(folder, "Again.v", coq_text(0, words.theorems, words.theorems // 2))
    least("`coqc`: all, in one file", runs("Whole.v"), is_right)
    least("`coqc`: the file again", runs("Again.v"), is_right)
    names = [f"Part{number}.v" for number in range(FILES)]
    for number, name in enumerate(names):
        put(folder, name, coq_text(number * each, each))
    parts = [Run(["coqc", "-q", name], folder) for name in names]
    FAULTS.extend(f"coqc, parts: {it.output[-300:]}" for it in parts if not is_right(it.code, it.output))
    told(f"`coqc`: all, in {FILES} files one after the other", sum(it.wall for it in parts), sum(it.processor for it in parts), max(it.peak for it in parts))
    put(folder, names[0], coq_text(0, each, 1))
    least(f"`coqc`: one of the {FILES} files again", runs(names[0]), is_right)


def why3(words, folder):
    goals = "".join(f"  goal t{number} : a /\\ b -> b /\\ a\n" for number in range(words.theorems))
    put(folder, "all.why", f"theory A\n  predicate a\n  predicate b\n{goals}end\n")
    config = ["why3", "-C", os.path.join(folder, "why3.conf")]
    subprocess.run([*config, "config", "detect"], capture_output=True, check=False)
    prove = [*config, "prove", "-P", "z3", "all.why"]
    for what, more, count in (("all, each found by z3", [], words.theorems), ("one goal again, found by z3", ["-T", "A", "-G", "t1"], 1)):
        least(f"`why3 prove`: {what}", [Run([*prove, *more], folder)], lambda code, output, count=count: code == 0 and output.count("Valid") == count)


def main():
    parser = measure.words("The same theorems for kivd and for other provers.")
    parser.add_argument("--theorems", type=int, default=5000)
    words = parser.parse_args()
    print(measure.machine())
    print(f"| {words.theorems:,} theorems `a and b -> b and a` | Time | Processor | Peak memory, MB |\n|---|---|---|---|")
    versions, left_out = [], []
    for run, needed in ((kivd, []), (coqc, ["coqc"]), (why3, ["why3", "z3"])):
        missing = [it for it in needed if not shutil.which(it)]
        if missing:
            left_out.append(f"{needed[0]} is left out: there is no {missing[0]} on the path")
            continue
        versions += [version(it, "--version") for it in needed]
        with tempfile.TemporaryDirectory() as folder:
            run(words, folder)
    print("\n" + "\n".join(versions + left_out))
    for fault in FAULTS:
        print(f"peers: {fault}", file=sys.stderr)
    sys.exit(1 if FAULTS else 0)


if __name__ == "__main__":
    main()
