"""Tests of how scripts/gate-times reads commands and logs. LOG is of a real run of kv_table, cut short."""
import importlib.machinery
import importlib.util
import os
import sys
import unittest

sys.dont_write_bytecode = True
PATH = os.path.join(os.path.dirname(os.path.realpath(__file__)), "../gate-times")
LOADER = importlib.machinery.SourceFileLoader("gate_times", PATH)
gate_times = importlib.util.module_from_spec(importlib.util.spec_from_loader("gate_times", LOADER))
LOADER.exec_module(gate_times)

LOG = """\
     32.3 gate-times: kv_table library: 26.6 s of processor, from 1.1 to 32.1, 0.70 GB
     32.3 == kv_table
     32.3 struct kv_table::names::Names: proved
     32.3 fn kv_table::names::Names::find: proved
     32.3 logic=proved functions=8 sum=dac8208d650f15bf native=nat,char,string logic-built=trusted libraries-built=trusted statements=trusted
     32.3 rt: kv_table proved
     62.2 gate-times: kv_table edits: 23.8 s of processor, from 32.3 to 62.2, 0.76 GB
    100.0 == kv_table: its tests
    100.0 fn kv_table::tests::cases_by_row: proved, may abort
    100.0 rt: kv_table: its tests are proved
    100.0 rt: kv_table: trying its must-fail edits (6)
    100.4 gate-times: kv_table tests: 125.5 s of processor, from 1.1 to 100.4, 1.09 GB
    119.2 gate-times: kv_table edits: 8.8 s of processor, from 100.1 to 119.2, 0.58 GB
    123.5 gate-times: kv_table edits: 10.1 s of processor, from 100.1 to 123.5, 0.57 GB
    142.8 rt: must-fail kv_table/find-by-length.edit: refused, as it must be: note: src/names.rt:43:17: it is not proved that what the function ensures holds when it returns
    142.8 rt: must-fail kv_table/name-first-row.edit: refused, as it must be: note: src/names.rt:50:5: it is not proved that what the function ensures holds when it returns
    142.8 test tests::cases_by_row ... ok
    142.8 test result: ok. 6 passed; 0 failed; 0 ignored; 0 filtered out
    142.8 rt: kv_table: its tests passed
    142.8 7 passed, 0 failed (kv_table and the crates below alone: not the gate)
    143.1 gate-times: whole run: 249.4 s of processor, 143.1 s of wall, status 0

| Crate | Library, processor min | wall | Tests and runs, processor min | wall | Edits | processor min | wall | Peak GB |
"""
KEPT = "      0.9 rt: kv_table is kept: an earlier run on this machine proved the same files over the same libraries"
RATTLE = "/opt/rattle/bin/rattle"
LIBRARY = [RATTLE, "build", "--crate-name", "kv_table", "src/lib.rt", "--jobs", "2", "--statements", "-o", "out/rlib/kv_table.rlib"]
TESTS = [RATTLE, "build", "--crate-name", "kv_table", "src/lib.rt", "--test", "--jobs", "2", "--backend", "llvm", "-o", "out/kv_table_tests.o"]
SEED = [RATTLE, "check", "--crate-name", "kv_table", "src/lib.rt", "--jobs", "2", "--incremental", "/tmp/rt-edits-1-a/seed"]
PROGRAM = [RATTLE, "check", "--crate-name", "kivd", "src/main.rt", "--jobs", "2", "-o", "/tmp/rt-proved-1-a/checked"]


def read(text=LOG):
    return gate_times.Log(text.splitlines(True))


class Commands(unittest.TestCase):
    def test_library(self):
        self.assertEqual(gate_times.part_of(LIBRARY), ("kv_table", "library"))

    def test_program(self):
        self.assertEqual(gate_times.part_of(PROGRAM), ("kivd", "library"))

    def test_tests(self):
        self.assertEqual(gate_times.part_of(TESTS), ("kv_table", "tests"))

    def test_edits(self):
        self.assertEqual(gate_times.part_of(SEED), ("kv_table", "edits"))

    def test_before_the_prover_takes_over(self):
        self.assertEqual(gate_times.part_of(["/usr/bin/python3", "-ISc", "import os", *TESTS]), ("kv_table", "tests"))

    def test_run_of_tests(self):
        words = ["setpriv", "--reuid=65534", "/opt/rattle/bin/runner", "--seconds", "60", "/tmp/rt-run-1-a/bin/kv_tests_tests"]
        self.assertEqual(gate_times.part_of(words), ("kv_tests", "tests"))

    def test_run_of_a_program(self):
        self.assertEqual(gate_times.part_of(["sh", "-c", "..", "", "/tmp/rt-run-1-a/bin/kivd", "check", "demo.kiv"]), ("kivd", "tests"))

    def test_others(self):
        for words in ([], ["rt", "ci", "kv_table"], [RATTLE, "check", "--help"], [RATTLE, "check", "--crate-name"]):
            self.assertIsNone(gate_times.part_of(words))


class Reading(unittest.TestCase):
    def test_seconds(self):
        self.assertEqual(read().crates["kv_table"].seconds, {"library": 26.6, "tests": 125.5, "edits": 23.8 + 8.8 + 10.1})

    def test_edits_are_counted(self):
        self.assertEqual(read().crates["kv_table"].edits, 2)

    def test_peak(self):
        self.assertEqual(read().crates["kv_table"].peak, 1.09)

    def test_whole(self):
        self.assertEqual(read().whole, (249.4, 143.1, 0))

    def test_kept(self):
        self.assertTrue(read(KEPT).crates["kv_table"].is_kept)

    def test_not_proved(self):
        log = read("  1.0 rt: kv_lex NOT PROVED\n  2.0 rt: kv_io: its tests are NOT PROVED\n  3.0 rt: kv_sig NOT PROVED: its library kv_syn failed\n")
        self.assertEqual([name for name, it in log.crates.items() if it.has_failed], ["kv_lex", "kv_io", "kv_sig"])

    def test_lines_without_a_stamp(self):
        self.assertEqual(read("rt: kv_table proved\n\nkv_table\n").crates, {})


class Tables(unittest.TestCase):
    def test_covered(self):
        self.assertEqual(gate_times.covered([(5, 9), (1, 3), (2, 4), (6, 7)]), 7)
        self.assertEqual(gate_times.covered([]), 0)

    def test_rows(self):
        lines = gate_times.table(read()).splitlines()
        self.assertEqual(lines[2], "| kv_table | 0.44 | 0.52 | 2.09 | 1.66 | 2 | 0.71 | 0.89 | 1.1 |")
        self.assertEqual(lines[3], lines[2].replace("kv_table", "**Sum**"))
        self.assertEqual(lines[-1], "Whole run: 4.16 processor minutes, 0.91 of them not told apart; 2.38 wall minutes; status 0.")

    def test_kept(self):
        self.assertIn("| kv_table | kept | 0.00 |", gate_times.table(read(KEPT)))

    def test_cut_off(self):
        self.assertIn("no end", gate_times.table(read(KEPT)))


if __name__ == "__main__":
    unittest.main()
