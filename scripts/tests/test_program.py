"""Tests of the built program as a process: exit codes, standard error, and answers that come before the next command."""
import os
import select
import subprocess
import sys
import tempfile
import unittest

sys.dont_write_bytecode = True
ROOT = os.path.join(os.path.dirname(os.path.realpath(__file__)), "../..")
KIVD = os.path.realpath(os.path.join(ROOT, "crates/kivd/out/kivd"))
SECONDS = 20
EMPTY = "project 1\n"
UNIT = "unit A basic\n  pred a;\nend\n"


class WithFile(unittest.TestCase):
    def setUp(self):
        self.assertTrue(os.path.isfile(KIVD), f"{KIVD} isn't there: `rt ci` builds it")
        folder = tempfile.TemporaryDirectory()
        self.addCleanup(folder.cleanup)
        self.file = os.path.join(folder.name, "demo.kiv")

    def put(self, text):
        with open(self.file, "w", encoding="utf-8") as it:
            it.write(text)


class Ending(WithFile):
    def ends(self, words, text, code, output, error):
        done = subprocess.run([KIVD, *words], input=text, capture_output=True, text=True, timeout=SECONDS, check=False)
        self.assertEqual((done.returncode, done.stdout, done.stderr), (code, output, error))

    def test_done(self):
        self.put(EMPTY + UNIT)
        self.ends(["check", self.file], "", 0, "unit A ok\n.\n", "")

    def test_usage(self):
        self.ends(["look", self.file], "", 2, "", "kivd: usage\n")

    def test_store_fault(self):
        self.ends(["check", os.path.dirname(self.file)], "", 6, "", "kivd: store fault\n")

    def test_refused(self):
        self.put("project one\n")
        self.ends(["check", self.file], "", 7, "", "kivd: project refused\n")

    def test_cut(self):
        self.put(EMPTY)
        self.ends(["run", self.file], "status\n.\nsta", 8, ".\n", "kivd: cut\n")

    def test_too_long(self):
        self.put(EMPTY)
        self.ends(["run", self.file], "status" + " " * 1_048_576 + "\n.\n", 9, "", "kivd: too long\n")

    def test_no_project(self):
        self.ends(["run", self.file], "", 10, "", "kivd: no project\n")


class Conversation(WithFile):
    def setUp(self):
        super().setUp()
        self.put(EMPTY)
        self.program = subprocess.Popen([KIVD, "run", self.file], stdin=subprocess.PIPE, stdout=subprocess.PIPE)
        self.addCleanup(self.program.wait)
        self.addCleanup(self.program.kill)
        self.addCleanup(self.program.stdout.close)
        self.addCleanup(self.program.stdin.close)

    def asks(self, command, answer):
        """Sends one command and reads as many bytes as the answer has, with nothing sent behind it."""
        os.write(self.program.stdin.fileno(), f"{command}\n.\n".encode())
        read = b""
        while len(read) < len(answer):
            ready, _, _ = select.select([self.program.stdout], [], [], SECONDS)
            self.assertTrue(ready, f"no answer to `{command}`; so far {read!r}")
            read += os.read(self.program.stdout.fileno(), len(answer) - len(read))
        self.assertEqual(read.decode(), answer)

    def test_answers_come_one_by_one(self):
        self.asks("status", ".\n")
        self.asks("add " + UNIT.strip(), "ok valid 0 open 0 invalid 0\n.\n")
        self.asks("status", "unit A ok\n.\n")

    def test_saved_when_answered(self):
        self.asks("add " + UNIT.strip(), "ok valid 0 open 0 invalid 0\n.\n")
        with open(self.file, encoding="utf-8") as it:
            self.assertEqual(it.read(), EMPTY)
        self.asks("save", "saved\n.\n")
        with open(self.file, encoding="utf-8") as it:
            self.assertEqual(it.read(), EMPTY + UNIT)


if __name__ == "__main__":
    unittest.main()
