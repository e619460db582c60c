"""Tests of bench/peers.py on a few theorems: what kivd and coqc are given is accepted, and a missing peer is left out."""
import os
import shutil
import subprocess
import sys
import unittest

sys.dont_write_bytecode = True
from calls import ROOT, SECONDS, WithFolder  # noqa: E402

ROWS = ["`kivd check`: all", "`kivd check`: the file again", "`kivd run`: the proof again, as a command"]


class Peers(WithFolder):
    TOOL = "bench/peers.py"

    def rows(self, output):
        lines = output.split("\n")
        return [it.split(" | ")[0].removeprefix("| ") for it in lines[3:lines.index("")]]

    def test_without_peers(self):
        done = subprocess.run(
            [sys.executable, "-B", os.path.join(ROOT, self.TOOL), "--runs", "1", "--theorems", "100"],
            env={"PATH": ""}, capture_output=True, text=True, timeout=SECONDS, check=False,
        )
        self.assertEqual((done.returncode, done.stderr), (0, ""))
        self.assertEqual(self.rows(done.stdout), ROWS)
        self.assertIn("coqc is left out: there is no coqc on the path\nwhy3 is left out: there is no why3 on the path\n", done.stdout)

    @unittest.skipUnless(shutil.which("coqc"), "there is no coqc")
    def test_coq_accepts_what_it_is_given(self):
        sys.path.insert(0, os.path.join(ROOT, "bench"))
        import peers
        peers.put(self.folder, "Some.v", peers.coq_text(0, 5, 2))
        ran = peers.Run(["coqc", "-q", "Some.v"], self.folder)
        self.assertEqual((ran.code, ran.output), (0, ""))


if __name__ == "__main__":
    unittest.main()
