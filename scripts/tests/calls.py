"""Calls of the repository's tools as processes, for the tests beside this file."""
import os
import subprocess
import tempfile
import unittest

ROOT = os.path.realpath(os.path.join(os.path.dirname(os.path.realpath(__file__)), "../.."))
KIVD = os.path.join(ROOT, "crates/kivd/out/kivd")
SECONDS = 60


class WithFolder(unittest.TestCase):
    """Tests of one tool, each in a folder of its own."""

    TOOL = ""

    def setUp(self):
        self.assertTrue(os.path.isfile(KIVD), f"{KIVD} isn't there: `rt ci` builds it")
        folder = tempfile.TemporaryDirectory()
        self.addCleanup(folder.cleanup)
        self.folder = folder.name

    def put(self, name, text):
        with open(os.path.join(self.folder, name), "w", encoding="utf-8") as it:
            it.write(text)

    def call(self, *words, text="", folder=None):
        """Status, output and standard error of the tool with these words."""
        done = subprocess.run(
            [os.path.join(ROOT, self.TOOL), *words],
            input=text, capture_output=True, text=True, timeout=SECONDS, check=False, cwd=folder or self.folder,
        )
        return done.returncode, done.stdout, done.stderr
