"""Tests of scripts/crates-picture: the picture in docs/ is that of crates.txt, and a stale one is told."""
import contextlib
import importlib.machinery
import importlib.util
import io
import os
import sys
import tempfile
import unittest

sys.dont_write_bytecode = True
from calls import ROOT  # noqa: E402

LOADER = importlib.machinery.SourceFileLoader("crates_picture", os.path.join(ROOT, "scripts/crates-picture"))
crates_picture = importlib.util.module_from_spec(importlib.util.spec_from_loader("crates_picture", LOADER))
LOADER.exec_module(crates_picture)
CRATES = "# crates\nlow:\nmiddle: low thiserror   # a kit crate\nother staticlib: low\nhigh: low middle other\n"


class Picture(unittest.TestCase):
    def test_the_repository_has_its_picture(self):
        self.assertEqual(crates_picture.main([]), 0)

    def test_no_arrow_that_follows_from_others(self):
        text = crates_picture.dot(CRATES)
        arrows = [it.strip(" ;") for it in text.split("\n") if "->" in it]
        self.assertEqual(arrows, ["middle -> low", "other -> low", "high -> middle", "high -> other"])
        self.assertIn("  low;\n  middle;\n  other;\n  high;\n", text)

    def test_a_stale_picture(self):
        with tempfile.TemporaryDirectory() as root:
            os.mkdir(os.path.join(root, "docs"))
            for name, text in (("crates.txt", CRATES), ("docs/crates.dot", crates_picture.dot(CRATES)), ("docs/crates.svg", "<svg/>")):
                with open(os.path.join(root, name), "w", encoding="utf-8") as it:
                    it.write(text)
            told = io.StringIO()
            with contextlib.redirect_stderr(told):
                self.assertEqual(crates_picture.main([], root), 1)
            self.assertIn("docs/crates.svg isn't that of crates.txt", told.getvalue())
            self.assertNotIn("docs/crates.dot isn't", told.getvalue())

    def test_the_document_shows_it(self):
        with open(os.path.join(ROOT, "docs/ARCHITECTURE.md"), encoding="utf-8") as it:
            self.assertIn("](crates.svg)", it.read())


if __name__ == "__main__":
    unittest.main()
