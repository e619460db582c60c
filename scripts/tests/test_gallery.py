"""Tests of scripts/gallery: each development of examples/gallery answers what stands beside it, and all of it is proved."""
import glob
import os
import sys
import unittest

sys.dont_write_bytecode = True
from calls import ROOT, WithFolder  # noqa: E402


class Gallery(WithFolder):
    TOOL = "scripts/gallery"

    def test_answers(self):
        code, output, error = self.call()
        names = sorted(os.path.basename(it)[:-4] for it in glob.glob(os.path.join(ROOT, "examples/gallery/*.kiv")))
        self.assertEqual((code, output, error), (0, "".join(f"{it}: as expected\n" for it in names), ""))
        self.assertGreaterEqual(len(names), 10)

    def test_all_is_proved(self):
        for path in glob.glob(os.path.join(ROOT, "examples/gallery/*.answer")):
            with open(path, encoding="utf-8") as it:
                for line in it.read().split("\n")[:-2]:
                    self.assertRegex(line, r"^(unit \w+ ok|theorem \w+\.\w+ proved)$", path)

    def test_each_is_listed(self):
        with open(os.path.join(ROOT, "examples/gallery/README.md"), encoding="utf-8") as it:
            page = it.read()
        for path in glob.glob(os.path.join(ROOT, "examples/gallery/*.kiv")):
            self.assertIn(f"`{os.path.basename(path)}`", page)


if __name__ == "__main__":
    unittest.main()
