"""Tests of scripts/docs-run: the repository's documents run as written, and what is shown wrongly is told."""
import sys
import unittest

sys.dont_write_bytecode = True
from calls import ROOT, WithFolder  # noqa: E402

FILE = """\
```kiv x.kiv
project 1
unit A basic
  sort s;
  pred a;
  pred b;
  pred p : s;
end
theorem t : a and b -> b and a;
theorem u : (ex x : s . p(x)) -> ex y : s . p(y);
proof t = impR 1; andL 1; andR 1 { close 2 1 | close 1 1 } qed
proof u = impR 1; exL 1 as x; open qed
```
"""


class Documents(WithFolder):
    TOOL = "scripts/docs-run"

    def runs(self, text, count, *faults):
        self.put("page.md", text)
        code, output, error = self.call("page.md")
        for fault in faults:
            self.assertIn(fault, output)
        told = f"docs-run: {count} blocks and commands in 1 documents, {len(faults)} faults\n"
        self.assertEqual((code, output.split("docs-run: ")[-1], error), (int(bool(faults)), told.removeprefix("docs-run: "), ""), output)

    def test_all_documents(self):
        code, output, error = self.call(folder=ROOT)
        self.assertEqual((code, error), (0, ""), output)

    def test_commands(self):
        block = "```console\n$ kivd check x.kiv\nunit A ok\ntheorem A.t {}\ntheorem A.u open 1\n.\n$ kivd check y.kiv\nkivd: no project\n```\n"
        self.runs(FILE + block.format("proved"), 3)
        self.runs(FILE + block.format("open 1"), 3, "page.md:14: `kivd check x.kiv` answers\nunit A ok\ntheorem A.t proved\n")

    def test_other_blocks_are_not_run(self):
        self.runs("```\n$ false\n```\n\n    $ false\n\n```kiv\nproject 2\n```\n", 0)

    def test_sequents(self):
        right = "```sequent x.kiv A.t 1.1\nL1 a\nL2 b\nR1 b and a\n```\n```sequent x.kiv A.t 1.1.2\nL1 a\nL2 b\nR1 a\n```\n"
        self.runs(FILE + right + "```sequent x.kiv A.u 1.1\nL1 p(x)\nR1 ex z : s . p(z)\n```\n", 4)

    def test_wrong_sequents(self):
        self.runs(FILE + "```sequent x.kiv A.t 1.1\nL1 b\nL2 b\nR1 b and a\n```\n", 2, "at 1.1 of A.t: L1 isn't b (broken 1.1.1 close shape)")
        self.runs(FILE + "```sequent x.kiv A.t 1.1\nL1 a\nL2 b\nR1 b\n```\n", 2, "R1 isn't b (broken 1.1.2 close shape)")
        self.runs(FILE + "```sequent x.kiv A.t 1.1\nL1 a\nR1 b and a\n```\n", 2, "R1 isn't b and a", "there is a formula L2")
        self.runs(FILE + "```sequent x.kiv A.t 1.1\nL1 a\nL2 b\nL3 a\nR1 b and a\n```\n", 2, "L3 isn't a", "R1 isn't")


if __name__ == "__main__":
    unittest.main()
