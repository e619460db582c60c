"""Tests of tools/kivd-send over real files: what becomes of one part, while the file stays as it is."""
import os
import sys
import unittest

sys.dont_write_bytecode = True
from calls import WithFolder  # noqa: E402

TEXT = """\
project 1 % with comments, and a layout of its own
unit A basic
  pred a;
end
theorem t :
  a   % twice
  -> a;
theorem u : a -> a and a;

proof t = impR 1;
  close 1 1   % done
qed
proof u = impR 1; andR 1 { close 1 1 | close 2 1 } qed
"""


class Sends(WithFolder):
    TOOL = "tools/kivd-send"

    def sends(self, text, place, told, status=1, error=""):
        self.put("x.kiv", text)
        self.assertEqual(self.call("x.kiv", place), (status, f"x.kiv:{told}\n", error))
        with open(os.path.join(self.folder, "x.kiv"), encoding="utf-8") as it:
            self.assertEqual(it.read(), text)
        self.assertEqual(os.listdir(self.folder), ["x.kiv"])

    def test_a_proof_by_line(self):
        for line in ("10", "11", "12"):
            self.sends(TEXT, line, "10:7: A.t: proved", status=0)

    def test_a_line_and_a_column(self):
        text = "project 1 unit A basic pred a; end theorem t : a; theorem u : a -> a; proof u = impR 1; close 1 1 qed\n"
        self.sends(text, "1:40", "1:44: A.t: open 1")
        self.sends(text, "1:55", "1:59: A.u: proved", status=0)
        self.sends(text, "1:20", "1:16: A: ok", status=0)

    def test_a_name(self):
        self.sends(TEXT, "A.t", "10:7: A.t: proved", status=0)
        self.sends(TEXT, "A", "2:6: A: ok", status=0)

    def test_a_theorem_with_its_proof(self):
        self.sends(TEXT, "6", "5:9: A.t: proved", status=0)

    def test_a_broken_step(self):
        self.sends(TEXT, "13", "13:40: A.u: broken 1.2 close position")
        self.sends(TEXT, "8", "13:40: A.u: broken 1.2 close position")

    def test_what_does_not_read(self):
        rest = "kivd-send: the rest of x.kiv is refused, so {} is sent with less of it\n"
        text = TEXT.replace("impR 1;\n", "impR one;\n")
        self.sends(text, "A.t", "10:11: A.t: no syntax: this proof doesn't read")
        self.sends(text, "13", "13:40: A.u: broken 1.2 close position", error=rest.format("A.u"))
        self.sends(text, "8", "13:40: A.u: broken 1.2 close position", error=rest.format("A.u"))
        self.sends(TEXT.replace("1 1   %", "1 ?   %"), "A.t", "11:11: A.t: no token: this proof doesn't read")

    def test_the_theorem_does_not_read_either(self):
        text = TEXT.replace("-> a;\ntheorem", "-> ;\ntheorem")
        error = "kivd-send: the rest of x.kiv is refused, so A.t is sent with less of it\n" * 2
        self.sends(text, "10", "10:7: A.t: no unknown A", error=error)

    def test_a_name_that_is_there_twice(self):
        text = TEXT.replace("theorem u", "theorem t")
        self.put("x.kiv", text)
        self.assertEqual(self.call("x.kiv", "8")[:2], (1, "x.kiv:8:9: A.t: no exists A.t\n"))

    def test_text_from_the_editor(self):
        code, output, error = self.call("--stdin", "new.kiv", "10", text=TEXT)
        self.assertEqual((code, output, error), (0, "new.kiv:10:7: A.t: proved\n", ""))
        self.assertEqual(os.listdir(self.folder), [])

    def test_no_unit(self):
        self.sends("project 1\ntheorem t : a;\n", "2", "2:9: t: no unit stands before this theorem")

    def test_nothing_there(self):
        self.put("x.kiv", "project 1\n\n" + TEXT[TEXT.index("unit"):])
        for place in ("1", "A.v", "B"):
            error = f"kivd-send: x.kiv has no unit, theorem or proof at {place}\n"
            self.assertEqual(self.call("x.kiv", place), (2, "", error))
        self.assertEqual(self.call("y.kiv", "1")[0], 2)
        self.assertIn("PLACE", self.call("--help")[1])


if __name__ == "__main__":
    unittest.main()
