"""Tests of tools/kivtext: where parts and steps stand, as kivd's own answers show it."""
import glob
import os
import sys
import unittest

sys.dont_write_bytecode = True
from calls import KIVD, ROOT  # noqa: E402

sys.path.insert(0, os.path.join(ROOT, "tools"))
import kivprogram  # noqa: E402
import kivrows  # noqa: E402
import kivtext  # noqa: E402

WRONG = b"close 9999 1"


def read(path):
    with open(path, "rb") as it:
        return it.read()


class Parts(unittest.TestCase):
    def parts(self, text):
        return [(it.kind, it.shown(), text[it.begin:it.end]) for it in kivtext.parts(text.encode())]

    def test_comments_are_no_parts(self):
        text = "project 1 % unit\nunit A basic % end theorem\npred a; end % proof\ntheorem t : a; % ;\nproof a . b = open % qed\nqed % more\n"
        self.assertEqual(self.parts(text), [
            ("unit", "A", "unit A basic % end theorem\npred a; end"),
            ("theorem", "A.t", "theorem t : a;"),
            ("proof", "A.a.b", "proof a . b = open % qed\nqed"),
        ])

    def test_words_are_whole(self):
        self.assertEqual([it[1] for it in self.parts("unit units basic pred theorem1; pred proofé; end theorem t : theorem1;")], ["units", "units.t"])

    def test_numbers_end_where_words_begin(self):
        part = kivtext.parts(b"unit A basic end proof t = close 1 1qed")[1]
        self.assertTrue(part.has_end())
        self.assertEqual([it.text for it in kivtext.script(part)], [b"close", b"1", b"1"])

    def test_steps_items_and_children(self):
        proof = kivtext.parts(b"unit A basic end proof t = cut p(x, y) { andR 1 { a | b; c } | d } qed")[1]
        self.assertEqual([b" ".join(it.text for it in step) for step in kivtext.steps(proof)], [b"cut p ( x , y )", b"andR 1", b"a", b"b", b"c", b"d"])
        for path, word in (([], b"cut"), ([1], b"andR"), ([1, 1], b"a"), ([1, 2], b"b"), ([1, 2, 1], b"c"), ([2], b"d")):
            self.assertEqual(kivtext.step_at(proof, path)[0].text, word)
        for path in ([3], [2, 1], [1, 1, 1], [1, 3], [1, 2, 2]):
            self.assertIsNone(kivtext.step_at(proof, path))
        unit = kivtext.parts(b"unit A basic pred a; proc p(x : s; y : s); end")[0]
        self.assertEqual([it[0].text for it in kivtext.items(unit)], [b"pred", b"proc"])

    def test_a_command_has_no_line_that_ends_it(self):
        for text in (b"a\n.\n.\nb", b"a\n.", b".\r\n.\r\nb", b"a\n.\r"):
            made = kivtext.one_command(text)
            self.assertFalse({b".", b".\r"} & set(made.split(b"\n")), made)
            self.assertEqual(made.replace(b" ", b"").replace(b"\n", b""), text.replace(b"\n", b""))

    def test_lines_and_columns(self):
        lines = kivtext.Lines("ä b\r\nc\n".encode())
        self.assertEqual([lines.place(it) for it in (0, 2, 3, 6, 8)], [(1, 1), (1, 2), (1, 3), (2, 1), (3, 1)])
        self.assertEqual([lines.byte(*it) for it in ((1, 1), (1, 3), (2, 1), (2, 99), (9, 1))], [0, 3, 6, 7, 8])


class Steps(unittest.TestCase):
    """Each step of the gallery is made one that kivd refuses, and has to be found at its place by the path that kivd tells."""

    def setUp(self):
        self.assertTrue(os.path.isfile(KIVD), f"{KIVD} isn't there: `rt ci` builds it")
        self.program = kivprogram.Program(KIVD)

    def wronged(self, data, number):
        """The text with that step of each proof made wrong, and the place of each in it."""
        made, places, done = b"", {}, 0
        for part in kivtext.parts(data):
            step = kivtext.steps(part)[number:number + 1] if part.kind == "proof" else []
            for tokens in step:
                made += data[done:tokens[0].begin]
                places[part.shown()] = len(made)
                made += WRONG
                done = tokens[-1].end
        return made + data[done:], places

    def test_each_step_is_found(self):
        for path in glob.glob(os.path.join(ROOT, "examples/gallery/*.kiv")) + [os.path.join(ROOT, "examples/rules.kiv")]:
            data = read(path)
            most = max(len(kivtext.steps(it)) for it in kivtext.parts(data) if it.kind == "proof")
            for number in range(most):
                text, places = self.wronged(data, number)
                file = kivrows.File(path, text, self.program)
                file.check()
                found = {it.name: it.byte for it in file.rows if it.state.startswith("broken")}
                self.assertEqual(found, places, f"{path}, step {number}")


if __name__ == "__main__":
    unittest.main()
