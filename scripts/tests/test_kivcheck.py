"""Tests of tools/kivcheck over real files: places of what kivd says, and the parts that don't read."""
import json
import os
import sys
import unittest

sys.dont_write_bytecode = True
from calls import ROOT, WithFolder  # noqa: E402

UNIT = "project 1\nunit A basic\n  sort s;\n  pred a;\n  pred p : s;\nend\n"
REFUSED = "kivcheck: 0 theorems, 1 file that can't be read\n"


class Places(WithFolder):
    TOOL = "tools/kivcheck"

    def told(self, text, *lines, status=1):
        self.put("x.kiv", text)
        code, output, _ = self.call("--quiet", "x.kiv")
        self.assertEqual((output.split("\n")[:-2], code), ([f"x.kiv:{it}" for it in lines], status))
        return output.split("\n")[-2] + "\n"

    def test_all_proved(self):
        last = self.told(UNIT + "theorem t : a -> a;\nproof t = impR 1; close 1 1 qed\n", status=0)
        self.assertEqual(last, "kivcheck: 1 theorem (1 proved)\n")

    def test_open(self):
        last = self.told(UNIT + "theorem t : a;\ntheorem u : a;\nproof u = open qed\n", "7:9: A.t: open 1", "9:7: A.u: open 1")
        self.assertEqual(last, "kivcheck: 2 theorems (2 open)\n")

    def test_broken_steps(self):
        script = "impR 1; % {a| comment; }\n andR 1 {\n impR 1; close 9 9 | open }"
        text = UNIT + f"theorem t : a -> (a -> a) and a;\nproof t = {script} qed\n"
        self.told(text, "10:10: A.t: broken 1.1.1 close position")
        self.told(text.replace("close 9 9 | open", "close 1 1 | dropL 1; notL 1"), "10:31: A.t: broken 1.2.1 notL position")
        self.told(text.replace("close 9 9 | open", "close 1 1 | close 1 1 | open"), "9:2: A.t: broken 1 andR surplus")

    def test_broken_below_braces(self):
        inner = "andR 1 { close 1 1 | andR 1 { close 1 1 | refl 1 } }"
        text = UNIT + f"theorem t : a -> (a and (a and a)) and a;\nproof t = impR 1; andR 1 {{ {inner} | close 1 1 }} qed\n"
        self.told(text, "8:70: A.t: broken 1.1.2.2 refl shape")

    def test_ill_bad_and_idle(self):
        bad = "unit B basic\n  pred q : t;\nend\ntheorem w : q;\nproof other = open qed\n"
        last = self.told(
            UNIT + "theorem t : b;\n" + bad,
            "7:9: A.t: ill unknown b", "8:6: B: bad unknown t", "11:9: B.w: ill unit", "12:7: B.other: idle",
        )
        self.assertEqual(last, "kivcheck: 2 theorems (2 ill), 1 bad unit, 1 idle proof\n")

    def test_all_examples(self):
        for name in ("refused", "connectives", "signatures", "rules", "demo"):
            code, output, _ = self.call("--all", f"examples/{name}.kiv", folder=ROOT)
            with open(os.path.join(ROOT, f"examples/{name}.kiv"), encoding="utf-8") as it:
                text = it.read().split("\n")
            for line in output.split("\n")[:-2]:
                place, name_told, state = line.split(": ", 2)
                _, row, column = place.split(":")
                at = text[int(row) - 1][int(column) - 1:]
                words = state.split(" ")
                wanted = words[2] if words[0] == "broken" else name_told.split(".")[-1]
                self.assertTrue(at.startswith(wanted), line)
            self.assertEqual(code, int(name not in ("rules", "demo")))

    def test_columns_count_characters(self):
        self.told(UNIT + "theorem größe : a -> a; theorem t : a;\nproof größe = impR 1; close 1 1 qed", "7:33: A.t: open 1")

    def test_as_json(self):
        self.put("x.kiv", UNIT + "theorem t : a;\nproof t = close 1 1 qed\n")
        code, output, _ = self.call("--json", "x.kiv")
        told = json.loads(output)
        self.assertEqual((code, told["proved"], told["sum"]), (1, False, "1 theorem (1 broken)"))
        row = {"file": "x.kiv", "line": 8, "column": 11, "byte": 86, "kind": "theorem", "name": "A.t", "state": "broken"}
        self.assertEqual(told["rows"][1], row | {"text": "broken 0 close position", "path": "0", "rule": "close", "reason": "position"})

    def test_help_and_usage(self):
        self.assertIn("FILE:LINE:COLUMN", self.call("--help")[1])
        self.assertEqual(self.call()[0], 2)
        self.assertEqual(self.call("--kivd", "nowhere", "x.kiv")[0], 2)
        code, _, error = self.call("x.kiv")
        self.assertEqual((code, "x.kiv" in error), (2, True))


class Unread(WithFolder):
    TOOL = "tools/kivcheck"

    def told(self, text, *lines):
        self.put("x.kiv", text)
        code, output, _ = self.call("--quiet", "x.kiv")
        self.assertEqual((code, output), (1, "".join(f"x.kiv:{it}\n" for it in lines) + REFUSED))

    def test_each_part_that_does_not_read(self):
        self.told(
            "project 1\nunit A basic\n  pred a;\n  prd b;\nend\ntheorem t : a -> ;\ntheorem u : a ? b;\nproof t = impR 1; close 1;\n close 1 1 qed\n"
            "proof v = open { qed\n",
            "4:3: A: no syntax: this unit doesn't read",
            "6:9: A.t: no syntax: this theorem doesn't read",
            "7:15: A.u: no token: this theorem doesn't read",
            "8:19: A.t: no syntax: this proof doesn't read",
            "10:7: A.v: no syntax: this proof doesn't read",
        )

    def test_head(self):
        for text in ("", "project 2\nunit A basic\nend\n", "unit A basic\nend\n"):
            self.told(text, "1:1: project: a file begins with `project 1`, and then a unit comes")

    def test_a_theorem_behind_a_proof(self):
        self.told(UNIT + "proof t = open qed\ntheorem t : a;\n", "8:9: A.t: a theorem stands before the proofs of its unit")

    def test_the_same_name_twice(self):
        theorem, proof, unit = "theorem t : a;\n", "proof t = open qed\n", "unit A basic end\n"
        self.told(UNIT + theorem + theorem, "8:9: A.t: no exists A.t: this theorem can't stand here")
        self.told(UNIT + theorem + proof + proof, "9:7: A.t: the unit has a proof of this name")
        self.told(UNIT + unit, "7:6: A: no exists A: this unit can't stand here")

    def test_no_end(self):
        self.told(UNIT + "theorem t : a\nproof t = open qed\n", "7:9: A.t: no `;` at the end of this theorem")
        self.told(UNIT + "theorem t : a;\nproof t = open\n", "8:7: A.t: no `qed` at the end of this proof")

    def test_a_byte_that_is_no_text(self):
        for text, told in (
            (UNIT + "theorem t : a % ?\n;\n", "7:17: A.t: no token: this theorem doesn't read"),
            (UNIT + "theorem t : a; % ?\nproof t = open qed\n", "7:18: A.t: no token"),
            (UNIT + "theorem t : a;\n% ?", "8:3: A.t: no token"),
            ("project 1 % ?\n" + UNIT.removeprefix("project 1"), "1:13: project: no token"),
        ):
            with open(os.path.join(self.folder, "x.kiv"), "wb") as it:
                it.write(text.encode().replace(b"?", b"\xff"))
            self.assertEqual(self.call("--quiet", "x.kiv")[:2], (1, f"x.kiv:{told}\n{REFUSED}"))

    def test_limits(self):
        self.told("project 1\n" + "".join(f"unit U{i} basic end\n" for i in range(502)), "502:6: U500: no limit units: this unit can't stand here")
        self.told(UNIT + "".join(f"theorem t{i} : a;\n" for i in range(5002)), "5007:9: A.t5000: no limit theorems: this theorem can't stand here")
        self.told(UNIT + f"proof t = cut a {{ {' | '.join(['cut a'] * 50001)} }} qed\n", "7:7: A.t: no limit steps: this proof doesn't read")

    def test_no_unit(self):
        self.told("project 1\ntheorem t : a;\n", "2:9: t: no unit stands before this theorem")

    def test_a_full_stop_on_a_line(self):
        text = UNIT + "theorem t : all x : s\n.\np(x);\nproof t = open qed\ntheorem u : a ->;\n"
        self.told(text, "11:9: A.u: no syntax: this theorem doesn't read")

    def test_a_long_file(self):
        theorems = "".join(f"theorem t{i} : a -> a;\n" for i in range(3000))
        self.told(UNIT + theorems.replace("t2500 : a", "t2500 : and"), "2507:9: A.t2500: no syntax: this theorem doesn't read")
        self.told(UNIT + theorems.replace("t2500", "t7"), "2507:9: A.t7: no exists A.t7: this theorem can't stand here")

    def test_as_json(self):
        self.put("x.kiv", UNIT + "theorem t : a ->;\n")
        code, output, _ = self.call("--json", "--quiet", "x.kiv")
        told = json.loads(output)
        self.assertEqual((code, told["proved"], told["sum"]), (1, False, "0 theorems, 1 file that can't be read"))
        row = {"file": "x.kiv", "line": 7, "column": 9, "byte": 69, "kind": "theorem", "name": "A.t", "state": "refused"}
        self.assertEqual(told["rows"], [row | {"text": "no syntax: this theorem doesn't read"}])

    def test_progress(self):
        self.put("x.kiv", UNIT + "theorem t : ;\n")
        self.assertIn("handed over one by one", self.call("x.kiv")[2])


if __name__ == "__main__":
    unittest.main()
