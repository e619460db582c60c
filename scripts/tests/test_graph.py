"""Tests of tools/graph: the dot text of real projects, and the picture where Graphviz is there."""
import os
import re
import shutil
import subprocess
import sys
import unittest

sys.dont_write_bytecode = True
from calls import ROOT, WithFolder  # noqa: E402

USES = """\
project 1
unit Nat basic sort nat; end
unit Order enrich Nat with pred lt : nat, nat; end
theorem irreflexive : all x : nat . not lt(x, x);
unit Set param Nat using Order with sort set; end
unit Both union Set, Order end
unit Ren rename Both by sort set => bag; end
unit Act actualize Set with Both by sort nat => set; end
unit Mod module export Act import Both by fun f => g; end
"""
GREEN, YELLOW, RED, GREY = '"#b7e4b0"', '"#fff0a5"', '"#f5b0a8"', '"#d5d5d5"'


class Graph(WithFolder):
    TOOL = "tools/graph"

    def nodes(self, text):
        """The label and the colour of each box that isn't hidden."""
        return re.findall(r'u\d+(?:_\d+)? \[label="([^"]*)", fillcolor=("[^"]*")\]', text)

    def test_states_by_colour(self):
        code, output, error = self.call("examples/connectives.kiv", folder=ROOT)
        self.assertEqual((code, error), (0, ""))
        self.assertEqual(self.nodes(output)[:2], [("close", GREEN), ("andL", GREEN)])
        wanted = [("begun\\nopen 1", YELLOW), ("wrong\\nbroken 1 close position", RED), ("strange\\nill unknown c", GREY), ("proof forgotten\\nidle", GREY)]
        self.assertEqual(self.nodes(output)[4:], wanted)
        self.assertEqual(re.findall(r'    label="([^"]*)"', output), ["Rules", "States"])

    def test_a_bad_unit(self):
        output = self.call("examples/signatures.kiv", folder=ROOT)[1]
        self.assertIn('label="Bad\\nbad unknown list";\n    style=filled; fillcolor="#d5d5d5"', output)

    def test_units_alone(self):
        output = self.call("--units", "examples/connectives.kiv", folder=ROOT)[1]
        self.assertEqual(self.nodes(output), [("Rules\\n4 proved", GREEN), ("States\\n1 open, 1 broken, 1 ill, 1 idle", RED)])

    def test_uses(self):
        self.put("uses.kiv", USES)
        code, output, error = self.call("--units", "uses.kiv")
        names = ["Nat", "Order", "Set", "Both", "Ren", "Act", "Mod"]
        edges = [(names[int(below)], names[int(above)]) for above, below in re.findall(r"^  u(\d) -> u(\d);$", output, re.MULTILINE)]
        wanted = [("Order", "Nat"), ("Set", "Nat"), ("Set", "Order"), ("Both", "Set"), ("Both", "Order"), ("Ren", "Both")]
        self.assertEqual((code, edges), (0, wanted + [("Act", "Set"), ("Act", "Both"), ("Mod", "Act"), ("Mod", "Both")]))
        self.assertIn(("Order\\n1 not asked", '"#ffffff"'), self.nodes(output))
        self.assertIn("graph: without states: uses.kiv:3:6: Order: no syntax: this unit doesn't read\n", error)

    def test_many_units(self):
        units = "".join(f"unit U{i} basic\n  pred a;\nend\ntheorem t : a -> a;\ntheorem u : a;\nproof t = impR 1; close 1 1 qed\n" for i in range(30))
        self.put("many.kiv", "project 1\n" + units)
        code, output, _ = self.call("many.kiv")
        self.assertEqual((code, self.nodes(output)), (0, [("t", GREEN), ("u\\nopen 1", YELLOW)] * 30))
        if shutil.which("dot"):
            self.assertEqual(subprocess.run(["dot", "-Tplain"], input=output, capture_output=True, text=True, check=False).returncode, 0)

    @unittest.skipUnless(shutil.which("dot"), "there is no Graphviz")
    def test_a_picture(self):
        code, output, error = self.call("--svg", os.path.join(self.folder, "x.svg"), "examples/refused.kiv", folder=ROOT)
        self.assertEqual((code, output, error), (0, "", ""))
        with open(os.path.join(self.folder, "x.svg"), encoding="utf-8") as it:
            self.assertIn("broken 1 close shape", it.read())

    def test_no_file(self):
        self.assertEqual(self.call("x.kiv")[0], 2)
        self.assertIn("dot text", self.call("--help")[1])


if __name__ == "__main__":
    unittest.main()
