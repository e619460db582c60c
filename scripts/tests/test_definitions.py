"""Tests of scripts/definitions over a small repository: kv_low defines what kv_top's contract says."""
import contextlib
import importlib.machinery
import importlib.util
import io
import os
import sys
import tempfile
import unittest

sys.dont_write_bytecode = True
PATH = os.path.join(os.path.dirname(os.path.realpath(__file__)), "../definitions")
LOADER = importlib.machinery.SourceFileLoader("definitions", PATH)
definitions = importlib.util.module_from_spec(importlib.util.spec_from_loader("definitions", LOADER))
LOADER.exec_module(definitions)

TREES = "-- Trees.\nuse Rattle.std.specs.Prelude.{ℕ, List}\n\nabbrev pub Tree : Type 0\nTree = ℕ\n"
COUNTS = "-- Counts.\nuse Rattle.kv_low.specs.Trees.{Tree}\nuse Rattle.kv_low.specs.declared.trees.Kind.{Kind}\n\nabbrev pub count : Tree → ℕ\ncount t =\n    t\n"
CODE = """\
ghost use Rattle.std.specs.Prelude.{◌≡◌, ℕ};
ghost use Rattle.kv_low.specs.Counts.{count};
ghost use Rattle.kv_low.specs.Work as work;

/// A comment that says work, and `fn other` with it.
pub fn quiet(tree: &Tree) -> usize {
    count(tree)
}

pub fn counted<T: Kind>(tree: &Tree) -> usize
    requires { 1 ≤ tree.now }
    ensures exact { (record { size = result }).size ≡ count tree.now }
{
    0
}

fn private(tree: &Tree) -> usize
    ensures { result ≡ work.done tree.now }
{
    0
}
"""
TOP = "ghost use Rattle.kv_low.specs.Counts.{count};\n\npub fn run() -> usize\n    ensures { result ≡ count 0 }\n{\n    0\n}\n"
PAGE = """\
# Definitions

To be believed: 5 lines in 2 files, and 5 lines in 2 of them.

| Definition | File | Lines | Stands on |
|---|---|---|---|
| trees | `kv_low/specs/Trees` | 2 | |
| their nodes | `kv_low/specs/Counts` | 3 | `Trees` |

| What the code's parts say | File | Lines |
|---|---|---|
| what is done | `kv_low/specs/Work` | 1 |
"""
FILES = {
    "crates.txt": "# crates\nkv_low: thiserror\nkv_top: kv_low\n",
    "docs/DEFINITIONS.md": PAGE,
    "crates/kv_low/specs/Lib.antt": "pub mod Trees\n",
    "crates/kv_low/specs/Trees.antt": TREES,
    "crates/kv_low/specs/Counts.antt": COUNTS,
    "crates/kv_low/specs/Work.antt": "abbrev pub done : ℕ → ℕ\n",
    "crates/kv_low/src/lib.rt": "mod counts;\n\npub use counts::counted;\n",
    "crates/kv_low/src/counts.rt": CODE,
    "crates/kv_top/src/lib.rt": "mod running;\n\npub use running::run;\n",
    "crates/kv_top/src/running.rt": TOP,
}


class Repository(unittest.TestCase):
    def setUp(self):
        folder = tempfile.TemporaryDirectory()
        self.addCleanup(folder.cleanup)
        self.root = folder.name
        for path, text in FILES.items():
            self.put(path, text)

    def put(self, path, text):
        full = os.path.join(self.root, path)
        os.makedirs(os.path.dirname(full), exist_ok=True)
        with open(full, "w", encoding="utf-8") as it:
            it.write(text)

    def change(self, path, old, new):
        self.assertIn(old, FILES[path])
        self.put(path, FILES[path].replace(old, new))

    def ran(self, *words):
        """The status, the lines of standard output, and those of standard error."""
        out, err = io.StringIO(), io.StringIO()
        with contextlib.redirect_stdout(out), contextlib.redirect_stderr(err):
            status = definitions.main(list(words), self.root)
        return status, out.getvalue().splitlines(), err.getvalue().splitlines()

    def refused(self, *lines):
        status, _, err = self.ran()
        self.assertEqual(err, [f"definitions: {it}" for it in lines])
        self.assertEqual(status, 1)


class Checking(Repository):
    def test_passes(self):
        self.assertEqual(self.ran(), (0, ["definitions: to be believed are 5 lines in 2 files, and 5 lines in 2 of them for the whole call"], []))

    def test_constant(self):
        new = "use Rattle.kv_low.specs.declared.limits.TheConstants.{MOST, LEAST}"
        self.change("crates/kv_low/specs/Counts.antt", "use Rattle.kv_low.specs.declared.trees.Kind.{Kind}", new)
        self.refused("kv_low/specs/Counts: it imports a constant of the code: Rattle.kv_low.specs.declared.limits.TheConstants.{MOST, LEAST}")

    def test_constants_by_another_name(self):
        new = "use Rattle.kv_low.specs.declared.limits.TheConstants as limits"
        self.change("crates/kv_low/specs/Counts.antt", "use Rattle.kv_low.specs.declared.trees.Kind.{Kind}", new)
        self.refused("kv_low/specs/Counts: it imports a constant of the code: Rattle.kv_low.specs.declared.limits.TheConstants")

    def test_constant_of_a_part_or_in_a_comment(self):
        work = "use Rattle.kv_low.specs.declared.limits.TheConstants.{MOST}\n"
        self.put("crates/kv_low/specs/Work.antt", work + FILES["crates/kv_low/specs/Work.antt"])
        self.change("crates/kv_low/specs/Counts.antt", "-- Counts.", "-- Counts, and no TheConstants.")
        self.assertEqual(self.ran()[0], 0)

    def test_settled_by_a_law(self):
        page = PAGE.replace("| trees | `kv_low/specs/Trees` | 2 | |\n", "").replace("5 lines in 2 files, and 5 lines in 2", "3 lines in 1 files, and 3 lines in 1")
        self.put("docs/DEFINITIONS.md", page + "| trees | `kv_low/specs/Trees` | 2 |\n")
        self.refused("kv_low/specs/Trees: `kv_low/Counts` stands on it, and it is among the code's parts")
        self.put("docs/DEFINITIONS.md", page + "| by a law, what is elsewhere | `kv_low/specs/Trees` | 2 |\n")
        self.assertEqual(self.ran()[0], 0)

    def test_no_such_file(self):
        self.change("docs/DEFINITIONS.md", "specs/Work`", "specs/Gone`")
        self.refused("kv_low/specs/Gone: there is no such file")

    def test_lines(self):
        self.put("crates/kv_low/specs/Trees.antt", TREES + "\n-- one more\nTree_2 = Tree\n")
        self.refused(
            "kv_low/specs/Trees: it has 3 lines, not 2",
            "docs/DEFINITIONS.md: it doesn't say once: 6 lines in 2 files, and 6 lines in 2 of them",
        )

    def test_stands_on(self):
        self.change("docs/DEFINITIONS.md", "| 3 | `Trees` |", "| 3 | |")
        self.refused("kv_low/specs/Counts: it stands on `Trees`, not on none")

    def test_cited_and_not_listed(self):
        self.change("crates/kv_low/src/counts.rt", "\nfn private", "\npub fn private")
        self.change("docs/DEFINITIONS.md", "| what is done | `kv_low/specs/Work` | 1 |\n", "")
        self.refused("kv_low/specs/Work: `kv_low::counts::private` cites it, and it is not listed")

    def test_cited_among_the_parts(self):
        self.change("crates/kv_low/src/counts.rt", "\nfn private", "\npub fn private")
        self.assertEqual(self.ran()[0], 0)

    def test_stands_on_a_part(self):
        self.put("crates/kv_low/specs/Trees.antt", "use Rattle.kv_low.specs.Work.{done}\n" + TREES)
        err = self.ran()[2]
        self.assertIn("definitions: kv_low/specs/Work: `kv_low/Trees` stands on it, and it is among the code's parts", err)

    def test_no_definition(self):
        self.change("docs/DEFINITIONS.md", "| trees |", "| |")
        self.refused("kv_low/specs/Trees: its row doesn't say what it defines")

    def test_listed_twice(self):
        self.change("docs/DEFINITIONS.md", "| what is done | `kv_low/specs/Work` | 1 |\n", "| what is done | `kv_low/specs/Work` | 1 |\n" * 2)
        self.refused("kv_low/specs/Work: it is listed twice")

    def test_no_row(self):
        self.change("docs/DEFINITIONS.md", "| what is done | `kv_low/specs/Work` | 1 |", "| what is done |")
        self.refused("a row has no file of the form `crate/specs/File`, or too few cells")

    def test_words(self):
        self.assertEqual(self.ran("--read")[0], 2)


class Citing(Repository):
    def test_clauses_of_public_functions(self):
        tree = definitions.Tree(self.root)
        self.assertEqual(tree.cited, {("kv_low", "Counts"): "kv_low::counts::counted"})

    def test_traits(self):
        code = "ghost use Rattle.kv_low.specs.Work as work;\n\npub trait Kind {\n    /// One.\n    fn one(&self)\n        ensures { work.done self.now };\n}\n"
        self.put("crates/kv_low/src/kinds.rt", code)
        self.assertEqual(definitions.Tree(self.root).cited[("kv_low", "Work")], "kv_low::kinds::one")

    def test_other_names(self):
        code = "ghost use Rattle.kv_low.specs.Work.{done as made};\n\npub fn one()\n    ensures { made 1 ≡ 2 }\n{}\n"
        self.put("crates/kv_low/src/ones.rt", code)
        self.assertEqual(definitions.Tree(self.root).cited[("kv_low", "Work")], "kv_low::ones::one")

    def test_the_whole_call(self):
        self.assertEqual(definitions.Tree(self.root).whole, {("kv_low", "Counts")})
        self.put("crates/kv_top/src/lib.rt", "mod running;\n")
        self.assertEqual(definitions.Tree(self.root).whole, set())


class Writing(Repository):
    def test_numbers(self):
        self.put("docs/DEFINITIONS.md", PAGE.replace("5 lines", "1,234 lines").replace("| 3 | `Trees` |", "| 7 | |").replace("| 1 |", "| |"))
        self.assertEqual(self.ran("--write")[0], 0)
        self.assertEqual(definitions.read(os.path.join(self.root, "docs/DEFINITIONS.md")), PAGE)

    def test_missing_files(self):
        self.put("docs/DEFINITIONS.md", PAGE.replace("| trees | `kv_low/specs/Trees` | 2 | |\n", ""))
        self.put("crates/kv_top/specs/Runs.antt", "abbrev pub Runs : Type 0\n")
        self.change("crates/kv_top/src/running.rt", "ghost use Rattle.kv_low.specs.Counts.{count}", "ghost use Rattle.kv_top.specs.Runs.{count}")
        status, _, err = self.ran("--write")
        rows = [it for it in definitions.read(os.path.join(self.root, "docs/DEFINITIONS.md")).splitlines() if "/specs/" in it]
        self.assertEqual(rows[1:3], ["| | `kv_low/specs/Trees` | 2 | |", "| | `kv_top/specs/Runs` | 1 | |"])
        self.assertEqual((status, len(err)), (1, 2))

    def test_a_part_that_is_needed(self):
        self.put("crates/kv_low/specs/Trees.antt", "use Rattle.kv_low.specs.Work.{done}\n" + TREES)
        self.refused_after_write("kv_low/specs/Work: its row doesn't say what it defines")

    def refused_after_write(self, line):
        status, _, err = self.ran("--write")
        self.assertEqual((status, err), (1, [f"definitions: {line}"]))


if __name__ == "__main__":
    unittest.main()
