"""Tests of tools/editors: their words are those of kv_table, and the commands of Vim and Emacs do what they say where these are."""
import json
import os
import re
import shutil
import subprocess
import sys
import unittest

sys.dont_write_bytecode = True
from calls import ROOT, SECONDS, WithFolder  # noqa: E402

EDITORS = os.path.join(ROOT, "tools/editors")
TABLES = ("Keywords", "Rules", "Commands", "States", "Reasons")
TEXT = "project 1\nunit A basic\n  pred a;\nend\ntheorem t : a -> a;\ntheorem u : a -> a;\nproof t = impR 1;\n  close 1 2 qed\nproof u = impR 1; close 1 1 qed\n"
VIM = """\
edit x.kiv
syntax on
call cursor(7, 1)
KivdSend
let sent = execute('messages')
let at = [line('.'), col('.')]
KivdCheck
let listed = map(getqflist(), 'v:val.lnum . ":" . v:val.col . ": " . v:val.text')
wincmd t
let names = map([[1, 1], [5, 1], [7, 11], [8, 3], [8, 9]], 'synIDattr(synID(v:val[0], v:val[1], 1), "name")')
call writefile([json_encode([sent, at, listed, &filetype, names])], 'told')
qa!
"""
EMACS = """\
(progn
  (find-file "x.kiv")
  (goto-char (point-min))
  (forward-line 6)
  (kivd-send)
  (let ((at (list (line-number-at-pos) (current-column))) faces)
    (font-lock-ensure)
    (dolist (word '("project" "impR" "close"))
      (goto-char (point-min))
      (search-forward word)
      (push (get-text-property (1- (point)) 'face) faces))
    (kivd-check)
    (write-region (format "%S" (list at major-mode (nreverse faces) (with-current-buffer "*kivcheck*" (buffer-string)))) nil "told")))
"""


def words(table):
    """The words of a table of kv_table, in its order."""
    with open(os.path.join(ROOT, f"crates/kv_table/specs/{table}.antt"), encoding="utf-8") as it:
        return re.search(r'_rows = words \(codes "([^"]*)"\)', it.read())[1].split(" ")


def read(name):
    with open(os.path.join(EDITORS, name), encoding="utf-8") as it:
        return it.read()


class Words(unittest.TestCase):
    def test_vim(self):
        text = re.sub(r"\n *\\ ", " ", read("vim/syntax/kiv.vim"))
        self.assertIn(f"syn keyword kivKeyword {' '.join(words('Keywords'))}\n", text)
        for table in TABLES[1:]:
            group = "kiv" + table[:-1]
            line = next(it for it in text.split("\n") if it.startswith(f"syn match {group} "))
            self.assertTrue(line.endswith("\\%(" + "\\|".join(words(table)) + "\\)\\>'"), line)

    def test_emacs(self):
        text = read("emacs/kiv-mode.el")
        for table in TABLES:
            told = re.search(rf"\(defconst kiv-{table.lower()}\n  '\(([^)]*)\)", text)[1]
            self.assertEqual(re.findall(r'"(\w+)"', told), words(table))

    def test_textmate(self):
        grammar = json.loads(read("textmate/kiv.tmLanguage.json"))["repository"]
        for table, rule in zip(TABLES, ("keyword", "rule", "command", "row", "row")):
            self.assertRegex(grammar[rule]["match"], r"\((\?:)?" + re.escape("|".join(words(table))) + r"\)")

    def test_textmate_matches(self):
        grammar = json.loads(read("textmate/kiv.tmLanguage.json"))["repository"]
        rule = re.compile(grammar["rule"]["match"])
        self.assertEqual([it[1] for it in rule.finditer("proof t = impR 1; andR 1 { close 1 1 | open } qed")], ["impR", "andR", "close"])
        self.assertEqual(re.match(grammar["row"]["match"], "theorem A.t broken 1.2 close shape").groups()[2:], ("broken", "close", "shape"))

    def test_the_extension_names_its_files(self):
        package = json.loads(read("textmate/package.json"))["contributes"]
        files = [package["languages"][0]["configuration"], package["grammars"][0]["path"]]
        for file in files:
            json.loads(read("textmate/" + file))
        pattern = package["problemMatchers"][0]["pattern"]
        self.assertEqual(re.match(pattern["regexp"], "x.kiv:8:3: A.t: broken 1 close position").groups()[:3], ("x.kiv", "8", "3"))

    def test_the_commands_are_short(self):
        for name in ("vim/plugin/kivd.vim", "emacs/kivd.el"):
            self.assertLess(read(name).count("\n"), 60)


class Commands(WithFolder):
    def starts(self, *command):
        self.put("x.kiv", TEXT)
        done = subprocess.run(command, cwd=self.folder, stdin=subprocess.DEVNULL, capture_output=True, text=True, timeout=SECONDS, check=False)
        self.assertTrue(os.path.exists(os.path.join(self.folder, "told")), done.stderr)
        with open(os.path.join(self.folder, "told"), encoding="utf-8") as it:
            return it.read()

    @unittest.skipUnless(shutil.which("vim"), "there is no vim")
    def test_vim(self):
        self.put("script.vim", VIM)
        folder = os.path.join(EDITORS, "vim")
        told = self.starts(
            "vim", "-es", "-u", "NONE", "-i", "NONE", "-N", "--cmd", f"set rtp^={folder}", "--cmd", "filetype on | runtime plugin/kivd.vim", "-S", "script.vim",
        )
        sent, at, listed, kind, names = json.loads(told)
        self.assertTrue(sent.endswith("A.t: broken 1 close position"), sent)
        self.assertEqual((at, listed, kind), ([8, 3], ["8:3: A.t: broken 1 close position"], "kiv"))
        self.assertEqual(names, ["kivKeyword", "kivKeyword", "kivRule", "kivRule", "kivNumber"])

    @unittest.skipUnless(shutil.which("emacs"), "there is no emacs")
    def test_emacs(self):
        told = self.starts("emacs", "--batch", "-Q", "-L", os.path.join(EDITORS, "emacs"), "-l", "kivd", "-l", "kiv-mode", "--eval", EMACS)
        faces = "(font-lock-keyword-face font-lock-function-name-face font-lock-function-name-face)"
        self.assertTrue(told.startswith(f"((8 2) kiv-mode {faces} "), told)
        self.assertIn("x.kiv:8:3: A.t: broken 1 close position\nkivcheck: 2 theorems (1 broken, 1 proved)", told)


if __name__ == "__main__":
    unittest.main()
