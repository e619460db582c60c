"""kivd as a program: finding it, calling it, and its answers."""
import os
import shutil
import subprocess
import tempfile
import time

ROOT = os.path.dirname(os.path.dirname(os.path.realpath(__file__)))
BUILT = os.path.join(ROOT, "crates/kivd/out/kivd")
EMPTY = b"project 1\n"
LONGEST_COMMAND = 1_048_576
REFUSED = 7
PATIENCE = 2.0


class Missing(Exception):
    """There is no kivd to be called."""


def found(path=None):
    """The program: the one that was named, the one that `rt ci` left, or the one on the path."""
    for it in [path] if path else [BUILT, shutil.which("kivd")]:
        if it and os.path.isfile(it):
            return os.path.realpath(it)
    raise Missing(f"{path or 'kivd'} isn't there: `rt ci` leaves it at crates/kivd/out/kivd, and --kivd PATH names another one")


class Ended:
    """How a call ended: its status, its output, and what it said of a status other than 0."""

    def __init__(self, status, output, error):
        self.status, self.output, self.error = status, output, error.strip().removeprefix("kivd: ")

    def rows(self):
        """The lines of one answer, without its last line."""
        return self.output.decode(errors="replace").split("\n")[:-2]

    def answers(self):
        """The answers to commands, each as its lines."""
        found, lines = [], []
        for line in self.output.decode(errors="replace").split("\n")[:-1]:
            if line == ".":
                found.append(lines)
                lines = []
            else:
                lines.append(line)
        return found


class Program:
    """Calls of kivd. What takes long is told by `tell`, which gets a text."""

    def __init__(self, path, tell=lambda text: None):
        self.path, self.tell = path, tell

    def check(self, text):
        return self.call("check", text, b"")

    def run(self, text, commands):
        """Runs commands over a project of this text. No file of anybody's is touched."""
        return self.call("run", text, b"".join(it + b"\n.\n" for it in commands))

    def call(self, mode, text, commands):
        with tempfile.TemporaryDirectory() as folder:
            file = os.path.join(folder, "project.kiv")
            with open(file, "wb") as it:
                it.write(text)
            return self.ended(mode, file, commands)

    def ended(self, mode, file, commands=b""):
        begin, given = time.monotonic(), commands
        with subprocess.Popen([self.path, mode, file], stdin=subprocess.PIPE, stdout=subprocess.PIPE, stderr=subprocess.PIPE) as it:
            while True:
                try:
                    output, error = it.communicate(given, timeout=PATIENCE)
                    return Ended(it.returncode, output, error.decode(errors="replace"))
                except subprocess.TimeoutExpired:
                    given = None
                    self.tell(f"kivd {mode} has run for {time.monotonic() - begin:.0f} s")


def read(path):
    with open(path, "rb") as it:
        return it.read()
