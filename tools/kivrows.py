"""Rows of kivd's answers at their places in a file, and the parts of a file that don't read."""
import kivprogram
import kivtext

GOOD = ("ok", "proved")
STATES = GOOD + ("open", "broken", "ill", "waiting", "cyclic", "idle", "bad", "refined", "unrefined")


class Row:
    """One line of what is told: a name of the file, its state, and where it stands."""

    def __init__(self, part, state, byte=None, kind=None, name=None):
        self.kind = part.kind if part else kind
        self.name = part.shown() if part else name
        self.state = state
        self.byte = byte if byte is not None else part.place() if part else 0
        self.is_good = state in GOOD

    def broken(self):
        """Path, rule and reason of a row that is broken."""
        words = self.state.split(" ", 3)
        return words[1:] if words[0] == "broken" else None

    def as_json(self, file, lines):
        line, column = lines.place(self.byte)
        told = {"file": file, "line": line, "column": column, "byte": self.byte, "kind": self.kind, "name": self.name}
        word = self.state.split(" ")[0]
        told |= {"state": word if word in STATES else "refused", "text": self.state}
        if self.broken():
            told |= dict(zip(("path", "rule", "reason"), self.broken()))
        return told


class File:
    """One file: its bytes, its parts, and the rows that are told of it."""

    def __init__(self, name, data, program):
        self.name, self.data, self.program = name, data, program
        self.lines = kivtext.Lines(data)
        self.parts = kivtext.parts(data)
        self.names = {(it.kind, it.shown()): it for it in reversed(self.parts)}
        self.rows, self.is_read = [], True

    def check(self):
        """Asks for the states of all that the file has."""
        ended = self.program.check(self.data)
        if ended.status == kivprogram.REFUSED:
            self.rows = self.unread() or [self.first_refused()]
        elif ended.status:
            self.rows = [Row(None, ended.error, kind="file", name="kivd")]
        else:
            self.rows = [self.row(it) for it in ended.rows()]
        self.is_read = ended.status == 0

    def row(self, line):
        """A row of kivd's answer at its place."""
        kind, name, state = line.split(" ", 2)
        row = Row(self.names.get((kind, name)), state, kind=kind, name=name)
        proof = self.names.get(("proof", name))
        if row.broken() and proof:
            path = [int(it) for it in row.broken()[0].split(".") if it != "0"]
            step = kivtext.step_at(proof, path)
            row.byte = step[0].begin if step else proof.place()
        elif state.startswith("open") and proof:
            row.byte = proof.place()
        return row

    def unread(self):
        """A row for each part that doesn't read, by what kivd answers when it is handed over."""
        self.program.tell(f"{self.name} is refused: its {len(self.parts)} parts are handed over one by one")
        rows = []
        units = [it for it in self.parts if it.kind == "unit"]
        for group in (units, [it for it in self.parts if it.kind != "unit"]):
            # a theorem or a proof that reads is answered by `no unknown`, as there is no unit for it
            sent = [kivtext.command(self.data, it, "U") for it in group]
            for part, it, line in zip(group, sent, self.answers(sent)):
                if is_unread(line):
                    rows.append(self.unread_row(part, it, line))
        return sorted(rows, key=lambda it: it.byte)

    def answers(self, sent):
        """The first line of the answer to each command, all handed to one run over the empty project; of a long one that is none."""
        fits = [len(it.bytes) <= kivprogram.LONGEST_COMMAND for it in sent]
        answers = iter(self.program.run(kivprogram.EMPTY, [it.bytes for it, is_in in zip(sent, fits) if is_in]).answers())
        return ["".join(next(answers, [])[:1]) if is_in else "" for is_in in fits]

    def unread_row(self, part, sent, line):
        """The row of a part that doesn't read, by the answer to it."""
        fault = "no token" if line.startswith("no token") else line
        return Row(part, f"{fault}: this {part.kind} doesn't read", self.unread_place(part, sent, line))

    def unread_place(self, part, sent, line):
        """Where a part doesn't read: at the byte that kivd tells, at the first item or step that doesn't read alone, or at its name."""
        if line.startswith("no token"):
            return sent.place(int(line.split()[2]))
        lesser = kivtext.lesser(self.data, part) if line == "no syntax" else []
        for it, answer in zip(lesser, self.answers(lesser)):
            if is_unread(answer):
                return it.begin
        return part.place()

    def first_refused(self):
        """A row for the first part with which the text up to there is refused. All parts read when they stand alone."""
        reads, refused = -1, len(self.parts)
        while refused - reads > 1:
            middle = (reads + refused) // 2
            if self.program.check(self.until(middle)).status == kivprogram.REFUSED:
                refused = middle
            else:
                reads = middle
        head = self.until(0)
        if refused == 0:
            why = "a file begins with `project 1`, and then a unit comes"
            return self.untold(kivtext.Sent(b"", head, 0), "project") or Row(None, why, kind="file", name="project")
        part = self.parts[refused - 1]
        behind = self.until(refused)[part.end:]
        return self.untold(kivtext.Sent(b"status ", behind, part.end), part.shown()) or Row(part, self.misplaced(part, self.until(refused - 1)))

    def untold(self, sent, name):
        """A row for a byte that begins no token in what stands between the parts, or None."""
        line = self.answers([sent])[0]
        return Row(None, "no token", sent.place(int(line.split()[2])), "file", name) if line.startswith("no token") else None

    def until(self, count):
        """The text of the file up to the end of so many parts."""
        if count == len(self.parts):
            return self.data
        return self.data[:self.parts[count].begin]

    def misplaced(self, part, before):
        """Why a part that reads can't stand where it stands."""
        if not part.unit:
            return f"no unit stands before this {part.kind}"
        if not part.has_end():
            return f"no `{kivtext.LAST[part.kind].decode()}` at the end of this {part.kind}"
        answers = self.program.run(before, [kivtext.command(self.data, part, part.unit).bytes]).answers()
        line = answers[0][0] if answers else "no answer"
        if not line.startswith("ok"):
            return f"{line}: this {part.kind} can't stand here"
        if part.kind == "theorem":
            return "a theorem stands before the proofs of its unit"
        return "the unit has a proof of this name" if part.kind == "proof" else "this unit can't stand here"


def is_unread(line):
    return line.startswith("no token") or line in ("no syntax", "no limit steps")


def shown(file, row):
    line, column = file.lines.place(row.byte)
    return f"{file.name}:{line}:{column}: {row.name}: {row.state}"
