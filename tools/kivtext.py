"""The text of a project as the tools beside this file see it: tokens, and the parts that begin with a top-level word.

This is no reader of the language. It finds places: where a unit, a theorem, a proof, an item or a step stands. What a part
means, and whether it reads at all, is asked of kivd.
"""
import bisect
import re

TOKEN = re.compile(rb"[ \t\r\n]+|%[^\n]*|(?P<word>[0-9]+|(?:\w|[\x80-\xff])+)|(?P<mark><->|:=|=>|->|.)", re.DOTALL)
TOP = (b"unit", b"theorem", b"proof")
LAST = {"unit": b"end", "theorem": b";", "proof": b"qed"}
OPENING, CLOSING = (b"(", b"["), (b")", b"]")


class Token:
    """A word or a mark, with its first byte and the byte behind it."""

    def __init__(self, text, begin, is_word):
        self.text, self.begin, self.end, self.is_word = text, begin, begin + len(text), is_word


def tokens(data):
    """All tokens of a text; blanks and comments stand between them."""
    found = (it for it in TOKEN.finditer(data) if it.lastgroup)
    return [Token(it[0], it.start(), it.lastgroup == "word") for it in found]


class Part:
    """A unit, a theorem or a proof: its tokens, its own name, and the name of the unit that it belongs to."""

    def __init__(self, kind, its_tokens, unit):
        self.kind, self.tokens = kind, its_tokens
        self.begin, self.end = its_tokens[0].begin, its_tokens[-1].end
        self.name = name_of(its_tokens)
        self.unit = self.name if kind == "unit" else unit

    def shown(self):
        """The name as kivd shows it."""
        return self.name if self.kind == "unit" or not self.unit else f"{self.unit}.{self.name}"

    def has_end(self):
        return len(self.tokens) > 1 and self.tokens[-1].text == LAST[self.kind]

    def place(self):
        """The byte of the name, or of the first word where there is none."""
        return self.tokens[1].begin if self.name else self.begin


def name_of(its_tokens):
    """What stands between the first word and the first thing that is no part of a name."""
    name = b""
    for token in its_tokens[1:]:
        if not token.is_word and token.text != b".":
            break
        if token.is_word and name and not name.endswith(b"."):
            break
        name += token.text
    return name.decode(errors="replace")


def parts(data):
    """The parts in their order; what stands before the first one is the head."""
    found, unit, all_tokens = [], "", tokens(data)
    heads = [at for at, it in enumerate(all_tokens) if it.is_word and it.text in TOP]
    for at, behind in zip(heads, heads[1:] + [len(all_tokens)]):
        part = Part(all_tokens[at].text.decode(), all_tokens[at:behind], unit)
        unit = part.unit
        found.append(part)
    return found


class Sent:
    """A command made of a piece of the file: its bytes, and where each of them stands in the file."""

    def __init__(self, lead, text, begin, tail=b""):
        self.lead, self.begin = len(lead), begin
        self.bytes = one_command(lead + text + tail)

    def place(self, byte):
        """The byte of the file from which the command's byte comes."""
        return self.begin + max(0, byte - self.lead)


def one_command(text):
    """The same bytes without a line that would end the command: a blank stands in the place of that line's end."""
    text = re.sub(rb"(?m)^\.(\r?)\n", rb".\1 ", text)
    return text + b" " if re.search(rb"(?m)^\.\r?\Z", text) else text


def command(data, part, unit):
    """The command that hands a part over; a theorem or a proof goes to the unit of that name."""
    if part.kind == "unit":
        return Sent(b"add ", data[part.begin:part.end], part.begin)
    end = part.tokens[-1].begin if part.has_end() else part.end
    begin = part.tokens[0].end
    return Sent(f"{part.kind} {unit}".encode(), data[begin:end], begin)


def lesser(data, part):
    """Commands that hand over the items of a unit or the steps of a proof, one each."""
    if part.kind == "unit" and [it.text for it in part.tokens[2:3]] == [b"basic"]:
        return [Sent(b"add unit U basic ", span(data, it), it[0].begin, b"; end") for it in items(part)]
    if part.kind == "proof":
        return [Sent(b"proof U p = ", span(data, it), it[0].begin) for it in steps(part)]
    return []


def span(data, its_tokens):
    return data[its_tokens[0].begin:its_tokens[-1].end]


def pieces(its_tokens, ends):
    """The runs of tokens between the marks, those within brackets not counted."""
    run, depth = [], 0
    for token in its_tokens:
        depth += (token.text in OPENING) - (token.text in CLOSING)
        if depth <= 0 and token.text in ends:
            if run:
                yield run
            run = []
        else:
            run.append(token)
    if run:
        yield run


def script(part):
    """The tokens of a proof's script."""
    at = next((at for at, it in enumerate(part.tokens) if it.text == b"="), len(part.tokens))
    return part.tokens[at + 1:len(part.tokens) - part.has_end()]


def steps(part):
    """The steps of a proof, in the order of the text."""
    return list(pieces(script(part), (b";", b"{", b"|", b"}")))


def items(part):
    """The items of a unit, each with its semicolon left out."""
    inner = part.tokens[3:len(part.tokens) - part.has_end()]
    return list(pieces(inner, (b";",)))


def step_at(part, path):
    """The tokens of the step at a path of child numbers, or None where the script has no such step."""
    rest = script(part)
    for number in path:
        rest = child(rest, number)
    return next(pieces(rest, (b";", b"{", b"|", b"}")), None)


def child(rest, number):
    """The tokens from the child of that number on; the script that begins the tokens has it."""
    depth, braces, seen = 0, 0, 1
    for at, token in enumerate(rest):
        depth += (token.text in OPENING) - (token.text in CLOSING)
        if depth > 0:
            continue
        if token.text == b";" and braces == 0:
            return rest[at + 1:] if number == 1 else []
        braces += (token.text == b"{") - (token.text == b"}")
        if token.text in (b"{", b"|") and braces == 1:
            if seen == number:
                return rest[at + 1:]
            seen += 1
        if braces < 0 or (braces == 0 and token.text in (b"|", b"}")):
            return []
    return []


class Lines:
    """The lines of a text: where a byte stands."""

    def __init__(self, data):
        self.data, self.starts = data, [0] + [it.end() for it in re.finditer(rb"\n", data)]

    def place(self, byte):
        """The line and the column of a byte, both counted from 1; columns count characters."""
        line = bisect.bisect_right(self.starts, byte)
        begin = self.starts[line - 1]
        return line, len(self.data[begin:byte].decode(errors="replace")) + 1

    def byte(self, line, column=1):
        """The byte at a line and a column."""
        if line > len(self.starts):
            return len(self.data)
        begin = self.starts[max(line, 1) - 1]
        end = self.data.find(b"\n", begin)
        text = self.data[begin:len(self.data) if end < 0 else end].decode(errors="replace")
        return begin + len(text[:max(column, 1) - 1].encode())


def put_at(data, part, path, text):
    """A script that leads to the place at a path as the proof does, and has the text there; all beside the path is open."""
    rest, script_text = script(part), ""
    for number in path:
        step = next(pieces(rest, (b";", b"{", b"|", b"}")))
        script_text += span(data, step).decode() + " { " + "open | " * (number - 1)
        rest = child(rest, number)
    return script_text + text + " }" * len(path)
