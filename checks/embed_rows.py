"""The rows of crates/hpr_cases whose shelf and sinks don't fail, for the callers of checks/embed, which need not read its lines:

    python3 checks/embed_rows.py FILE

writes them into FILE. A number is eight bytes, the lowest first, and a text its length as such a number, and its bytes. Each row has
its words and the names of its files, as texts with a zero byte behind each word and name; a text for each file; the status as a
number; and the texts of `out` and `err`.
"""
import pathlib
import re
import sys

FOLDER = pathlib.Path(__file__).resolve().parent.parent / "crates" / "hpr_cases"


def unescaped(text):
    """The bytes of a text, in which \\HH is one byte; a \\ at its end is none."""
    return re.sub(rb"\\([0-9a-f]{2}|.?$)", lambda found: bytes.fromhex(found[1].decode()) if len(found[1]) == 2 else b"", text)


# the row that is to come to something else than it says
DIFFERING = b"# hpr_rows/sheet: "


class Told:
    """What a call is to come to: the lines behind it."""

    def __init__(self, lines):
        self.data, self.at = b"".join(line[2:] + b"\n" for line in lines), 0

    def line(self):
        end = self.data.index(b"\n", self.at)
        line, self.at = self.data[self.at : end], end + 1
        return line

    def part(self, name):
        if not self.data.startswith(name + b" ", self.at):
            return b""
        count = int(self.line().split()[1])
        text = self.data[self.at : self.at + count]
        self.at += count if text.endswith(b"\n") else count + 1
        return text

    def answer(self):
        while not self.data.startswith(b"status ", self.at):
            self.line()
        return int(self.line().split()[1]), self.part(b"out"), self.part(b"err")


class Files:
    """The files of a row, as its lines tell them; `fails` where its shelf or a sink is another than usual."""

    def __init__(self):
        self.files, self.fails, self.has_line = [], False, False

    def add(self, line):
        sign, rest = line[:1], line[2:]
        if sign == b"@":
            self.files.append((unescaped(rest), bytearray()))
            self.has_line = False
        elif sign == b"!":
            self.fails = True
        elif sign == b"+":
            self.files[-1][1].extend(unescaped(rest))
        elif sign == b"*":
            first, last, text = rest.split(b" ", 2)
            piece, numbers = unescaped(text), range(int(first), int(last) + 1)
            pieces = (piece.replace(b"$", b"%d" % number) for number in numbers)
            self.files[-1][1].extend(b"".join(pieces) if b"$" in piece else piece * len(numbers))
        elif self.files:
            self.files[-1][1].extend((b"\n" if self.has_line else b"") + unescaped(line))
            self.has_line = True


def calls(lines):
    """Each call with the title and the files of its row, and the lines that it is to come to."""
    title, files, at = b"", Files(), 0
    while at < len(lines):
        line, at = lines[at], at + 1
        if line.startswith(b"# "):
            title, files = line, Files()
        elif line.startswith(b"$"):
            start = at
            while at < len(lines) and (lines[at] == b"=" or lines[at].startswith(b"= ")):
                at += 1
            yield title, files, [unescaped(word) for word in line[1:].split()], lines[start:at]
        else:
            files.add(line)


def rows():
    """The words, the files, and the status with both texts, of each row."""
    for title, files, words, lines in calls((FOLDER / "stdin").read_bytes().split(b"\n")[:-1]):
        status, out, err = Told(lines).answer()
        if not files.fails and status != 6 and not title.startswith(DIFFERING):
            yield words, files.files, (status, out, err)


def number(value):
    return value.to_bytes(8, "little")


def text(data):
    return number(len(data)) + bytes(data)


def packed(texts):
    return text(b"".join(part + b"\0" for part in texts))


def main():
    if len(sys.argv) != 2 or sys.argv[1].startswith("-"):
        print(__doc__, file=sys.stdout if sys.argv[1:] == ["--help"] else sys.stderr)
        return 0 if sys.argv[1:] == ["--help"] else 2
    with open(sys.argv[1], "wb") as out:
        for words, files, (status, printed, message) in rows():
            parts = [packed(words), packed(name for name, _ in files), *(text(data) for _, data in files)]
            out.write(b"".join([*parts, number(status), text(printed), text(message)]))
    return 0


if __name__ == "__main__":
    sys.exit(main())
