"""What hpr tells as data, turned back into its own lines, for checks/embed:

    python3 checks/embed_data.py lines WORD.. <ANSWER   prints what the program prints of the call with these words, by its answer
                                                        as data, and ends with its status
    python3 checks/embed_data.py rows ROWS ANSWERS      compares the answers of a file of rows with what the rows say

ROWS is a file of embed_rows.py. ANSWERS has of each of its rows the answer as data, where it is a call of integrate, affected,
graph, run or verify, and then of each of its files where its parts stand: a status as a number, and a text. Each text is to be JSON as compact as
json.dumps writes it, with members in ascending order. The usage, which the program prints of words that are no call, and the steps
of --trace are no part of the data.
"""
import re
import sys

sys.dont_write_bytecode = True

from told import compact, conflict, edge, graph, listed, parsed, places_of, vertex, words_of  # noqa: E402

COMMANDS = [b"integrate", b"affected", b"graph", b"run", b"verify"]
STATUS = {
    "done": 0, "verified": 0, "interference": 1, "no program": 2, "spent": 3, "refused": 4, "absent": 5, "words": 7, "faulted": 9, "not ended": 9,
    "rejected": 10,
}
# what a file is refused for, by its kind
REASONS = {
    "too long": "longer than 4194304 bytes",
    "syntax": "syntax at byte {byte}",
    "tag twice": "tag {tag} stands twice",
    "tag not issued": "tag {tag} was not issued",
    "too deep": "part {tag} is nested deeper than 64",
    "expression too large": "expression of {tag} has more than 256 operators",
    "wrong name": "part {tag} has a wrong name",
    "too many parts": "{parts} parts, more than 4000",
    "name twice": "end names {name} twice",
    "too many edges": "graph has more than 1000000 edges",
}
SHOWN = 10


# ---- lines
def value(one):
    if isinstance(one, dict):
        return "{" + ",".join(f"{index}:{number}" for index, number in one["elements"]) + "}"
    return "[" + ",".join(map(str, one)) + "]" if isinstance(one, list) else str(one)


def message(refusal):
    """The message of a refusal, by its other members where a file is refused."""
    if refusal["kind"] == "state word":
        return refusal["message"]
    return f"hpr: {refusal['file']}: {REASONS[refusal['kind']].format(**refusal)}\n"


def certificate(answer):
    """What shows that an offered program isn't the merged one."""
    shown = answer.get("conflict", answer)
    says = {"edge": edge, "point": words_of, "vertex": words_of}
    texts = {kind: say(shown[kind]) for kind, say in says.items() if kind in shown}
    if "conflict" in answer:
        return compact({**texts, "kind": "conflict", "side": " AB"[shown["variant"]]})
    return compact({**texts, "holder": answer["holder"], "kind": next(iter(texts))})


def printed(answer, words):
    """The lines of standard output of the call with these words."""
    status = answer["status"]
    if "program" in answer:
        return answer["program"].removesuffix("\n").split("\n")
    if "points" in answer:
        return listed("affected", map(vertex, answer["points"]))
    if "vertices" in answer:
        return graph(answer["vertices"], answer["edges"], b"--json" in words)
    if "values" in answer:
        return [f"ended, steps {answer['steps']}", *(f"{one['name']} = {value(one['value'])}" for one in answer["values"])]
    if status == "interference":
        return listed("interference", [conflict(one, has_many(words)) for one in answer["conflicts"]])
    if status == "verified":
        return ["verified"]
    if status == "rejected":
        return [certificate(answer)]
    if status == "no program":
        return [f"no program with at most 4000 parts has the merged graph, which has {answer['parts']} parts"]
    if status == "spent":
        return [f"spent: none of the first {answer['tries']} arrangements has the merged graph"]
    if status == "faulted":
        return [f"faulted {answer['fault']} at {answer['tag']}, steps {answer['steps']}"]
    return [f"not ended, steps {answer['steps']}"] if status == "not ended" else []


def told(answer, words):
    """The status, and what the program writes to standard output and standard error; of the usage nothing."""
    err = ""
    if answer["status"] == "refused":
        err = message(answer)
        if err != answer["message"]:
            raise ValueError(f"the message {answer['message']!r}, and not {err!r}")
    elif answer["status"] == "absent":
        err = f"hpr: cannot read {answer['file']}\n"
    out = "".join(line + "\n" for line in printed(answer, words))
    return STATUS[answer["status"]], out.encode(), err.encode()


def has_many(words):
    """Whether a call integrates more than two variants."""
    return len([word for word in words[1:] if not re.match(rb"--|\d+$", word)]) > 3


# ---- rows
class Rows:
    """What a file of numbers and texts still has."""

    def __init__(self, data):
        self.data, self.at = data, 0

    def take(self, count):
        self.at += count
        return self.data[self.at - count : self.at]

    def number(self):
        return int.from_bytes(self.take(8), "little")

    def text(self):
        return self.take(self.number())

    def texts(self):
        return self.text().split(b"\0")[:-1]


def other_call(words, wanted, status, text):
    """What an answer to a call says otherwise than its row, if it does."""
    got = told(parsed(text), words)
    out = wanted[1][-len(got[1]) :] if b"--trace" in words else wanted[1]
    err = b"" if wanted[0] == STATUS["words"] else wanted[2]
    is_same = got == (wanted[0], out, err) and status == wanted[0]
    return None if is_same else f"{status} {got}, and not {wanted}"


def other_places(data, status, text):
    """What the places of a file's parts are not, if they are others; that refusals are right its callers look at."""
    found = parsed(text)
    if status == STATUS["refused"]:
        return None if told(found, [])[0] == status else "a status that the object hasn't"
    return None if (status, found) == (0, places_of(data)) else f"{status} {found}"


def compare(rows, answers):
    """How many calls and files were told, and what of them is otherwise."""
    calls = files = 0
    others = []

    def look(what, look_at, *given):
        try:
            other = look_at(*given, answers.number(), answers.text())
        except (ValueError, KeyError, IndexError) as error:
            other = f"{type(error).__name__}: {error}"
        if other is not None:
            others.append(f"{what}: {other}")

    while rows.at < len(rows.data):
        words, names = rows.texts(), rows.texts()
        contents = [rows.text() for _ in names]
        wanted = rows.number(), rows.text(), rows.text()
        if words[:1] and words[0] in COMMANDS:
            look(words, other_call, words, wanted)
            calls += 1
        for name, data in zip(names, contents):
            look(f"places of {name} in {words}", other_places, data)
            files += 1
    return calls, files, others


def main():
    sys.setrecursionlimit(10_000)
    words = sys.argv[1:]
    if words[:1] == ["lines"]:
        status, out, err = told(parsed(sys.stdin.buffer.read()), [word.encode() for word in words[1:]])
        sys.stdout.buffer.write(out)
        sys.stderr.buffer.write(err)
        return status
    if words[:1] == ["rows"] and len(words) == 3:
        rows, answers = (Rows(open(name, "rb").read()) for name in words[1:])
        calls, files, others = compare(rows, answers)
        if answers.at != len(answers.data):
            others.append("there are more answers than calls")
        print(f"{calls} calls and the places of {files} files as data, {len(others)} told otherwise")
        for other in others[:SHOWN]:
            print(other[:2000], file=sys.stderr)
        return int(bool(others))
    print(__doc__, file=sys.stdout if words == ["--help"] else sys.stderr)
    return 0 if words == ["--help"] else 2


if __name__ == "__main__":
    sys.exit(main())
