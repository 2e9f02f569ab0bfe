"""Functions of C as programs that hpr runs, where its own operators are those of C: for checks/c_merges.

The parts are those of examples/c-merge/parts.py, and each expression is spelled with hpr's operators in place of the number of its text. So
a run by `hpr run` and one of the function as gcc compiled it are to leave the same values: this tries which parts there are, in which order they
stand, what each sets and uses, and how exits are led around. Left out are functions with other numbers than `int`, `long` and `long long`, with what
hpr lacks, and with a right side of `&&` or `||` that may fault, which hpr evaluates always.
"""
import re

from align import tags_of
from parts import Apply, Element, Number, Read, Spelling, all_parts, ask, results, variable_of

WHOLE = {"int", "long", "long long"}
SIGNS = {"==": "=", "!=": "<>", "&&": "and", "||": "or", **{it: it for it in ("+", "-", "*", "/", "%", "<", ">", "<=", ">=")}}


class Inexact(Exception):
    """What hpr's operators don't say."""


class Exact(Spelling):
    """hpr's programs with hpr's own operators."""

    def __init__(self, function):
        super().__init__([function])
        self.ends = {self.final(cell): cell for cell in results(function)}
        self.finals = sorted(self.ends)

    def final(self, cell):
        if cell.where == "own" and cell.root == "output":
            return "out"
        return self.name(cell) + ("[]" if variable_of(cell, self.shared)[1] else "")

    def content(self, part):
        if part.kind != "set":
            return f"{part.kind} {self.value(part.value)}"
        if self.is_output(part):
            return f"write {self.written(part.value)}"
        return f"{self.place(part.target)} := {self.value(part.value)}"

    def is_output(self, part):
        return part.target.where == "own" and part.target.root == "output"

    def place(self, cell):
        """A variable, or an element of an array with one index."""
        variable, steps = variable_of(cell, self.shared)
        if variable[0] in ("memory", "constant") or len(steps) > 1 or cell.where != "own" and cell.type not in WHOLE:
            raise Inexact
        if not steps:
            return self.name(cell)
        if not isinstance(steps[0], Element):
            raise Inexact
        return f"{self.name(cell)}[{self.value(steps[0].index)}]"

    def written(self, value):
        if value.operator != "printf" or len(value.operands) != 3 or value.operands[1].value not in ('"%d\\n"', '"%ld\\n"'):
            raise Inexact
        return self.value(value.operands[2])

    def value(self, tree):
        match tree:
            case Number(value, kind) if kind in WHOLE:
                return value
            case Read(cell):
                return self.place(cell)
            case Apply("none of", _, flags):
                return "(" + " and ".join(f"{self.value(it)} = 0" for it in flags) + ")"
            case Apply("none of the last, then", _, (held, *flags)) if not may_fault(held):
                return "(" + " and ".join([*(f"{self.value(it)} = 0" for it in flags), self.value(held)]) + ")"
            case Apply("indeterminate", kind, ()) if kind in WHOLE:
                return "0"
            case Apply("convert", kind, (inner,)) if kind in WHOLE and kind != "int":
                return self.value(inner)
            case Apply("++" | "--", kind, (inner,)) if kind in WHOLE:
                return f"({self.value(inner)} {tree.operator[0]} 1)"
            case Apply("-" | "!", kind, (inner,)) if kind in WHOLE:
                return f"({'-' if tree.operator == '-' else 'not '}{self.value(inner)})"
            case Apply(sign, kind, (left, right)) if sign in SIGNS and kind in WHOLE and not (sign in ("&&", "||") and may_fault(right)):
                return f"({self.value(left)} {SIGNS[sign]} {self.value(right)})"
        raise Inexact

    def put(self, block, tags, lines):
        """A declaration of an array without a value says nothing here."""
        super().put([it for it in block if not is_silent(it)], tags, lines)

    def beginning(self, values):
        """Parts that give variables what a run begins with; `values` are lists of numbers by the names of variables of C."""
        number = 0
        for variable, at in list(self.names.items()):
            kind, root, of, *member = *variable, ""
            if kind == "own" or root not in values:
                continue
            if any(member):
                raise Inexact
            is_array = kind == "pointer" or "[" in of
            for index, value in enumerate(values[root] if is_array else values[root][:1]):
                number += 1
                yield f"8.{number}: v{at}{f'[{index}]' if is_array else ''} := {value};"


def is_silent(part):
    return isinstance(part.value, Apply) and part.value.operator == "indeterminate" and "[" in part.value.type


def left_by_hpr(function, values):
    """What a run of the function by hpr leaves, by the cells that it sets; nothing where the run doesn't end."""
    spelling = Exact(function)
    (tags,) = tags_of(function, function, function)[:1]
    first, *lines = spelling.program(function, tags).splitlines()
    status, said = ask(["run", "P"], {"P": "\n".join([first, *spelling.beginning(values), *lines, ""])})
    if status == 9:
        return None
    told = dict(line.split(" = ", 1) for line in said.splitlines()[1:])
    return {spelling.ends[name]: numbers_of(told[name]) for name in told}


def numbers_of(text):
    """A number, the list of those that were written, or the elements of an array."""
    if text.startswith("{"):
        return {int(at): int(value) for at, value in re.findall(r"(\d+):(-?\d+)", text)}
    return [int(it) for it in re.findall(r"-?\d+", text)] if text.startswith("[") else int(text)


def may_fault(tree):
    """Whether hpr may find an index out of range, a zero divide or an overflow in it."""
    if isinstance(tree, Element) or isinstance(tree, Apply) and tree.operator in ("/", "%"):
        return True
    return isinstance(tree, tuple) and any(map(may_fault, tree))
