"""Made changes of functions of C, for checks/c_merges: each is drawn, and puts a text in place of some bytes of the file."""
import re

from parts import Refused, begin_of, below, body_of, end_of, is_arithmetic, type_of

OTHERS = {"+": ["-"], "-": ["+"], "*": ["+"], "/": ["*"], "%": ["+"], "<": ["<="], "<=": ["<"], ">": [">="], ">=": [">"], "==": ["!=", "<="], "!=": [">"]}
SIMPLE = ("BinaryOperator", "CompoundAssignOperator", "UnaryOperator", "CallExpr")


class NoEdit(Exception):
    """There is nothing in the function that this change could be made of."""


class Body:
    """What of a function can be changed: its statements, constants, operators and names, by their places in the text."""

    def __init__(self, function):
        self.function, self.text = function, function.unit.text
        self.top = body_of(function.node)
        self.nodes = list(nodes_of(self.top))
        self.statements = [(it, inner) for it in self.nodes if it["kind"] == "CompoundStmt" for inner in below(it) if is_simple(inner)]

    def scalars(self, at):
        """The numbers that a statement at this place can name: parameters, and variables of the whole function."""
        declared = [it for it in below(self.function.node) if it["kind"] == "ParmVarDecl"]
        for it in below(self.top):
            if it["kind"] == "DeclStmt" and end_of(it) < at:
                declared += [one for one in below(it) if "init" in one]
        return [it["name"] for it in declared if is_arithmetic(type_of(it))]

    def end_of(self, node):
        return self.text.index(";", end_of(node) - 1) + 1

    def indentation(self, at):
        return re.match(r"[ \t]*", self.text[self.text.rfind("\n", 0, at) + 1 :]).group()

    def put(self, begin, end, new):
        return self.text[:begin] + new + self.text[end:]


def nodes_of(node):
    for it in below(node):
        yield it
        yield from nodes_of(it)


def is_simple(node):
    return node["kind"] in SIMPLE


def some(draw, found):
    if not found:
        raise NoEdit
    return draw.choice(found)


def change_constant(draw, body, _):
    node = some(draw, [it for it in body.nodes if it["kind"] == "IntegerLiteral" and "offset" in it["range"]["begin"]])
    value = int(node["value"])
    return body.put(begin_of(node), end_of(node), str(draw.choice([value + 1, value + 2, value * 2 + 1])))


def change_operator(draw, body, _):
    found = []
    for it in body.nodes:
        if it["kind"] == "BinaryOperator" and it["opcode"] in OTHERS:
            left, right = it["inner"]
            begin = body.text.find(it["opcode"], end_of(left), begin_of(right))
            if begin >= 0:
                found.append((begin, it["opcode"]))
    begin, operator = some(draw, found)
    return body.put(begin, begin + len(operator), draw.choice(OTHERS[operator]))


def change_expression(draw, body, _):
    """Another number in place of a variable that is read, or it and one more."""
    found = [it for it in body.nodes if it["kind"] == "ImplicitCastExpr" and it["castKind"] == "LValueToRValue" and it["inner"][0]["kind"] == "DeclRefExpr"]
    node = some(draw, [it for it in found if is_arithmetic(type_of(it))])
    name = node["inner"][0]["referencedDecl"]["name"]
    other = draw.choice([f"({name} + 1)", f"({name} - 1)", *body.scalars(begin_of(node))])
    return body.put(begin_of(node), end_of(node), other)


def delete(draw, body, _):
    _, node = some(draw, body.statements)
    begin = body.text.rfind("\n", 0, begin_of(node))
    return body.put(begin, body.text.find("\n", body.end_of(node)), "")


def behind(body, node, lines):
    at, space = body.end_of(node), body.indentation(begin_of(node))
    return body.put(at, at, "".join(f"\n{space}{it}" for it in lines))


def insert_statement(draw, body, _):
    _, node = some(draw, body.statements)
    found = [it for it in body.scalars(begin_of(node)) if it != "n"]
    target, value = some(draw, found), some(draw, body.scalars(begin_of(node)))
    return behind(body, node, [f"{target} {draw.choice(['=', '+=', '-='])} {value}{draw.choice([' + 1', '', ' * 2'])};"])


def guard(draw, body, _):
    _, node = some(draw, body.statements)
    begin, end = begin_of(node), body.end_of(node)
    space = body.indentation(begin)
    condition = f"{some(draw, body.scalars(begin))} {draw.choice(['<', '>', '!='])} {draw.randrange(6)}"
    return body.put(begin, end, f"if ({condition})\n{space}    {body.text[begin:end]}")


def leave(draw, body, _):
    """An exit of a loop or of the function."""
    _, node = some(draw, body.statements)
    in_loop = any(it["kind"] in ("WhileStmt", "ForStmt") and begin_of(it) <= begin_of(node) < end_of(it) for it in body.nodes)
    returned = "return;" if body.function.node["type"]["qualType"].startswith("void") else "return 1;"
    condition = f"{some(draw, body.scalars(begin_of(node)))} == {draw.randrange(6)}"
    return behind(body, node, [f"if ({condition})", "    " + draw.choice(["break;", "continue;", returned] if in_loop else [returned])])


def move(draw, body, _):
    """Two statements that follow each other change places."""
    pairs = [(first, second) for it in body.nodes + [body.top] if it["kind"] == "CompoundStmt" for first, second in zip(below(it), below(it)[1:])]
    first, second = some(draw, [pair for pair in pairs if all(map(is_simple, pair))])
    begin, middle, next_, end = begin_of(first), body.end_of(first), begin_of(second), body.end_of(second)
    return body.put(begin, end, body.text[next_:end] + body.text[middle:next_] + body.text[begin:middle])


def comment(draw, body, side):
    _, node = some(draw, body.statements)
    if draw.randrange(2):
        return behind(body, node, [f"/* {side} says: as agreed */"])
    line = body.text.find("\n", body.end_of(node))
    return body.put(line, line, f" // {side} was here") if "//" not in body.text[begin_of(node) : line] else behind(body, node, ["// again"])


def restyle(draw, body, _):
    """Braces around a statement that has none."""
    found = [below(it)[1 if it["kind"] == "IfStmt" else -1] for it in body.nodes if it["kind"] in ("IfStmt", "ForStmt", "WhileStmt")]
    node = some(draw, [it for it in found if is_simple(it)])
    begin, end = begin_of(node), body.end_of(node)
    space = body.indentation(begin)
    head = body.text[:begin].rstrip()
    return head + " {\n" + space + body.text[begin:end] + "\n" + space.removesuffix("    ") + "}" + body.text[end:]


def add_result(draw, body, side):
    """A sum of its own, which is a further result of the function."""
    _, node = some(draw, body.statements)
    name, function = f"{side}_sum", body.function
    if name in body.text:
        raise NoEdit
    value = some(draw, body.scalars(begin_of(node)))
    text = behind(body, node, [f"{name} += {value};"])
    begin = begin_of(body.top) + 1
    text = text[:begin] + f"\n    long {name} = 0;" + text[begin:]
    shift = len(text) - len(body.text)
    last = below(body.top)[-1]
    at = (begin_of(last) if last["kind"] == "ReturnStmt" else function.end - 1) + shift
    store = f"{side}_seen = {name};\n    " if last["kind"] == "ReturnStmt" else f"    {side}_seen = {name};\n"
    text = text[:at] + store + text[at:]
    place = 0 if side == "ours" else function.begin
    return text[:place] + f"long {side}_seen;\n" + text[place:]


def show(draw, body, _):
    _, node = some(draw, body.statements)
    return behind(body, node, [f'printf("%ld\\n", (long){some(draw, body.scalars(begin_of(node)))});'])


def name_result(draw, body, side):
    node = some(draw, [it for it in below(body.top) if it["kind"] == "ReturnStmt" and below(it)])
    kind = body.function.node["type"]["qualType"].split("(")[0].strip()
    begin = begin_of(node)
    value = body.text[begin:body.end_of(node)].removeprefix("return").strip()
    return body.put(begin, body.end_of(node), f"{kind} {side}_result = {value}\n    return {side}_result;")


# how often each is drawn
EDITS = {
    change_constant: 3, change_operator: 2, change_expression: 2, delete: 1, insert_statement: 2, guard: 1, leave: 1, move: 2, comment: 4,
    restyle: 3, add_result: 6, show: 3, name_result: 2,
}


def changed(draw, unit_of, text, name, side):
    """A variant of the text in which the function has one to three drawn changes, and what they are. `unit_of` reads a text."""
    done = []
    for _ in range(draw.choice([1, 1, 1, 2])):
        for _ in range(8):
            (edit,) = draw.choices([*EDITS], [*EDITS.values()])
            try:
                new = edit(draw, Body(unit_of(text).functions[name]), side)
                function = unit_of(new).read().functions[name]
            except (NoEdit, Refused, ValueError):
                continue
            if new != text and not function.refused:
                text = new
                done.append(edit.__name__)
                break
    return text, done
