"""What each function of a C file is to hpr: its parts, and whether a merge of files keeps what each function computes.

This file is trusted, beside clang and hpr. All that guesses, merges lines or writes C (`align`, `print_back`, `merge`) is not: what they
make comes back here as a file and as tags, and `judged` says whether it is right, whatever they did.

clang parses, resolves names and types, makes conversions explicit and expands macros; its tree (`-ast-dump=json`) is all that is read.
Each rule below is for one kind of clang's nodes, and names the section of the C standard (ISO/IEC 9899:2018) that it rests on. A kind,
type, cast, operator or called function that no rule names is refused, and then the function is unchecked.

A part is handed to hpr as the number of its text and the names that it uses. Its text is the whole typed expression, so two parts have one
number only where they say the same; its names are read off this text (`used`), so none can be forgotten.
"""
import hashlib
import json
import os
import pathlib
import re
import subprocess
import tempfile
from typing import NamedTuple

CHARACTERS = {"char", "signed char", "unsigned char"}
ARITHMETIC = CHARACTERS | {
    "_Bool", "short", "unsigned short", "int", "unsigned int", "long", "unsigned long", "long long", "unsigned long long",
    "float", "double", "long double",
}
# 7.12, 7.22.6.1: each gives a value of its arguments alone. Their names are reserved, so none is a program's own (7.1.3).
# What they do to errno and to the flags of floating point counts as no result.
PURE = set("abs labs llabs fabs sqrt cbrt floor ceil trunc round fmod pow exp log log10 sin cos tan asin acos atan atan2 fmin fmax".split())
WRITERS = {"printf", "puts", "putchar"}
UNARY = {"+", "-", "~", "!"}
BINARY = {"*", "/", "%", "+", "-", "<<", ">>", "<", ">", "<=", ">=", "==", "!=", "&", "^", "|", "&&", "||"}
CONVERSIONS = {"IntegralCast", "IntegralToFloating", "FloatingToIntegral", "FloatingCast", "IntegralToBoolean", "FloatingToBoolean", "NoOp"}


class Refused(Exception):
    """Why a function, or a file, isn't looked at."""


class Failed(Exception):
    """Why nothing can be judged: a program that is missing or has failed."""


# ---- what parts say


class Number(NamedTuple):
    """A constant: of an integer, of floating point, or a string."""

    value: str
    type: str


class Cell(NamedTuple):
    """An object: a variable, and the way to one of its members or elements.

    `where` is `local`; `file`, outside the function; `pointer`, what a parameter points to; `constant`; or `own`, of the translation itself.
    """

    where: str
    root: str
    root_type: str
    path: tuple
    type: str
    initial: tuple = ()


class Member(NamedTuple):
    """A step to a member of a structure."""

    name: str
    type: str


class Element(NamedTuple):
    """A step to an element of an array."""

    index: tuple
    type: str


# what `->` does first (6.5.2.3 paragraph 4)
ARROW = Element(Number("0", "int"), "structure")


class Read(NamedTuple):
    """The value of an object."""

    cell: Cell


class Apply(NamedTuple):
    """What an operator, a conversion or a pure function gives of its operands, with the type of that."""

    operator: str
    type: str
    operands: tuple


class Part:
    """What hpr knows as a part: it sets a cell to a value, or it decides a conditional or a loop by one.

    What follows says nothing of its meaning, and is for those who print it: `node` is the statement of clang's tree that it comes of, in
    the role `role`, `detail` the declaration or the assignment in that statement, and `loop` the loop in whose head it stands.
    """

    def __init__(self, kind, target, value, node, role, first=(), second=()):
        self.kind, self.target, self.value = kind, target, value
        self.node, self.role, self.detail, self.loop = node, role, None, None
        self.blocks = [list(first), list(second)]

    def text(self):
        """All that gives the part its meaning."""
        return repr((self.kind, self.target, self.value))

    def used(self):
        """The cells whose values it uses: all that its text names but the one that it sets, of which `Spelling.content` decides."""
        return [*cells(self.value), *(cells(self.target.path) if self.target else ())]

    def outside(self):
        """The cells outside the function that it uses or sets."""
        return [it for it in [*self.used(), *([self.target] if self.target else [])] if it.where in ("file", "pointer")]

    def whole(self):
        """Its text with the texts of all that stands in it."""
        return self.text(), tuple(tuple(it.whole() for it in block) for block in self.blocks)


def cells(tree):
    """The cells in an expression, those in an index too."""
    if isinstance(tree, Cell):
        yield tree
    if isinstance(tree, tuple):
        for it in tree:
            yield from cells(it)


def all_parts(block):
    """The parts of a block and of the blocks in it, in their order."""
    for it in block:
        yield it
        for inner in it.blocks:
            yield from all_parts(inner)


# ---- types and places of clang's tree


def type_of(node, key="type"):
    """The type of an expression or a declaration, without `const` and `restrict`, which say who may store and not what a value is (6.7.3).

    A volatile or atomic object may change by itself (6.7.3 paragraph 7, 6.2.6.1 paragraph 9), and the size of an array may be a value (6.7.6.2).
    """
    told = node.get(key, {})
    name = told.get("desugaredQualType") or told.get("qualType", "")
    if re.search(r"\bvolatile\b|\b_Atomic\b|__|\bunion\b|\[(?!\d*\])", told.get("qualType", "") + " " + name):
        raise Refused(f"type {name}")
    return " ".join(re.sub(r"\b(const|restrict)\b", "", name).split())


def is_arithmetic(name):
    """6.2.5 paragraph 18, without what the list lacks. An enumeration is an integer (6.7.2.2)."""
    return name in ARITHMETIC or re.fullmatch(r"enum \w+", name) is not None


def offset(place):
    """The byte of the file at which a place is; of what a macro made, where the macro stands."""
    place = place.get("expansionLoc", place)
    if "offset" not in place or "includedFrom" in place:
        raise Refused("no place in the file")
    return place["offset"]


def begin_of(node):
    return offset(node["range"]["begin"])


def end_of(node):
    """The first byte behind a node."""
    end = node["range"]["end"]
    return offset(end) + end.get("expansionLoc", end)["tokLen"]


def below(node):
    return [it for it in node.get("inner", []) if it]


def body_of(function):
    """The block of a function, where it has one."""
    return next((it for it in below(function) if it["kind"] == "CompoundStmt"), None)


# ---- expressions and objects


class Reader:
    """Reads the body of a function. `rule_X` reads the expression X of clang's tree, and `do_X` the statement X."""

    def __init__(self, unit, node):
        self.unit, self.node, self.name = unit, node, node["name"]
        self.scopes = [set()]

    def value(self, node):
        """The value of an expression without side effects, so in whatever order it is evaluated (6.5 paragraphs 2 and 3)."""
        rule = getattr(self, "rule_" + node["kind"], None)
        if rule is None:
            raise Refused(f"expression {node['kind']}")
        return rule(node)

    def scalar(self, node):
        """The type of an expression, which is arithmetic."""
        found = type_of(node)
        if not is_arithmetic(found):
            raise Refused(f"a value of type {found}")
        return found

    def rule_ParenExpr(self, node):
        """6.5.1 paragraph 5: the value of what stands in the brackets."""
        return self.value(node["inner"][0])

    rule_ConstantExpr = rule_ParenExpr

    def rule_IntegerLiteral(self, node):
        """6.4.4: a constant has its value and its type."""
        return Number(str(node["value"]), self.scalar(node))

    rule_CharacterLiteral = rule_FloatingLiteral = rule_IntegerLiteral

    def rule_DeclRefExpr(self, node):
        """6.4.4.3: an enumeration constant has the value that its declaration gives it. A variable is read by a conversion."""
        found = self.unit.enumerators.get(node["referencedDecl"]["id"])
        if found is None:
            raise Refused(f"{node['referencedDecl'].get('name', '')} as a value")
        return Number(found, self.scalar(node))

    def rule_ImplicitCastExpr(self, node):
        """6.3.2.1 paragraph 2: the value of an object; 6.3.1: the value in another arithmetic type."""
        if node["castKind"] == "LValueToRValue":
            self.scalar(node)
            return Read(self.cell(node["inner"][0]))
        if node["castKind"] not in CONVERSIONS:
            raise Refused(f"conversion {node['castKind']}")
        return converted(self.value(node["inner"][0]), type_of(node["inner"][0]), self.scalar(node))

    rule_CStyleCastExpr = rule_ImplicitCastExpr

    def rule_UnaryOperator(self, node):
        """6.5.3.3"""
        if node["opcode"] not in UNARY:
            raise Refused(f"{node['opcode']} in an expression")
        return Apply(node["opcode"], self.scalar(node), (self.value(node["inner"][0]),))

    def rule_BinaryOperator(self, node):
        """6.5.5 to 6.5.14; what `&&` and `||` don't evaluate has no effect either, since it has none."""
        if node["opcode"] not in BINARY:
            raise Refused(f"{node['opcode']} in an expression")
        return Apply(node["opcode"], self.scalar(node), tuple(self.value(it) for it in node["inner"]))

    def rule_ConditionalOperator(self, node):
        """6.5.15"""
        return Apply("?:", self.scalar(node), tuple(self.value(it) for it in node["inner"]))

    def rule_UnaryExprOrTypeTraitExpr(self, node):
        """6.5.3.4: the size of a type that its own name tells: of a number, or of an array of numbers."""
        of = type_of(node, "argType") if "argType" in node else type_of(node["inner"][0])
        if node["name"] != "sizeof" or not is_arithmetic(re.sub(r"(\[\d+\])+$", "", of)):
            raise Refused(f"{node['name']} of {of}")
        return Apply(f"sizeof {of}", self.scalar(node), ())

    def rule_CallExpr(self, node):
        """6.5.2.2: the value of a function that has no effect and reads nothing but its arguments. One of this file is known by its content."""
        name = self.called(node)
        own = self.unit.functions.get(name)
        if own is not None:
            name += " " + own.content_if_pure()
        elif name not in PURE:
            raise Refused(f"call of {name}")
        return Apply(f"call {name}", self.scalar(node), tuple(self.value(it) for it in node["inner"][1:]))

    def rule_StringLiteral(self, node):
        """6.4.5; rules that take a string ask for one, and any other use of it is a conversion that is refused."""
        return Number(node["value"], "string")

    def rule_InitListExpr(self, node):
        """6.7.9: all members or elements in their order, as clang completes them."""
        return Apply("{}", type_of(node), tuple(self.value(it) for it in below(node) + node.get("array_filler", [])))

    def rule_ImplicitValueInitExpr(self, node):
        """6.7.9 paragraph 21: what has no initializer in the list is 0."""
        return Number("0", type_of(node))

    def called(self, node):
        """The name of the function that a call names."""
        it = node["inner"][0]
        while it["kind"] in ("ImplicitCastExpr", "ParenExpr"):
            it = it["inner"][0]
        if it["kind"] != "DeclRefExpr" or it["referencedDecl"]["kind"] != "FunctionDecl":
            raise Refused("call by a pointer")
        return it["referencedDecl"]["name"]

    def cell(self, node):
        """6.5.2.1, 6.5.2.3, 6.5.3.2: the object that an expression designates, by the steps from a variable to it."""
        path, it, kind = [], node, type_of(node)
        while it["kind"] != "DeclRefExpr":
            steps, it = self.steps(it)
            path[:0] = steps
        return self.root(it["referencedDecl"], path, kind)

    def steps(self, node):
        """The last steps to the object, and the expression to which they are to be taken."""
        inner = node["inner"][0]
        match node:
            case {"kind": "ParenExpr"} | {"kind": "ImplicitCastExpr", "castKind": "ArrayToPointerDecay" | "NoOp"}:
                return [], inner
            case {"kind": "ImplicitCastExpr", "castKind": "LValueToRValue"} if inner["kind"] == "DeclRefExpr":
                return [], inner
            case {"kind": "ArraySubscriptExpr"}:
                return [Element(self.value(node["inner"][1]), type_of(node))], inner
            case {"kind": "UnaryOperator", "opcode": "*"}:
                return [Element(Number("0", "int"), type_of(node))], inner
            case {"kind": "MemberExpr"}:
                self.unit.check_member(node)
                step = Member(node["name"], type_of(node))
                return [ARROW, step] if node["isArrow"] else [step], inner
        raise Refused(f"access by {node['kind']}")

    def root(self, declared, path, kind):
        """The variable at the root of a path: a parameter's pointer never moves, since an assignment is of numbers alone."""
        name, root_type = declared["name"], type_of(declared)
        qualified = declared["type"]["qualType"]
        is_local = declared["id"] not in self.unit.variables
        if declared["kind"] not in ("VarDecl", "ParmVarDecl") or not is_local and name in self.unit.attributed:
            raise Refused(f"access to {name}")
        if "*" in root_type:
            if declared["kind"] != "ParmVarDecl" or not path or root_type.count("*") > 1:
                raise Refused(f"pointer {name}")
            return Cell("pointer", name, root_type + (" restrict" if "restrict" in qualified else ""), tuple(path), kind)
        if not is_local and name in self.unit.initials and "const" in qualified:
            return Cell("constant", name, root_type, tuple(path), kind, self.initial(declared))
        return Cell("local" if is_local else "file", name, root_type, tuple(path), kind)

    def initial(self, declared):
        """6.7.3 paragraph 6: a constant of the file has the value of its initializer, always."""
        tree = self.value(self.unit.initials[declared["name"]])
        if any(cells(tree)):
            raise Refused(f"initializer of {declared['name']}")
        return tree

    # ---- statements

    def body(self):
        """The parts of the function; 6.8.6.4: what follows a return stands under a flag, which is set to 0 first."""
        for it in below(self.node):
            if it["kind"] == "ParmVarDecl" and "name" in it:
                self.declare(it)
        return without_unread_flags([reset("returned", self.node), *self.block([body_of(self.node)], 0, {"return"})])

    def block(self, statements, depth, last):
        """6.8.2: statements in their order. What follows one that may leave stands under its flags.

        `last` tells which exits lead where the end of the block leads too, so that they need no flag.
        """
        parts = []
        for at, node in enumerate(statements):
            rest, leaves = statements[at + 1 :], exits(node)
            parts += self.statement(node, depth, set() if rest else last)
            if rest and leaves:
                return [*parts, guard(leaves, depth, node, self.block(rest, depth, last))]
        return parts

    def statement(self, node, depth, last):
        rule = getattr(self, "do_" + node["kind"], None)
        if rule is None:
            return self.effects(node, "statement", node)
        return rule(node, depth, last)

    def do_NullStmt(self, *_):
        """6.8.3 paragraph 3"""
        return []

    def do_CompoundStmt(self, node, depth, last):
        """6.8.2, 6.2.1 paragraph 4: names that it declares are known in it alone."""
        self.scopes.append(set())
        parts = self.block(below(node), depth, last)
        self.scopes.pop()
        return parts

    def do_IfStmt(self, node, depth, last):
        """6.8.4.1"""
        condition, *branches = below(node)
        blocks = [self.do_CompoundStmt({"inner": [it]}, depth, last) for it in branches]
        return [Part("if", None, self.value(condition), node, "statement", *blocks)]

    def do_WhileStmt(self, node, depth, _):
        """6.8.5.1"""
        condition, body = below(node)
        return self.loop(node, depth, [], self.value(condition), body, [])

    def do_DoStmt(self, node, depth, _):
        """6.8.5.2: the body is done once more while the condition held at its end."""
        body, condition = below(node)
        again = own_cell(f"again_{depth + 1}")
        step = Part("set", again, self.value(condition), node, "again")
        return self.loop(node, depth, [Part("set", again, Number("1", "int"), node, "flag")], Read(again), body, [step])

    def do_ForStmt(self, node, depth, _):
        """6.8.5.3: what comes first, then a loop with a last step; without a condition it goes on (paragraph 2)."""
        first, _, condition, step, body = node["inner"]
        self.scopes.append(set())
        begin = self.first_of(first)
        held = self.value(condition) if condition else Number("1", "int")
        parts = self.loop(node, depth, begin, held, body, self.effects(step, "step", step) if step else [])
        self.scopes.pop()
        return parts

    def first_of(self, node):
        if not node:
            return []
        found = self.do_DeclStmt(node) if node["kind"] == "DeclStmt" else self.effects(node, "first", node)
        for it in found:
            it.role = "first"
        return found

    def loop(self, node, depth, begin, condition, body, steps):
        """6.8.6.2, 6.8.6.3: flags say that the loop is left, or the rest of its body. Where it is left, no step is taken and the condition not
        evaluated."""
        inside, leaves = depth + 1, exits(body)
        stops = flags(leaves - {"continue"}, inside)
        first = [reset(f"continued_{inside}", node)] + self.do_CompoundStmt({"inner": [body]}, inside, {"continue"})
        guarded = [guard(leaves - {"continue"}, inside, node, steps)] if steps and stops else steps
        held = Apply("none of the last, then", "int", (condition, *stops)) if stops else condition
        part = Part("while", None, held, node, "statement", first + guarded)
        for it in (*begin, *steps):
            it.loop = part
        return [reset(f"broken_{inside}", node), *begin, part]

    def do_ReturnStmt(self, node, _, last):
        """6.8.6.4 paragraph 3: the value is the function's result."""
        inner = below(node)
        given = [Part("set", own_cell("returns"), self.value(inner[0]), node, "exit")] if inner else []
        left = [] if "return" in last else [flag_set("returned", node, "flag" if given else "exit")]
        return given + left

    def do_BreakStmt(self, node, depth, _):
        """6.8.6.3"""
        return [flag_set(f"broken_{depth}", node, "exit")]

    def do_ContinueStmt(self, node, depth, last):
        """6.8.6.2"""
        return [] if "continue" in last else [flag_set(f"continued_{depth}", node, "exit")]

    def do_DeclStmt(self, node, *_):
        """6.7: each variable is set to its initializer (6.7.9), or to nothing that may be used (6.7.9 paragraph 10, 6.2.4 paragraph 6)."""
        return [self.declaration(it, node) for it in below(node)]

    def declaration(self, node, statement):
        kind = type_of(node)
        if node["kind"] != "VarDecl" or node.get("storageClass", "auto") not in ("auto", "register") or "tls" in node:
            raise Refused(f"declaration of {node.get('name', node['kind'])}")
        if "*" in kind or "(" in kind or len(below(node)) != ("init" in node):
            raise Refused(f"variable of type {kind}")
        value = self.value(below(node)[0]) if "init" in node else Apply("indeterminate", kind, ())
        self.declare(node)
        part = Part("set", Cell("local", node["name"], kind, (), kind), value, statement, "declaration")
        part.detail = node
        return part

    def declare(self, node):
        """6.2.1 paragraph 4: a name that would hide one of the function is refused, so each name is one variable at a time."""
        if any(node["name"] in it for it in self.scopes):
            raise Refused(f"{node['name']} hides a variable")
        self.scopes[-1].add(node["name"])

    def effects(self, node, role, statement):
        """6.8.3: the parts of an expression that stands as a statement; 6.5.17: of those with commas, in their order."""
        it = node
        while it["kind"] == "ParenExpr":
            it = it["inner"][0]
        match it:
            case {"kind": "BinaryOperator", "opcode": ","}:
                return [part for inner in it["inner"] for part in self.effects(inner, role, statement)]
            case {"kind": "BinaryOperator", "opcode": "="}:
                found = self.assignment(it)
            case {"kind": "CompoundAssignOperator"}:
                found = self.compound_assignment(it)
            case {"kind": "UnaryOperator", "opcode": "++" | "--"}:
                found = self.step_by_one(it)
            case {"kind": "CallExpr"}:
                found = self.writing(it)
            case _:
                raise Refused(f"statement {it['kind']}")
        part = Part("set", *found, statement, role)
        part.detail = it
        return [part]

    def assignment(self, node):
        """6.5.16.1: the value, in the type of the object."""
        target, value = node["inner"]
        self.scalar(target)
        return self.cell(target), self.value(value)

    def compound_assignment(self, node):
        """6.5.16.2 paragraph 3: as the operator and an assignment; clang tells the type in which it is computed."""
        target, value = node["inner"]
        kind, wide = self.scalar(target), type_of(node, "computeLHSType")
        old = converted(Read(self.cell(target)), kind, wide)
        operator, result = node["opcode"][:-1], type_of(node, "computeResultType")
        if operator not in BINARY or not (is_arithmetic(wide) and is_arithmetic(result)):
            raise Refused(f"{node['opcode']} of {kind}")
        return self.cell(target), converted(Apply(operator, result, (old, self.value(value))), result, kind)

    def step_by_one(self, node):
        """6.5.2.4, 6.5.3.1: the value 1 is added or taken away."""
        target = node["inner"][0]
        return self.cell(target), Apply(node["opcode"], self.scalar(target), (Read(self.cell(target)),))

    def writing(self, node):
        """7.21.6.3, 7.21.7.7, 7.21.7.9: what is written comes behind what was written. What a format says is known where it is a literal."""
        name = self.called(node)
        if name not in WRITERS or name in self.unit.functions:
            raise Refused(f"call of {name}")
        values = tuple(self.written(it) for it in node["inner"][1:])
        if name == "printf" and (not is_string(values[0]) or re.search(r"%[-+ #0-9.*$hlLjzt]*n", values[0].value)):
            raise Refused("a format that isn't a literal, or has %n")
        output = own_cell("output")
        return output, Apply(name, "written", (Read(output), *values))

    def written(self, node):
        """A value that is written, or a string."""
        it = node
        while it["kind"] in ("ImplicitCastExpr", "ParenExpr") and it.get("castKind", "NoOp") in ("NoOp", "ArrayToPointerDecay", "BitCast"):
            it = it["inner"][0]
        return self.value(it if it["kind"] == "StringLiteral" else node)


def is_string(value):
    return isinstance(value, Number) and value.type == "string"


def converted(value, kind, to):
    """6.3.1: the value in the type `to`; nothing where that is the type that it has."""
    return value if kind == to else Apply("convert", to, (value,))


def own_cell(name):
    """A variable of the translation: a flag, the result, or the output. No variable of C is one."""
    return Cell("own", name, "", (), "")


def flag_set(name, node, role):
    return Part("set", own_cell(name), Number("1", "int"), node, role)


def reset(name, node):
    return Part("set", own_cell(name), Number("0", "int"), node, "flag")


def flags(leaves, depth):
    """What tells that a statement has left, by these exits."""
    names = {"return": "returned", "break": f"broken_{depth}", "continue": f"continued_{depth}"}
    return tuple(Read(own_cell(names[it])) for it in sorted(leaves))


def guard(leaves, depth, node, block):
    """The conditional under which stands what follows a statement that may leave."""
    return Part("if", None, Apply("none of", "int", flags(leaves, depth)), node, "guard", block)


def exits(node):
    """6.8.6: the exits that a statement may take out of itself."""
    match node["kind"]:
        case "ReturnStmt" | "BreakStmt" | "ContinueStmt":
            return {node["kind"][:-4].lower()}
        case "CompoundStmt":
            return set().union(*map(exits, below(node)))
        case "IfStmt":
            return set().union(*map(exits, below(node)[1:]))
        case "WhileStmt" | "ForStmt":
            return exits(below(node)[-1]) & {"return"}
        case "DoStmt":
            return exits(below(node)[0]) & {"return"}
    return set()


def without_unread_flags(block):
    """Without the settings of flags that nothing reads, which change no value that is used."""
    read = {cell for part in all_parts(block) for cell in part.used()}

    def is_needed(part):
        return part.target is None or part.target.where != "own" or part.target in read or part.target.root in ("returns", "output")

    def kept(block):
        for part in block:
            part.blocks = [kept(it) for it in part.blocks]
        return [part for part in block if is_needed(part)]

    return kept(block)


# ---- functions and files


# strings, characters and comments, and the signs that are looked for outside of them
SIGN = re.compile(r"\"(?:\\.|[^\"\\])*\"|'(?:\\.|[^'\\])*'|/\*.*?\*/|//(?:\\\n|[^\n])*|%:|\?\?=|\+\+|--|[#{=]", re.S)


class Function:
    """A function of a file: its parts, or why it is refused."""

    def __init__(self, unit, node):
        self.unit, self.node, self.name = unit, node, node["name"]
        self.begin, self.end = begin_of(node), end_of(node)
        self.parts, self.refused, self.is_read = [], None, False

    def read(self):
        """Reads the body, once. A function that calls itself is met while it is read, and refused."""
        if not self.is_read:
            self.is_read, self.refused = True, "recursion"
            try:
                self.check()
                self.parts, self.refused = Reader(self.unit, self.node).body(), None
            except Refused as why:
                self.refused = str(why)
        return self

    def check(self):
        """6.10: clang sees one of the texts that lines of the preprocessor choose from. What an attribute says, no rule knows, nor what
        is evaluated in a parameter's type (6.9.1 paragraph 10)."""
        if any("expansionLoc" in it for it in body_of(self.node)["range"].values()):
            raise Refused("a macro makes it")
        tokens = SIGN.findall(self.unit.text[self.begin : self.end])
        if {"#", "%:", "??="} & set(tokens) or "_Pragma" in self.unit.text:
            raise Refused("lines of the preprocessor in it")
        if {"++", "--", "="} & set(tokens[: tokens.index("{")] if "{" in tokens else tokens):
            raise Refused("what is evaluated in its parameters")
        others = {it["kind"] for it in below(self.node)} - {"ParmVarDecl", "CompoundStmt", "FullComment"}
        if others or self.node.get("variadic"):
            raise Refused(f"{min(others, default='a list of arguments')} of the function")

    def signature(self):
        """The type of the function, and its parameters in their order: what a caller must know, and the names of what a run begins with."""
        parameters = [it for it in below(self.node) if it["kind"] == "ParmVarDecl"]
        return self.node["type"]["qualType"], tuple((it.get("name"), it["type"].get("desugaredQualType") or it["type"]["qualType"]) for it in parameters)

    def content(self):
        """All that gives the function its meaning; of a refused one all of clang's tree but where its nodes are, and its text."""
        if self.read().refused:
            return "tree", json.dumps(bare(self.node), sort_keys=True), self.unit.text[self.begin : self.end].split()
        return "parts", self.signature(), tuple(it.whole() for it in self.parts)

    def content_if_pure(self):
        """A number of the content of a function that gives a value and does nothing else."""
        parts = list(all_parts(self.read().parts))
        if self.refused or any(it.outside() or it.target == own_cell("output") for it in parts):
            raise Refused(f"call of {self.name}: {self.refused or 'it does more than give a value'}")
        return hashlib.sha256(repr(self.content()).encode()).hexdigest()


def bare(node):
    """A tree without what changes when other lines do."""
    if isinstance(node, list):
        return [bare(it) for it in node]
    if isinstance(node, dict):
        places = {"id", "loc", "range", "previousDecl", "referencedMemberDecl", "isUsed", "isReferenced"}
        return {key: bare(it) for key, it in node.items() if key not in places and not key.endswith("Id")}
    return node


class Unit:
    """A file of C, as clang reads it: its functions, and what they refer to."""

    def __init__(self, text, options=()):
        self.text = text
        self.functions, self.enumerators, self.initials, self.members = {}, {}, {}, {}
        self.variables, self.attributed = set(), set()
        for node in clang_tree(text, options)["inner"]:
            self.note(node)

    def note(self, node):
        match node["kind"]:
            case "RecordDecl":
                self.note_members(node)
            case "EnumDecl":
                self.note_enumerators(node)
            case "VarDecl":
                self.variables.add(node["id"])
                self.attributed |= {node["name"]} if any(it["kind"].endswith("Attr") for it in below(node)) else set()
                if "init" in node:
                    self.initials[node["name"]] = below(node)[0]
            case "FunctionDecl" if body_of(node):
                if is_of_file(node):
                    self.functions[node["name"]] = Function(self, node)

    def note_members(self, record):
        for it in below(record):
            if it["kind"] == "RecordDecl":
                self.note_members(it)
            if it["kind"] == "FieldDecl":
                self.members[it["id"]] = record["tagUsed"] == "struct" and "name" in it and not it.get("isBitfield")

    def note_enumerators(self, node):
        """6.7.2.2 paragraph 3: the constant's own value, or one more than the one before it."""
        last = -1
        for it in below(node):
            if it["kind"] == "EnumConstantDecl":
                own = [inner["value"] for inner in below(it) if "value" in inner]
                last = int(own[0]) if own else last + 1
                self.enumerators[it["id"]] = str(last)

    def check_member(self, node):
        """6.7.2.1: members of a structure are apart from each other; those of a union aren't, and bits share their place."""
        if not self.members.get(node["referencedMemberDecl"]):
            raise Refused(f"member {node.get('name', '')}")

    def read(self):
        for it in self.functions.values():
            it.read()
        return self


def is_of_file(node):
    """Whether a function stands in the file itself, and not in a header."""
    places = [it.get("expansionLoc", it) for it in (node["loc"], node["range"]["begin"], node["range"]["end"])]
    return all("offset" in it and "includedFrom" not in it for it in places)


def clang_tree(text, options):
    """The tree that clang makes of the text. Warnings play no role."""
    with tempfile.TemporaryDirectory() as folder:
        path = pathlib.Path(folder) / "file.c"
        path.write_text(text, encoding="latin-1", newline="")
        words = [os.environ.get("CLANG", "clang"), "-fsyntax-only", "-w", "-std=gnu17", "-Xclang", "-ast-dump=json", *options, str(path)]
        try:
            ran = subprocess.run(words, capture_output=True, check=False)
        except OSError as why:
            raise Failed(f"{words[0]} can't be run: {why.strerror}") from None
    if ran.returncode:
        errors = re.findall(r"file\.c:(\d+:\d+: .*)", ran.stderr.decode(errors="replace")) or ran.stderr.decode(errors="replace").splitlines()
        raise Refused("clang: " + next((it for it in errors if "error" in it), "it has failed"))
    return json.loads(ran.stdout)


# ---- which cells may be one object


class Sharing(NamedTuple):
    """Classes of types whose cells outside the function are one variable, and the roots that are reached by an index too."""

    classes: frozenset
    indexed: frozenset


def type_class(kind):
    """6.5 paragraph 7: an object is accessed by its own type, signed or not; by a character type any is. Enumerations count as int."""
    if kind in CHARACTERS:
        return "character"
    return "int" if kind.startswith("enum ") else kind.removeprefix("unsigned ")


def is_shareable(cell):
    """Whether something else may reach the cell; 6.7.3.1: nothing else does, of what a restricted pointer reaches and somebody stores into."""
    return cell.where in ("file", "pointer") and not cell.root_type.endswith("restrict")


def sharing(functions):
    """What these versions of a function need together: one that needs it is enough, and more of it is never wrong."""
    classes, indexed = set(), set()
    for function in functions:
        parts = list(all_parts(function.parts))
        outside = [cell for part in parts for cell in part.outside()]
        reached = [cell for cell in outside if is_shareable(cell)]
        stored = {type_class(part.target.type) for part in parts if part.target and is_shareable(part.target)}
        classes |= shared_classes(reached, stored)
        indexed |= {(cell.where, cell.root) for cell in outside if cell.path and isinstance(cell.path[0], Element) and cell.path[0] != ARROW}
    return Sharing(frozenset(classes), frozenset(indexed))


def shared_classes(reached, stored):
    """Those of which a pointer reaches cells, something else does too, and one is stored into. A pointer to characters reaches all."""
    found = set()
    for kind in {type_class(it.type) for it in reached if it.where == "pointer"}:
        reaches_all = kind == "character"
        roots = {(it.where, it.root) for it in reached if reaches_all or type_class(it.type) == kind}
        if len(roots) > 1 and (stored if reaches_all else kind in stored):
            found.add(kind)
    return found


def variable_of(cell, shared):
    """The variable of which a cell is a part, and the steps from it to the cell: none where the cell is all of it.

    A member of a structure outside the function is a variable of its own, where no index reaches it. All of a local structure is one.
    """
    if is_shareable(cell) and shared.classes & {"character", type_class(cell.type)}:
        return ("memory", min(shared.classes & {"character"}, default=type_class(cell.type))), cell.path
    is_indexed = (cell.where, cell.root) in shared.indexed or cell.where not in ("file", "pointer")
    steps = cell.path if is_indexed else tuple(it for it in cell.path if it != ARROW)
    member = steps[:1] if not is_indexed and steps and isinstance(steps[0], Member) else ()
    return (cell.where, cell.root, cell.root_type, *member), steps[len(member) :]


# ---- hpr's text


class Spelling:
    """Programs of hpr for versions of one function: one number for one text, and one name for one variable."""

    def __init__(self, functions):
        self.shared = sharing(functions)
        self.names, self.numbers = {}, {}
        self.finals = sorted({self.name(cell) for it in functions for cell in results(it)})

    def name(self, cell):
        variable, _ = variable_of(cell, self.shared)
        return f"v{self.names.setdefault(variable, len(self.names) + 1)}"

    def content(self, part):
        """hpr_any's `statement_content`: the form, the number of the text, and the names that it uses."""
        number = self.numbers.setdefault(part.text(), len(self.numbers) + 1)
        uses = dict.fromkeys(self.name(cell) for cell in part.used())
        if part.target is not None and variable_of(part.target, self.shared)[1]:
            uses[self.name(part.target)] = None     # what it leaves as it was
        form = f"{self.name(part.target)} :=" if part.kind == "set" else part.kind
        return f"{form} {' % '.join([str(number), *uses])}"

    def program(self, function, tags):
        lines = ["program"]
        self.put(function.parts, tags, lines)
        return "\n".join([*lines, f"end({', '.join(self.finals)})", ""])

    def put(self, block, tags, lines):
        for part in block:
            line = f"{tags[part]}: {self.content(part)}"
            if part.kind == "set":
                lines.append(line + ";")
            elif part.kind == "while":
                lines.append(line + " do")
                self.put(part.blocks[0], tags, lines)
                lines.append("od")
            else:
                lines.append(line + " then")
                self.put(part.blocks[0], tags, lines)
                lines.append("else")
                self.put(part.blocks[1], tags, lines)
                lines.append("fi")


def results(function):
    """What a caller sees of a run: the result, what is written, and each cell outside that is stored into."""
    for part in all_parts(function.parts):
        cell = part.target
        if cell is not None and (cell.where in ("file", "pointer") or cell.root in ("returns", "output") and cell.where == "own"):
            yield cell


def ask(words, texts):
    """Calls hpr with files of these names and texts: its status, and what it prints."""
    program = os.environ.get("HPR") or str(pathlib.Path(__file__).resolve().parents[2] / "hpr")
    program = os.path.abspath(program) if "/" in program else program
    with tempfile.TemporaryDirectory() as folder:
        for name, text in texts.items():
            (pathlib.Path(folder) / name).write_text(text, encoding="ascii")
        try:
            ran = subprocess.run([program, *words], cwd=folder, capture_output=True, text=True, check=False, env={**os.environ, "HPR_BUILD": "never"})
        except OSError as why:
            raise Failed(f"hpr can't be run: {why.strerror}") from None
    if ran.returncode not in (0, 1, 2, 3, 4, 9, 10) or ran.returncode != 4 and not ran.stdout:
        raise Failed("hpr isn't built" if ran.returncode == 70 else f"hpr can't be run: status {ran.returncode}")
    return ran.returncode, ran.stdout or ran.stderr


# ---- what is judged


class Verdict(NamedTuple):
    """Of a function: that it is kept, or why it is `unverified` or `unchecked`."""

    name: str
    outcome: str
    why: str = ""
    details: str = ""


def judged(base, a, b, merged, tags_of):
    """The verdict on each function of the merged file, of which the four are units that were read. `tags_of` guesses tags."""
    names = dict.fromkeys(name for unit in (base, a, b, merged) for name in unit.functions)
    return [judged_function(name, [unit.functions.get(name) for unit in (base, a, b, merged)], tags_of) for name in names]


def judged_function(name, versions, tags_of):
    base, a, b, merged = (it and it.content() for it in versions)
    if a == b or base == b:
        return kept_as(name, versions, a == merged, "ours")
    if base == a:
        return kept_as(name, versions, b == merged, "theirs")
    missing = next((who for who, it in zip(("the base", "ours", "theirs", "the merge"), versions) if it is None), None)
    refused = next((it.refused for it in versions if it and it.refused), None)
    if refused:
        return Verdict(name, "unchecked", refused)
    if missing:
        return Verdict(name, "unverified", f"both versions change it, and {missing} lacks it")
    return judged_by_hpr(name, versions, tags_of)


def kept_as(name, versions, is_kept, side):
    """At most one version has another content than the base, or both have one: the merge is to have this."""
    if is_kept:
        return Verdict(name, "kept")
    refused = next((it.refused for it in versions if it and it.refused), None)
    return Verdict(name, "unchecked", refused) if refused else Verdict(name, "unverified", f"it isn't what {side} has")


def judged_by_hpr(name, versions, tags_of):
    """`hpr verify`: where it says yes, the merged function keeps the meaning of both versions, by the clauses of hpr_any."""
    base, a, b, merged = (it.signature() for it in versions)
    if merged != (b if base == a else a) or base not in (a, b) and a != b:
        return Verdict(name, "unverified", "its type or its parameters aren't those that one version gave it")
    spelling = Spelling(versions)
    texts = {letter: spelling.program(it, tags) for letter, it, tags in zip("OABM", versions, tags_of(*versions))}
    status, said = ask(["verify", *"OABM"], texts)
    if (status, said) == (0, "verified\n"):
        return Verdict(name, "kept", "verified")
    if status == 4:
        return Verdict(name, "unchecked", f"hpr takes no such program: {said.strip()}")
    return Verdict(name, "unverified", "", said)
