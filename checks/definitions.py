"""The definitions of the language and of integration once more, plain and slow, for checks that compare the program with them.

They share nothing with the program but what docs/language.md, docs/formats.md and docs/theory.md say. A definition stands under a
comment that says it in words. Programs are trees of parts; contents, expressions, vertices and edges are tuples.
"""
import collections
import itertools
import json
import re

LEAST, GREATEST = -2**63, 2**63 - 1
MOST_WRITTEN = 1_000_000
# an array has so many elements, from 0 on
ELEMENTS = 65_536
MOST_PARTS = 4000
GREATEST_SERIAL = 2**32 - 1
# so many arrangements of a merged graph are looked at
LOOKED_AT = 100

# ---- programs. Kinds stand in the order in which they are compared, so that tuples of them compare as they are to. The name of an
# array ends in `[]`, so that no plain name is the same.
NUMBER, VARIABLE, PREFIX, INFIX, ELEMENT = range(5)
PREFIXES = ["-", "not "]
SIGNS = ["or", "and", "=", "<>", "<", "<=", ">", ">=", "+", "-", "*", "/", "%"]
LEVELS = [1, 2, 3, 3, 3, 3, 3, 3, 4, 4, 5, 5, 5]
ASSIGN, IF, WHILE, WRITE, STORE = range(5)
ENTRY, INIT, PART, FINAL = range(4)
CONTROL, INDEPENDENT, CARRIED, ORDER = range(4)

Graph = collections.namedtuple("Graph", "vertices edges")
Outcome = collections.namedtuple("Outcome", "ended line steps finals")


class Part:
    """A part: its tag, what it says, and its blocks: none, the body of a loop, or both of a conditional."""

    def __init__(self, tag, content, blocks=None):
        self.tag, self.content = tag, content
        self.blocks = blocks if blocks is not None else [[] for _ in range({IF: 2, WHILE: 1}.get(content[0], 0))]

    def copy(self):
        return Part(self.tag, self.content, [copy(block) for block in self.blocks])

    def vertex(self):
        return (PART, *self.tag, self.content)


def copy(block):
    return [part.copy() for part in block]


class Program:
    """The greatest serial that each author was issued, the top block, and the names that `end` has."""

    def __init__(self, issued, body, finals):
        self.issued, self.body, self.finals = issued, body, finals


def preorder(block):
    for part in block:
        yield part
        for inner in part.blocks:
            yield from preorder(inner)


def places(block):
    """Each block of a block, itself first."""
    yield block
    for part in block:
        for inner in part.blocks:
            yield from places(inner)


def defined(content):
    """The name that a part defines, if it does: an assignment its variable, a write `out`, a store its array."""
    return content[1] if content[0] in (ASSIGN, WRITE, STORE) else None


def expressions_in(one):
    """The expressions of a content, or the operands of an expression; the index of a store comes before its number."""
    return [inner for inner in one if isinstance(inner, tuple)]


def names_of(expression):
    own = {expression[1]} if expression[0] in (VARIABLE, ELEMENT) else set()
    return own.union(*map(names_of, expressions_in(expression)))


def used(content):
    """The names that a part uses: those of its expressions, an element's array among them, a write `out` too, a store its array."""
    own = {content[1]} if content[0] in (WRITE, STORE) else set()
    return own.union(*map(names_of, expressions_in(content)))


# ---- texts
def level(expression):
    return {NUMBER: 7, VARIABLE: 7, PREFIX: 6, ELEMENT: 7}.get(expression[0]) or LEVELS[expression[1]]


def bracketed(expression, when):
    return f"({expression_text(expression)})" if when else expression_text(expression)


def expression_text(expression):
    kind = expression[0]
    if kind in (NUMBER, VARIABLE):
        return str(expression[1])
    if kind == ELEMENT:
        return element_text(expression[1], expression[2])
    if kind == PREFIX:
        return PREFIXES[expression[1]] + bracketed(expression[2], level(expression[2]) < 6)
    mine = LEVELS[expression[1]]
    left = bracketed(expression[2], level(expression[2]) < mine + (mine == 3))
    return f"{left} {SIGNS[expression[1]]} {bracketed(expression[3], level(expression[3]) <= mine)}"


def element_text(array, index):
    return f"{array.removesuffix('[]')}[{expression_text(index)}]"


def content_text(content):
    if content[0] == STORE:
        head = f"{element_text(content[1], content[2])} :="
    else:
        head = {ASSIGN: f"{content[1]} :=", WRITE: "write", IF: "if", WHILE: "while"}[content[0]]
    return f"{head} {expression_text(content[-1])}"


def tag_text(tag):
    return f"{tag[0]}.{tag[1]}"


def block_lines(block, indent=""):
    for part in block:
        ends, close = {IF: (" then", "fi"), WHILE: (" do", "od")}.get(part.content[0], (";", None))
        yield f"{indent}{tag_text(part.tag)}: {content_text(part.content)}{ends}"
        for at, inner in enumerate(part.blocks):
            if at and inner:
                yield f"{indent}else"
            yield from block_lines(inner, indent + "  ")
        if close:
            yield indent + close


def program_text(program):
    issued = ", ".join(f"{author}:{serial}" for author, serial in sorted(program.issued.items()))
    lines = ["program", *([f"issued {issued}"] if issued else []), *block_lines(program.body)]
    return "\n".join([*lines, f"end({', '.join(program.finals)})", ""])


def vertex_text(vertex):
    if vertex[0] == PART:
        return f"[{tag_text(vertex[1:3])} {content_text(vertex[3])}]"
    return f"[{' '.join([{ENTRY: 'entry', INIT: 'init', FINAL: 'final'}[vertex[0]], *vertex[1:]])}]"


def point_word(vertex):
    return tag_text(vertex[1:3]) if vertex[0] == PART else ":".join([["entry", "init", "", "final"][vertex[0]], *vertex[1:]])


def edge_text(edge):
    to, source, kind = edge
    way = f"{vertex_text(source)} -> {vertex_text(to)}"
    if kind[0] == CONTROL:
        return f"control {str(kind[1]).lower()} {way}"
    if kind[0] == INDEPENDENT:
        return f"flow {kind[1]} {way}"
    if kind[0] == CARRIED:
        return f"carried {kind[1]} {way} by {vertex_text(kind[2])}"
    return f"order {way} for {vertex_text(kind[1])}"


def lines_text(lines):
    return "".join(line + "\n" for line in lines)


def graph_text(graph):
    vertices, edges = sorted(graph.vertices), sorted(graph.edges)
    return lines_text([f"vertices {len(vertices)}", *map(vertex_text, vertices), f"edges {len(edges)}", *map(edge_text, edges)])


class Reader:
    """Reads a program that the built one printed, or a sample."""

    def __init__(self, text):
        self.tokens, self.at = re.findall(r"[A-Za-z_][A-Za-z_0-9]*|\d+|:=|<>|<=|>=|[^\s]", text), 0

    def peek(self):
        return self.tokens[self.at] if self.at < len(self.tokens) else ""

    def take(self, *wanted):
        token = self.peek()
        if wanted and token not in wanted:
            raise ValueError(f"token {self.at} is {token!r}, not one of {wanted}")
        self.at += 1
        return token

    def list(self, one):
        if self.peek() == ")":
            return []
        found = [one()]
        while self.peek() == ",":
            self.take()
            found.append(one())
        return found

    def pair(self, sign):
        first = int(self.take())
        self.take(sign)
        return first, int(self.take())

    def program(self):
        self.take("program")
        issued = {}
        if self.peek() == "issued":
            self.take()
            for author, serial in self.list(lambda: self.pair(":")):
                issued[author] = max(serial, issued.get(author, 0))
        body = self.block("end")
        self.take("end")
        self.take("(")
        finals = self.list(self.final)
        self.take(")")
        self.take("")
        return Program(issued, body, finals)

    def final(self):
        name = self.take()
        if self.peek() != "[":
            return name
        return name + self.take("[") + self.take("]")

    def block(self, *ends):
        parts = []
        while self.peek() not in ends:
            parts.append(self.part())
        return parts

    def part(self):
        tag = self.pair(".")
        self.take(":")
        head = self.take()
        if head == "if":
            content = (IF, self.expression())
            self.take("then")
            blocks = [self.block("else", "fi"), []]
            if self.take("else", "fi") == "else":
                blocks[1] = self.block("fi")
                self.take("fi")
            return Part(tag, content, blocks)
        if head == "while":
            content = (WHILE, self.expression())
            self.take("do")
            body = self.block("od")
            self.take("od")
            return Part(tag, content, [body])
        if head == "write":
            content = (WRITE, "out", self.expression())
        elif self.peek() == "[":
            index = self.index()
            self.take(":=")
            content = (STORE, head + "[]", index, self.expression())
        else:
            self.take(":=")
            content = (ASSIGN, head, self.expression())
        self.take(";")
        return Part(tag, content)

    def expression(self, least=1):
        left = self.prefix()
        while self.peek() in SIGNS and LEVELS[SIGNS.index(self.peek())] >= least:
            sign = SIGNS.index(self.take())
            left = (INFIX, sign, left, self.expression(LEVELS[sign] + 1))
        return left

    def prefix(self):
        token = self.take()
        if token in ("-", "not"):
            return (PREFIX, 0 if token == "-" else 1, self.prefix())
        if token == "(":
            inner = self.expression()
            self.take(")")
            return inner
        if self.peek() == "[":
            return (ELEMENT, token + "[]", self.index())
        return (NUMBER, int(token)) if token.isdigit() else (VARIABLE, token)

    def index(self):
        self.take("[")
        found = self.expression()
        self.take("]")
        return found


# ---- runs
class Fault(Exception):
    pass


class Stopped(Exception):
    pass


# What a name is worth that a state doesn't list: 0, for `out` the empty list, and for an array no element that isn't 0.
def blank(name):
    return [] if name == "out" else {} if name.endswith("[]") else 0


# The value of an expression: both operands, the left one first, and then the sign; out of range or by zero is a fault. Of an
# element it is the index first, for which there may be no element, and then what the array has there.
def value_of(expression, state):
    kind = expression[0]
    if kind == NUMBER:
        return expression[1]
    if kind == VARIABLE:
        return state.get(expression[1], 0)
    if kind == ELEMENT:
        return state.get(expression[1], {}).get(in_array(value_of(expression[2], state)), 0)
    if kind == PREFIX:
        inner = value_of(expression[2], state)
        return int(inner == 0) if expression[1] else in_range(-inner)
    left, right = value_of(expression[2], state), value_of(expression[3], state)
    return in_range(infix(SIGNS[expression[1]], left, right))


def in_range(value):
    if not LEAST <= value <= GREATEST:
        raise Fault("overflow")
    return value


def in_array(index):
    if not 0 <= index < ELEMENTS:
        raise Fault("index-range")
    return index


def infix(sign, left, right):
    if sign in ("/", "%"):
        if right == 0:
            raise Fault("zero-divide")
        quotient = in_range(abs(left) // abs(right) * (1 if (left < 0) == (right < 0) else -1))
        return quotient if sign == "/" else left - quotient * right
    return {
        "or": lambda: int(left != 0 or right != 0), "and": lambda: int(left != 0 and right != 0),
        "=": lambda: int(left == right), "<>": lambda: int(left != right), "<": lambda: int(left < right),
        "<=": lambda: int(left <= right), ">": lambda: int(left > right), ">=": lambda: int(left >= right),
        "+": lambda: left + right, "-": lambda: left - right, "*": lambda: left * right,
    }[sign]()


class Run:
    """A run: a step is an assignment, a store, a write or a test; it ends, it faults at a part, or no step is left for the next
    part. The map of an array has the elements that aren't 0."""

    def __init__(self, program, state, most):
        self.state, self.most, self.steps, self.trace = dict(state), most, 0, []
        try:
            self.block(program.body, [])
        except Stopped as stopped:
            self.outcome = Outcome(False, str(stopped), self.steps, [])
            return
        finals = [(name, self.state.get(name, blank(name))) for name in program.finals]
        self.outcome = Outcome(True, f"ended, steps {self.steps}", self.steps, finals)

    def step(self, part, turns):
        if self.steps == self.most:
            raise Stopped(f"not ended, steps {self.steps}")
        self.steps += 1
        try:
            value = self.act(part.content)
        except Fault as fault:
            raise Stopped(f"faulted {fault} at {tag_text(part.tag)}, steps {self.steps}") from None
        self.trace.append((part.tag, turns, value))
        return value

    # What a part does with its number: an assignment gives it to its variable, a store to an element of its array, a write puts it
    # behind those that were written, unless there are too many, and a test decides by it. A store's number may fault before it is
    # asked whether there is such an element.
    def act(self, content):
        *index, number = (value_of(expression, self.state) for expression in expressions_in(content))
        name = defined(content)
        if content[0] == ASSIGN:
            self.state[name] = number
        elif content[0] == STORE:
            at, elements = in_array(*index), self.state.setdefault(name, {})
            elements[at] = number
            if number == 0:
                del elements[at]
        elif content[0] == WRITE:
            written = self.state.setdefault(name, [])
            if len(written) == MOST_WRITTEN:
                raise Fault("output-full")
            written.append(number)
        return number

    def block(self, block, turns):
        for part in block:
            kind = part.content[0]
            if kind == IF:
                self.block(part.blocks[0 if self.step(part, turns) else 1], turns)
            elif kind == WHILE:
                turn = 0
                while self.step(part, [*turns, turn]):
                    self.block(part.blocks[0], [*turns, turn])
                    turn += 1
            else:
                self.step(part, turns)


def printed(value):
    if isinstance(value, dict):
        return f"{{{','.join(f'{at}:{number}' for at, number in sorted(value.items()))}}}"
    return f"[{','.join(map(str, value))}]" if isinstance(value, list) else str(value)


def run_text(run, with_trace):
    steps = [f"{tag_text(tag)} [{','.join(map(str, turns))}] {value}" for tag, turns, value in run.trace] if with_trace else []
    return lines_text([*steps, run.outcome.line, *(f"{name} = {printed(value)}" for name, value in run.outcome.finals)])


def table_text(outcomes):
    columns = [dict(outcome.finals) for outcome in outcomes]
    cells = lambda name: " ".join(printed(column[name]) if name in column else "-" for column in columns)
    return lines_text(f"{name}: {cells(name)}" for name in sorted(set().union(*columns)))


# Kept meaning: the merged program has each variant's value where that is another than the base's, and the value on which base
# and all variants agree.
def keeps(base, *others):
    base, *variants, merged = (dict(outcome.finals) for outcome in (base, *others))
    has = lambda name, value: name in merged and merged[name] == value
    changed = all(has(name, side[name]) for side in variants for name in side if name not in base or base[name] != side[name])
    return changed and all(has(name, base[name]) for name in base if all(side.get(name) == base[name] for side in variants))


# ---- the graph of a program
class Paths:
    """The points of a program by number, from 0 for its beginning to the last for its end, and the pairs of points that follow
    each other: `next[point]` has the second ones, each with the loop to which the pair goes back, or None."""

    def __init__(self, program):
        self.parts = list(preorder(program.body))
        self.number = {id(part): at + 1 for at, part in enumerate(self.parts)}
        self.exit = len(self.parts) + 1
        self.next = [set() for _ in range(self.exit + 1)]
        self.nest = [[] for _ in range(self.exit + 1)]
        self.branch = [{} for _ in range(self.exit + 1)]
        self.above = [(None, True)] * (self.exit + 1)
        self.defines = [None, *(defined(part.content) for part in self.parts), None]
        self.uses = [set(), *(used(part.content) for part in self.parts), set(program.finals)]
        self.next[0].add(self.first(program.body, (self.exit, None)))
        self.walk(program.body, (self.exit, None), [], {}, (None, True))

    def first(self, block, after):
        return (self.number[id(block[0])], None) if block else after

    # What follows a part is the next one of its block; behind a loop's body its test, by a pair that goes back; behind a branch
    # what follows the conditional; at last the end.
    def walk(self, block, after, nest, branch, above):
        for at, part in enumerate(block):
            me, then = self.number[id(part)], self.first(block[at + 1:], after)
            self.nest[me], self.branch[me], self.above[me] = nest, branch, above
            if part.content[0] == WHILE:
                back = (me, me)
                self.nest[me] = [*nest, me]
                self.next[me] |= {self.first(part.blocks[0], back), then}
                self.walk(part.blocks[0], back, self.nest[me], branch, (me, True))
            elif part.content[0] == IF:
                for inner, label in zip(part.blocks, (True, False)):
                    self.next[me].add(self.first(inner, then))
                    self.walk(inner, then, nest, {**branch, me: label}, (me, label))
            else:
                self.next[me].add(then)

    # What an undisturbed path reaches: one of at least one pair, with no definition of the name strictly between its ends, and
    # with no pair back to one of the loops `without`.
    def reached(self, start, name, without):
        found, todo = set(), [start]
        while todo:
            point = todo.pop()
            if point != start and self.defines[point] == name:
                continue
            for to, back in self.next[point]:
                if back not in without and to not in found:
                    found.add(to)
                    if to != start:
                        todo.append(to)
        return found

    # The same for paths that take a pair back to one loop.
    def reached_by(self, start, name, loop):
        found, todo = set(), [(start, False)]
        fresh = True
        while todo:
            point, taken = todo.pop()
            if not fresh and self.defines[point] == name:
                continue
            fresh = False
            for to, back in self.next[point]:
                state = (to, taken or back == loop)
                if state not in found:
                    found.add(state)
                    todo.append(state)
        return {point for point, taken in found if taken}

    def using(self, points, name):
        return {point for point in points if name in self.uses[point]}


# The graph of a program: its entry, its parts, an initial value of each name that some path uses before it is defined, and the
# final values. All are controlled by the entry but parts in a loop or a branch, which are by its test.
def graph_of(program):
    paths = Paths(program)
    parts = {at: part.vertex() for at, part in enumerate(paths.parts, 1)}
    at_end = lambda to, name: (FINAL, name) if to == paths.exit else parts[to]
    from_start = {name: paths.using(paths.reached(0, name, ()), name) for name in set().union(*paths.uses)}
    inits = [(INIT, name) for name, uses in from_start.items() if uses]
    finals = [(FINAL, name) for name in program.finals]
    edges = {(to, (ENTRY,), (CONTROL, True)) for to in (*inits, *finals)}
    for at, part in parts.items():
        above, label = paths.above[at]
        edges.add((part, parts[above] if above else (ENTRY,), (CONTROL, label)))
    for name, uses in from_start.items():
        edges |= {(at_end(to, name), (INIT, name), (INDEPENDENT, name)) for to in uses}
    flows = {at: set(flow_edges(paths, at)) for at in parts if paths.defines[at]}
    for at, found in flows.items():
        name = paths.defines[at]
        for to, loop in found:
            edges.add((at_end(to, name), parts[at], (CARRIED, name, parts[loop]) if loop else (INDEPENDENT, name)))
    edges |= {(parts[right], parts[left], (ORDER, at_end(to, name))) for left, right, to, name in order_edges(paths, flows)}
    return Graph(frozenset([(ENTRY,), *inits, *parts.values(), *finals]), frozenset(edges))


# A flow edge goes from a definition to a use that an undisturbed path reaches: an independent one where such a path goes back to
# no loop around both, one that a loop around both carries where such a path goes back to it.
def flow_edges(paths, at):
    name, nest = paths.defines[at], paths.nest[at]
    around = lambda to: [loop for loop in nest if loop in paths.nest[to]]
    for cut in range(len(nest) + 1):
        yield from ((to, None) for to in paths.using(paths.reached(at, name, nest[:cut]), name) if around(to) == nest[:cut])
    for loop in nest:
        yield from ((to, loop) for to in paths.using(paths.reached_by(at, name, loop), name) if loop in around(to))


# An order edge goes from the left to the right of two parts that define one variable, stand in different branches of no
# conditional, and both flow to one use.
def order_edges(paths, flows):
    reach = {at: {to for to, _ in found} for at, found in flows.items()}
    for left, right in itertools.combinations(sorted(reach), 2):
        apart = any(paths.branch[right].get(at, label) != label for at, label in paths.branch[left].items())
        if paths.defines[left] == paths.defines[right] and not apart:
            for to in reach[left] & reach[right]:
                yield left, right, to, paths.defines[left]


# ---- integration
def ends_of(edge):
    """The vertices of an edge: its target, its source, and the loop or the shared use of its kind."""
    kind = edge[2]
    return (edge[0], edge[1], kind[-1]) if kind[0] in (CARRIED, ORDER) else edge[:2]


class Slices:
    """A graph and its slices. A slice has all vertices from which its points are reached over control and flow edges, and each
    edge whose vertices are all among these."""

    def __init__(self, graph):
        self.graph, self.sources = graph, collections.defaultdict(set)
        for to, source, kind in graph.edges:
            if kind[0] != ORDER:
                self.sources[to].add(source)
        self.whole = [(edge, ends_of(edge)) for edge in graph.edges]
        self.kept = {}

    def of(self, points):
        found, todo = set(points), list(points)
        while todo:
            for source in self.sources[todo.pop()] - found:
                found.add(source)
                todo.append(source)
        return Graph(frozenset(found), frozenset(edge for edge, ends in self.whole if found.issuperset(ends)))

    def at(self, point):
        if point not in self.kept:
            self.kept[point] = self.of([point])
        return self.kept[point]


# A point of a variant is affected where the base lacks it or has another slice of it.
def affected(variant, base):
    return sorted(at for at in variant.graph.vertices if at not in base.graph.vertices or variant.at(at) != base.at(at))


# A point is preserved where base and all variants have it, with one slice; the points of initial values are not.
def preserved(base, variants):
    shared = base.graph.vertices.intersection(*(one.graph.vertices for one in variants))
    return [at for at in shared if at[0] != INIT and all(base.at(at) == one.at(at) for one in variants)]


# The merged graph: what each variant changed and what all share, each with all on which it depends.
def merged_graph(base, variants, changed):
    slices = [*(one.of(points) for one, points in zip(variants, changed)), base.of(preserved(base, variants))]
    return Graph(frozenset().union(*(one.vertices for one in slices)), frozenset().union(*(one.edges for one in slices)))


# A conflict is an affected point whose slice is another in the merged graph, with the least edge that this one adds and that ends
# in a vertex of the variant's.
def conflicts(merged, sides):
    for name, variant, points in sides:
        for at in points:
            mine, theirs = variant.at(at), merged.at(at)
            if mine != theirs:
                yield name, at, min(edge for edge in theirs.edges - mine.edges if edge[0] in mine.vertices)


# The rank: the parts of the first variant that isn't as the base is, and those of each variant and then of the base, from their
# last on, each before the one that follows it there.
def rank(base, variants):
    changed = [one for one in variants if program_text(one) != program_text(base)]
    first, *orders = ([part.vertex() for part in preorder(one.body)] for one in ((changed or variants)[0], *variants, base))
    ranked = list(first)
    for order in orders:
        for at, follows in reversed(list(zip(order, [*order[1:], None]))):
            if at not in ranked:
                ranked.insert(len(ranked) if follows is None else ranked.index(follows), at)
    return ranked


# The merged program's issued numbers: of each author the greatest that base or a variant has.
def greatest_issued(*programs):
    authors = set().union(*(program.issued for program in programs))
    return {author: max(program.issued.get(author, 0) for program in programs) for author in authors}


# Of several parts of the merged graph with one tag, that of the first variant which has one of them there keeps it. The others, in
# the order of vertices, get new tags of author 0 behind its issued serials, where these suffice, wherever they stand.
def split(merged, ranked, issued, variants):
    contents = collections.defaultdict(list)
    for at in merged.vertices:
        if at[0] == PART:
            contents[at[1:3]].append(at)
    loose = []
    for several in contents.values():
        if len(several) > 1:
            of_variants = ([at for at in several if at in variant.vertices] for variant in variants)
            keeper, = next(found for found in of_variants if found)
            loose += [at for at in several if at != keeper]
    last = issued.get(0, 0)
    if not loose or last + len(loose) > GREATEST_SERIAL:
        return merged, ranked, issued
    new = {at: (PART, 0, last + count, at[3]) for count, at in enumerate(sorted(loose), 1)}
    renamed = lambda at: new.get(at, at)
    kind_of = lambda kind: (*kind[:-1], renamed(kind[-1])) if kind[0] in (CARRIED, ORDER) else kind
    edges = frozenset((renamed(to), renamed(source), kind_of(kind)) for to, source, kind in merged.edges)
    return Graph(frozenset(map(renamed, merged.vertices)), edges), [*map(renamed, ranked)], {**issued, 0: last + len(loose)}


class Arrangements:
    """The arrangements of a graph, in the order of the rank: the programs with its parts and its control edges in which no
    independent and no order edge between two parts goes from right to left."""

    def __init__(self, graph, ranked, issued):
        self.parts = [at for at in ranked if at in graph.vertices]
        self.finals = sorted(at[1] for at in graph.vertices if at[0] == FINAL)
        self.issued, self.above = issued, {}
        self.blocks, self.before = collections.defaultdict(list), collections.defaultdict(set)
        one_content = len({at[1:3] for at in self.parts}) == len(self.parts)
        self.some = one_content and self.finds_blocks(graph) and self.finds_orders(graph)

    def finds_blocks(self, graph):
        controls = collections.defaultdict(list)
        for to, source, kind in graph.edges:
            if kind[0] == CONTROL:
                controls[to].append((source, kind[1]))
        for at in graph.vertices - {(ENTRY,)}:
            if len(controls[at]) != 1:
                return False
            source, label = self.above[at] = controls[at][0]
            allowed = source[0] == ENTRY or at[0] == PART and source[0] == PART and source[3][0] in (IF, WHILE)
            if not allowed or not label and (source[0] == ENTRY or source[3][0] == WHILE):
                return False
        for at in self.parts:
            self.blocks[self.above[at]].append(at)
        return all(len(self.around(at)) for at in self.parts)

    def around(self, at):
        """A part and those around it, the outermost first; none where they go round in a circle."""
        found = [at]
        while self.above[found[-1]][0] != (ENTRY,):
            found.append(self.above[found[-1]][0])
            if len(found) > len(self.parts):
                return []
        return found[::-1]

    # An edge from left to right orders the two parts of one block in which its ends stand.
    def finds_orders(self, graph):
        for to, source, kind in graph.edges:
            if kind[0] in (INDEPENDENT, ORDER) and to[0] == PART == source[0] and to != source:
                pairs = itertools.zip_longest(self.around(source), self.around(to))
                left, right = next(pair for pair in pairs if pair[0] != pair[1])
                if right is None:
                    return False
                if left is not None:
                    if self.above[left] != self.above[right]:
                        if not self.above[left][1]:
                            return False
                    else:
                        self.before[right].add(left)
        return all(self.can_be_ordered(block) for block in self.blocks.values())

    def can_be_ordered(self, block):
        placed = set()
        while len(placed) < len(block):
            ready = [at for at in block if at not in placed and self.before[at] <= placed]
            if not ready:
                return False
            placed.update(ready)
        return True

    def orders(self, left, placed=frozenset()):
        """The orders of the parts of a block, each with all in it, by the rank of the first part that differs."""
        if not left:
            yield []
        for at in left:
            if self.before[at] <= placed:
                rest = [other for other in left if other != at]
                for blocks in self.inner(at, {IF: (True, False), WHILE: (True,)}.get(at[3][0], ())):
                    for others in self.orders(rest, placed | {at}):
                        yield [Part(at[1:3], at[3], blocks), *others]

    def inner(self, at, labels):
        if not labels:
            yield []
            return
        for body in self.orders(self.blocks[at, labels[0]]):
            for others in self.inner(at, labels[1:]):
                yield [body, *others]

    # A leaf is an arrangement in preorder, up to the first part that clashes with those before it.
    def leaf(self, program, graph):
        placed = []
        for at in (part.vertex() for part in preorder(program.body)):
            clashing = self.clashes(graph, placed, at)
            placed.append(at)
            if clashing:
                break
        return tuple(placed)

    # A part clashes where the last definition of a name it uses stands in its block and doesn't flow to it in the graph; or where
    # it defines a name that a definition in its block has yet to bring to a part of this block.
    def clashes(self, graph, placed, at):
        together = lambda *parts: len({self.above[part] for part in parts}) == 1
        for place, left in enumerate(placed):
            name = defined(left[3])
            if name is None or not together(left, at):
                continue
            last = all(defined(other[3]) != name for other in placed[place + 1:])
            if last and name in used(at[3]) and (at, left, (INDEPENDENT, name)) not in graph.edges:
                return True
            open_uses = [to for to in self.parts if to != at and to not in placed and together(left, to)]
            if defined(at[3]) == name and any((to, left, (INDEPENDENT, name)) in graph.edges for to in open_uses):
                return True
        return False

    def all(self):
        if self.some:
            for body in self.orders(self.blocks[(ENTRY,), True]):
                yield Program(self.issued, body, self.finals)


class Integration:
    """What the definitions say of a base and its variants."""

    def __init__(self, base, *variants):
        self.graphs = [Slices(graph_of(program)) for program in (base, *variants)]
        of_base, *of_variants = self.graphs
        self.affected = [affected(one, of_base) for one in of_variants]
        self.merged = merged_graph(of_base, of_variants, self.affected)
        names = "AB" if len(variants) == 2 else [f"V{number}" for number in range(1, len(variants) + 1)]
        self.conflicts = list(conflicts(Slices(self.merged), zip(names, of_variants, self.affected)))
        graphs = [one.graph for one in of_variants]
        searched = split(self.merged, rank(base, variants), greatest_issued(base, *variants), graphs)
        self.searched, self.arrangements = searched[0], Arrangements(*searched)

    def conflicts_text(self):
        lines = (f"{side} {vertex_text(at)}: {edge_text(edge)}" for side, at, edge in self.conflicts)
        return lines_text([f"interference {len(self.conflicts)}", *lines])

    # The verdict on a program that was made elsewhere: the first conflict; else the least vertex, or else the least edge, that its
    # graph or the one that is searched has alone.
    def verdict(self, offered):
        """The status and the text of `verify`."""
        told = lambda **members: (10, json.dumps(members, sort_keys=True, separators=(",", ":"), ensure_ascii=False) + "\n")
        words = lambda at: vertex_text(at)[1:-1]
        for side, at, edge in self.conflicts[:1]:
            return told(kind="conflict", side=side, point=words(at), edge=edge_text(edge))
        graph = graph_of(offered)
        for kind, ours, others, text in (("vertex", graph.vertices, self.searched.vertices, words),
                                         ("edge", graph.edges, self.searched.edges, edge_text)):
            apart = ours ^ others
            if apart:
                least = min(apart)
                return told(kind=kind, holder="offered" if least in ours else "merged", **{kind: text(least)})
        return 0, "verified\n"

    def no_program_text(self):
        count = sum(at[0] == PART for at in self.searched.vertices)
        return f"no program with at most {MOST_PARTS} parts has the merged graph, which has {count} parts\n"

    # The answer: all conflicts; else the first arrangement with the graph that is searched; else none, or that so many tries are
    # spent.
    def wrong(self, status, text, tries):
        """What is wrong with an answer, or None."""
        if self.conflicts:
            return None if (status, text) == (1, self.conflicts_text()) else f"status 1\n{self.conflicts_text()}"
        if status == 1:
            return "no conflict"
        looked_at = list(itertools.islice(self.arrangements.all(), LOOKED_AT + 1))
        whole = len(looked_at) <= LOOKED_AT
        if status == 0:
            return self.wrong_program(text, looked_at, whole)
        if status == 2:
            if any(graph_of(one) == self.searched for one in looked_at):
                return "a program has the merged graph"
            return None if text == self.no_program_text() else self.no_program_text()
        spent = f"spent: none of the first {tries} arrangements has the merged graph\n"
        return None if (status, text) == (3, spent) and self.may_be_spent(looked_at, whole, tries) else "not spent"

    # Tries may be spent where there are more leaves than tries and none of the first ones is a program with the merged graph.
    def may_be_spent(self, looked_at, whole, tries):
        leaves = set()
        for one in looked_at:
            leaves.add(self.arrangements.leaf(one, self.searched))
            if len(leaves) > tries:
                return True
            if graph_of(one) == self.searched:
                return False
        return not whole

    def wrong_program(self, text, looked_at, whole):
        program = Reader(text).program()
        if program_text(program) != text:
            return "not the canonical text"
        if graph_of(program) != self.searched:
            return "the graph of the printed program is not the merged graph"
        if program.issued != self.arrangements.issued or program.finals != self.arrangements.finals:
            return "other issued numbers, or other finals"
        for one in looked_at:
            if program_text(one) == text:
                return None
            if graph_of(one) == self.searched:
                return f"an earlier program has the merged graph:\n{program_text(one)}"
        return "no arrangement" if whole else None
