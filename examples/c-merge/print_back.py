"""The text of a merged function in C: the program that hpr prints, part by part as the authors wrote it.

What is printed here is judged by `parts` like any other file, so a mistake costs a merge, and never its meaning. A comment that would be lost
is such a mistake: then nothing is printed.
"""
import re
import textwrap

from parts import Refused, all_parts, begin_of, below, body_of, end_of, offset

COMPOUND = ("IfStmt", "WhileStmt", "ForStmt", "DoStmt")
TOKEN = re.compile(r"//(?:\\\n|[^\n])*|/\*.*?\*/|\"(?:\\.|[^\"\\])*\"|'(?:\\.|[^'\\])*'|\w+|\S", re.S)
VERSIONS = ("base", "ours", "theirs")


def comments(text):
    return [it for it in TOKEN.findall(text) if it.startswith(("//", "/*"))]


def lost_comments(base, ours, theirs, merged):
    """The comments of ours and theirs that the merge lacks though neither version took them out of the base."""
    of_base, of_ours, of_theirs, kept = ({" ".join(one.split()) for one in comments(it)} for it in (base, ours, theirs, merged))
    return [it for it in (of_ours | of_theirs) - kept if it not in of_base or it in of_ours & of_theirs]


# ---- texts of a version


class Source:
    """The text of one version of a function, by clang's nodes."""

    def __init__(self, function):
        self.function, self.text = function, function.unit.text

    def of(self, node):
        return self.text[begin_of(node) : end_of(node)]

    def closed_by(self, at, sign):
        """The place behind the next such sign; comments may stand in front of it, and the brackets of a macro."""
        depth = 0
        for token in TOKEN.finditer(self.text, at):
            if token.group() == sign and depth == 0:
                return token.end()
            depth += {"(": 1, ")": -1}.get(token.group(), 0)
            if depth == 0 and token.group() != ")" and not token.group().startswith(("//", "/*")):
                break
        raise Refused(f"no {sign}")

    def statement(self, node):
        """A statement without blocks, with its semicolon."""
        end = end_of(node)
        return self.text[begin_of(node) : end if self.text[end - 1] == ";" else self.closed_by(end, ";")]

    def declarator(self, part):
        """The specifiers of a declaration, and the name with its initializer."""
        first, its = below(part.node)[0], part.detail
        return self.text[begin_of(first) : offset(first["loc"])].rstrip(), self.text[offset(its["loc"]) : end_of(its)]

    def head(self, node):
        """A statement with blocks, up to the first of them."""
        return self.text[begin_of(node) : begin_of(blocks_of(node)[0])].rstrip()

    def opener(self, block):
        """What stands between a head and what is in a block, with a comment behind the brace: nothing where there is no brace."""
        if block["kind"] != "CompoundStmt":
            return ""
        begin = begin_of(block)
        space = re.search(r"\s*\Z", self.text[:begin]).group()
        behind = self.text[begin + 1 :].split("\n", 1)[0].strip()
        return ("\n{" if "\n" in space else " {") + ("  " + behind if comments(behind) == [behind] else "")

    def indentation(self, at):
        return re.match(r"[ \t]*", self.text[self.text.rfind("\n", 0, at) + 1 :]).group()

    def lead(self, at):
        """The lines of comments and the blank lines above a place that begins its line."""
        begin = self.text.rfind("\n", 0, at) + 1
        if self.text[begin:at].strip():
            return []
        above = self.text[self.function.begin : begin]
        found = re.search(r"(?:^[ \t]*(?://[^\n]*|/\*(?:(?!\*/).)*\*/[ \t]*)?\n)*\Z", above, re.M | re.S)
        lines = [line.rstrip() for line in textwrap.dedent(found.group()).split("\n")[:-1]]
        return lines if any(lines) else lines[-1:]

    def tail(self, node, number):
        """The lines of comments at the end of a block of a statement."""
        blocks = blocks_of(node) if node["kind"] in COMPOUND else []
        if len(blocks) <= number or blocks[number]["kind"] != "CompoundStmt":
            return []
        return [it for it in self.lead(end_of(blocks[number]) - 1) if it]

    def trail(self, node):
        """A comment behind a statement, on its last line."""
        end = begin_of(node) + len(self.statement(node))
        rest = self.text[end:].split("\n", 1)[0].rstrip()
        return rest if comments(rest) == [rest.strip()] else ""


def blocks_of(node):
    """The blocks of a statement that has some, in their order."""
    inner = below(node)
    return {"IfStmt": inner[1:], "DoStmt": inner[:1]}.get(node["kind"], inner[-1:])


# ---- the merged program


class Node:
    """A part of the merged program: its tag, its content, and the parts of versions that are it."""

    def __init__(self, tag, content):
        self.tag, self.content, self.blocks, self.found = tag, content, [[], []], {}

    def part(self):
        return next(iter(self.found.values()))


def read_program(text):
    """The tree of what hpr prints."""
    top, open_blocks, open_nodes = [], [], []
    block = top
    for line in map(str.strip, text.splitlines()):
        found = re.fullmatch(r"(\d+\.\d+): (.*?)(;| then| do)", line)
        if found:
            node = Node(found[1], found[2])
            block.append(node)
            if found[3] != ";":
                open_blocks.append(block)
                open_nodes.append(node)
                block = node.blocks[0]
        elif line == "else":
            block = open_nodes[-1].blocks[1]
        elif line in ("fi", "od"):
            open_nodes.pop()
            block = open_blocks.pop()
    return top


def all_nodes(block):
    for it in block:
        yield it
        for inner in it.blocks:
            yield from all_nodes(inner)


def beside(nodes):
    """As in `align`: what stands under a guard counts as standing beside it."""
    for it in nodes:
        yield it
        if it.part().role == "guard":
            yield from beside(it.blocks[0])


def three_ways(base, ours, theirs):
    """What either side changed; where both did, ours and what theirs has beside it."""
    if ours == base or ours == theirs:
        return theirs
    return ours if theirs == base else ours + [it for it in theirs if it not in ours]


class Printer:
    """Prints a merged program as C. `versions` are base, ours and theirs, `tables` their tags."""

    def __init__(self, program, spelling, versions, tables):
        self.sources = dict(zip(VERSIONS, map(Source, versions)))
        self.tables = dict(zip(VERSIONS, tables))
        self.tree = read_program(program)
        self.by_tag = {name: {tags[it]: it for it in all_parts(version.parts)} for name, version, tags in zip(VERSIONS, versions, tables)}
        for node in all_nodes(self.tree):
            self.find(node, spelling)
        self.done = set()

    def find(self, node, spelling):
        """Finds the part in the versions. A part that is there as it was and as it is now has two tags, of which none has one."""
        for name in ("ours", "theirs", "base"):
            part = self.by_tag[name].get(node.tag)
            if part is not None and spelling.content(part) == node.content:
                node.found[name] = part
        if not node.found:
            raise Refused("the merge would hold a statement as it was and as it is now")

    def tags(self, merged):
        """The tags of the parts of the printed text: each takes the next one of its content."""
        free, tags = {}, {}
        for node in all_nodes(self.tree):
            free.setdefault(node.part().text(), []).append(node.tag)
        for number, part in enumerate(all_parts(merged.parts), 1):
            left = free.get(part.text())
            tags[part] = left.pop(0) if left else f"9.{number}"
        return tags

    def pick(self, node):
        """The part and the source to print: that of the version that changed the text."""
        found = node.found
        if len(found) == 3 and self.own_text("ours", found["ours"]) == self.own_text("base", found["base"]):
            return found["theirs"], self.sources["theirs"]
        name = next(iter(found))
        return found[name], self.sources[name]

    def own_text(self, name, part):
        """What is printed of a part alone."""
        source = self.sources[name]
        if part.role in ("first", "step"):
            return source.of(part.detail)
        if part.node["kind"] in COMPOUND:
            return source.head(part.node), [source.opener(it) for it in blocks_of(part.node)]
        return (source.statement(part.node), source.trail(part.node)) if part.role != "flag" else ""

    # ---- blocks

    def block(self, nodes, depth):
        """The lines of a block."""
        lines = []
        nodes = arranged(nodes)
        for at, node in enumerate(nodes):
            if node not in self.done:
                lines += self.lines(node, nodes[at:], nodes, depth)
        return lines

    def lines(self, node, following, block, depth):
        part, source = self.pick(node)
        match part.role:
            case "flag" | "again":
                return []
            case "guard":
                return self.block(node.blocks[0], depth)
            case "first" if any(self.loop_tag(node) == it.tag for it in block):
                return []
            case "first" | "step":
                return [self.space(depth) + self.in_head(node) + ";"]
            case "declaration":
                return self.declaration(node, following, depth)
        if part.kind == "if":
            return self.conditional(node, depth)
        if part.kind == "while":
            return self.loop(node, block, depth)
        return self.simple(node, depth, following)

    def space(self, depth):
        return self.unit() * depth

    def unit(self):
        source = self.sources["ours"]
        body = source.text[source.function.begin : source.function.end]
        found = re.search(r"\{[^\n]*\n([ \t]+)\S", body)
        return found.group(1) if found else "    "

    def simple(self, node, depth, following=()):
        """A statement without blocks; of one with several parts, all of which stand together, once."""
        part, source = self.pick(node)
        group = [it for it in following if self.pick(it)[0].node is part.node]
        self.done.update(group)
        lines = indented(source.statement(part.node), source.indentation(begin_of(part.node)), self.space(depth))
        trail = source.trail(part.node)
        if trail:
            lines[-1] += trail
        return self.lead(node, depth) + lines

    def declaration(self, node, following, depth):
        part, source = self.pick(node)
        wanted = [it for it in all_parts(source.function.parts) if it.node is part.node]
        group = [self.pick(it)[0] for it in following[: len(wanted)]]
        if len(wanted) == 1 or all(mine is its for mine, its in zip(group, wanted)) and len(group) == len(wanted):
            return self.simple(node, depth, following[: len(wanted)])
        return self.lead(node, depth) + [self.space(depth) + " ".join(source.declarator(part)) + ";"]

    def of_versions(self, node, found_in):
        """What versions have beside a part, by three ways: the part with its tag, whatever it says there."""
        parts = {name: self.by_tag[name].get(node.tag) for name in VERSIONS}
        found = {name: found_in(self.sources[name], part) for name, part in parts.items() if part is not None and part.node["kind"] != "FunctionDecl"}
        if len(found) == 3:
            return three_ways(*(found[name] for name in VERSIONS))
        return found.get("ours") or found.get("theirs") or found.get("base", [])

    def lead(self, node, depth):
        """The comments above a statement."""
        lines = self.of_versions(node, lambda source, part: source.lead(begin_of(part.node)))
        return [self.space(depth) + it if it else "" for it in lines]

    def tail(self, node, number, depth):
        """The comments at the end of a block."""
        return [self.space(depth) + it for it in self.of_versions(node, lambda source, part: source.tail(part.node, number))]

    # ---- statements with blocks

    def conditional(self, node, depth):
        part, source = self.pick(node)
        lines = self.lead(node, depth) + indented(source.head(part.node), source.indentation(begin_of(part.node)), self.space(depth))
        is_braced = self.wrapped(node, 0, lines, depth)
        if not any(it.part().role != "flag" for it in node.blocks[1]):
            return lines
        blocks = blocks_of(part.node)
        joint = "else"
        if is_braced and not (blocks[1:] and re.search(r"\n\s*else", source.text[end_of(blocks[0]) : begin_of(blocks[1])])):
            joint = lines.pop().strip() + " else"
        chained = self.chained(node, blocks, depth)
        if chained:
            return lines + [self.space(depth) + joint + " " + chained[0].lstrip(), *chained[1:]]
        lines.append(self.space(depth) + joint)
        self.wrapped(node, 1, lines, depth)
        return lines

    def chained(self, node, blocks, depth):
        """The lines of an `else if`, where the author has one and the second block is still one conditional."""
        other = [it for it in node.blocks[1] if it.part().role != "flag"]
        is_one = len(other) == 1 and (other[0].part().kind, other[0].part().role) == ("if", "statement")
        is_chain = is_one and blocks[1:] and blocks[1]["kind"] == "IfStmt" and not self.lead(other[0], depth)
        return self.conditional(other[0], depth) if is_chain else None

    def wrapped(self, node, number, lines, depth):
        """Puts a block behind a head, with braces where the author had some or the block needs them; whether it has some."""
        part, source = self.pick(node)
        blocks = blocks_of(part.node)
        opener = source.opener(blocks[number]) if len(blocks) > number else " {"
        inner = self.block(node.blocks[number], depth + 1) + self.tail(node, number, depth + 1)
        shown = [it for it in beside(node.blocks[number]) if it.part().role not in ("flag", "guard", "again", "step")]
        # without braces an `else` behind another conditional would be of that
        is_single = len(shown) == 1 and (shown[0].part().kind == "set" or node.part().kind == "while")
        if not opener and is_single and not any(map(comments, inner)):
            lines += [it for it in inner if it]
            return False
        opener = opener or " {"
        if opener.startswith("\n") or comments(lines[-1]):
            lines.append(self.space(depth) + opener.strip())
        else:
            lines[-1] += opener
        lines += inner[1:] if inner and not inner[0] else inner
        lines.append(self.space(depth) + "}")
        return True

    def loop_tag(self, node):
        """The tag of the loop in whose head a part stands."""
        for name, part in node.found.items():
            if part.loop is not None:
                return self.tables[name][part.loop]
        return None

    def in_head(self, node):
        part, source = self.pick(node)
        if part.detail["kind"] == "VarDecl":
            return " ".join(source.declarator(part))
        return source.of(part.detail)

    def loop(self, node, block, depth):
        part, source = self.pick(node)
        firsts = [it for it in block if it.part().role == "first" and self.loop_tag(it) == node.tag]
        steps = [it for it in beside(node.blocks[0]) if it.part().role in ("step", "again") and self.loop_tag(it) == node.tag]
        self.done.update(firsts + steps)
        if part.node["kind"] == "DoStmt":
            return self.do_loop(node, steps, depth)
        lines = self.lead(node, depth)
        name = self.with_this_head(node, part, firsts + steps)
        if name:
            part, source = node.found[name], self.sources[name]
            lines += indented(source.head(part.node), source.indentation(begin_of(part.node)), self.space(depth))
        else:
            lines.append(self.space(depth) + self.made_head(part, source, firsts, steps))
        self.wrapped(node, 0, lines, depth)
        return lines

    def do_loop(self, node, steps, depth):
        if len(steps) != 1:
            raise Refused("a loop without its condition")
        its, source = self.pick(steps[0])
        lines = self.lead(node, depth) + [self.space(depth) + "do"]
        if not self.wrapped(node, 0, lines, depth):
            raise Refused("a loop without braces")
        lines[-1] += f" while ({source.of(below(its.node)[1])});"
        return lines

    def with_this_head(self, node, picked, in_head):
        """A version in which this loop has just these parts in its head, first the one that is picked for it."""
        for name, part in sorted(node.found.items(), key=lambda it: it[1] is not picked):
            if {it for it in all_parts(self.sources[name].function.parts) if it.loop is part and it.role != "flag"} == {it.found.get(name) for it in in_head}:
                return name
        return None

    def made_head(self, part, source, firsts, steps):
        """The head of a loop whose parts come of several versions."""
        node = part.node
        condition = node["inner"][2 if node["kind"] == "ForStmt" else 0]
        condition = source.of(condition) if condition else ""
        if not firsts and not steps:
            return f"while ({condition or 1})"
        if len(firsts) > 1 and any(it.part().detail["kind"] == "VarDecl" for it in firsts):
            raise Refused("several declarations in the head of a loop")
        first, step = (", ".join(map(self.in_head, it)) for it in (firsts, steps))
        return f"for ({first}; {condition}; {step})".replace("; ;", ";;").replace("; )", ";)")

    # ---- the function

    def function(self):
        """The text of the function, or what keeps it from being printed."""
        heads, whole = [], []
        for name in VERSIONS:
            source = self.sources[name]
            heads.append([source.text[source.function.begin : begin_of(body_of(source.function.node)) + 1]])
            whole.append(source.text[source.function.begin : source.function.end])
        head = three_ways(*heads)
        if len(head) > 1:
            raise Refused("both versions change the head of the function")
        lines = self.block(self.tree, 1) + self.last_comments()
        text = "\n".join([head[0], *(lines[1:] if lines and not lines[0] else lines), "}"])
        lost = lost_comments(*whole, text)
        if lost:
            raise Refused(f"a comment would be lost: {min(lost)}")
        return text

    def last_comments(self):
        found = [[it for it in self.sources[name].lead(self.sources[name].function.end - 1) if it] for name in VERSIONS]
        return [self.space(1) + it for it in three_ways(*found)]


def indented(text, old, new):
    """The lines of a text, moved from one indentation to another."""
    first, *more = text.split("\n")
    return [new + first, *(new + (it[len(old) :] if it.startswith(old) else it.lstrip()) for it in more)]


def arranged(nodes):
    """A block in an order that C can have: exits last, what follows a guard in front of what leaves, a declaration in front of its uses."""
    last = [it for it in nodes if it.part().role == "exit"]
    nodes = [it for it in nodes if it not in last] + last
    for at, node in enumerate(nodes):
        if node.part().role == "guard":
            behind = [it for it in nodes[at + 1 :] if it.part().role not in ("flag", "guard")]
            leaving = max((place for place in range(at) if nodes[place].part().kind != "set"), default=at)
            nodes = nodes[:leaving] + behind + [it for it in nodes[leaving:] if it not in behind]
            break
    for node in [it for it in nodes if it.part().role == "declaration"]:
        nodes = declared_first(node, nodes)
    return nodes


def declared_first(node, nodes):
    cell = node.part().target
    uses = [at for at, it in enumerate(nodes) if it is not node and any(cell.root == one.root for inner in all_nodes([it]) for one in named(inner.part()))]
    at = nodes.index(node)
    if uses and uses[0] < at:
        nodes = nodes[:at] + nodes[at + 1 :]
        nodes.insert(uses[0], node)
    return nodes


def named(part):
    return [*part.used(), *([part.target] if part.target else [])]
