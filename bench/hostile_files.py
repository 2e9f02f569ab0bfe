"""Files that nobody writes, but that the limits allow: for each title of CASES a function that takes by how much they are smaller than
the limits allow, and returns the texts of the files by their names, and the words of some calls of hpr; KIT_CASES has the same of hprkit."""
import re

from programs import Program, spell

MOST_BYTES, MOST_PARTS = 4 << 20, 4000
DIGITS = "0123456789abcdefghijklmnopqrstuvwxyz"


def name(at):
    """The name with this number, which is no keyword."""
    text = ""
    while at or not text:
        at, digit = divmod(at, len(DIGITS))
        text += DIGITS[digit]
    return f"v{text}"


def names(count):
    return [name(at) for at in range(count)]


def tagged(author, texts):
    """A line for each part of one author, which gets the serials from 1 on."""
    return [f"{author}.{at}: {text}" for at, text in enumerate(texts, 1)]


def three(base, a, b):
    return dict(zip(["base", "a", "b"], [base, a, b])), [["integrate", "base", "a", "b"]]


# ---- graphs


def end_names(of):
    """All names that a file can hold stand at `end`."""
    text = spell("", [], names(330000 // of)).replace("issued \n", "")
    return {"f": text}, [["slice", "f", "entry"], ["integrate", "f", "f", "f"], ["trial", "f", "f", "f"]]


def free_names(of):
    """Parts each of which uses names of its own, which no part defines."""
    parts, each = 3980 // of, 125
    free = names(parts * each)
    program = Program()
    for at in range(parts):
        program.put(f"x := {'+'.join(free[each * at:each * at + each])};")
    return {"f": program.text([])}, [["slice", "f", "entry"], ["affected", "f", "f"]]


def balanced(program, leaves):
    """Conditionals as balanced as can be, with a definition of x at each leaf."""
    if leaves == 1:
        program.put("x := 1;")
        return
    program.put("if c then")
    balanced(program, leaves // 2)
    program.close("else")
    balanced(program, leaves - leaves // 2)
    program.close("fi")


def parted_definitions(of):
    """Definitions no two of which run in one pass, and uses that all of them reach."""
    program = Program()
    balanced(program, 1750 // of)
    for _ in range(499 // of):
        program.put("y := x;")
    return {"f": program.text([])}, [["slice", "f", "entry"], ["integrate", "f", "f", "f"]]


def leaning(program, levels, leaves):
    """Conditionals whose first blocks go as deep as parts may, with so many definitions of x at the leaves; how many are left."""
    if leaves == 1 or levels == 1:
        program.put("x := 1;")
        return leaves - 1
    program.put("if c then")
    left = leaning(program, levels - 1, leaves)
    if left > 0:
        program.close("else")
        left = leaning(program, levels - 1, left)
    program.close("fi")
    return left


def leaning_definitions(of):
    """The same, where each definition stands in the first block of as many conditionals as can be."""
    program = Program()
    leaning(program, 64, 1740 // of)
    for _ in range(min(570, 3990 - program.count) // of):
        program.put("y := x;")
    return {"f": program.text([])}, [["slice", "f", "entry"]]


def wide_uses(of):
    """Each use reads as many names as an expression may, each of which has several definitions."""
    program, several = Program(), names(257)
    for at in range(1900 // of):
        program.put("if c then")
        program.put(f"{several[at % 257]} := 1;")
        program.close("fi")
    for _ in range(115 // of):
        program.put(f"y := {'+'.join(several)};")
    return {"f": program.text([])}, [["slice", "f", "entry"]]


def nested_loops(of):
    """Loops as deep as parts may stand, and names in the innermost that come round to all of them."""
    program, inner = Program(), names(1900 // of)
    for _ in range(63):
        program.put("while c < 9 do")
    for one in inner:
        program.put(f"{one} := c;")
    for one in inner:
        program.put(f"y := {one};")
    for _ in range(63):
        program.close("od")
    return {"f": program.text([])}, [["slice", "f", "entry"]]


# ---- merges


def skipped(definitions, tail, last):
    """Definitions of x that may each be skipped, of which A changes the first and B another, and behind them the tail's parts."""

    def text(changed):
        lines, serial = [], 0
        for at in range(definitions):
            value = at + 100 if at == changed else at
            lines += [f"1.{serial + 1}: if p then", f"1.{serial + 2}: x := {value};", "else", "fi"]
            serial += 2
        return spell(f"1:{serial + len(tail)}", lines + [f"1.{serial + at}: {part}" for at, part in enumerate(tail, 1)], ["y"])

    return three(text(None), text(0), text(last))


def many_conflicts(of):
    """7,800 conflicts, and close to a million order edges."""
    return skipped(20, ["y := x;"] * (3900 // of), 1)


def conflicts_last(of):
    """The same, where most edges come before the least added one."""
    return skipped(20, ["y := x;"] * (3900 // of), 19)


def one_after_another(of):
    """The same, where each use reads the one before it too."""
    return skipped(16, ["y := y + x;"] * (3900 // of), 15)


def wide_conflicts(of):
    """The same, where each use reads many names: as many flow edges as there may be."""
    read = names(230)
    tail = [f"{one} := 1;" for one in read] + [f"y := y+x+{'+'.join(read)};"] * (3760 // of)
    return skipped(2, tail, 1)


def exchanged(of):
    """B exchanges the two branches of a conditional, A adds a part."""
    parts = 1990 // of
    first = [f"1.{at}: x{at} := 1;" for at in range(2, parts + 2)]
    second = [f"1.{at}: y{at} := 2;" for at in range(parts + 2, 2 * parts + 2)]
    issued, head = f"1:{2 * parts + 1}", "1.1: if c < 1 then"
    base = [head, *first, "else", *second, "fi"]
    return three(spell(issued, base, ["c"]), spell(f"{issued}, 2:1", [*base, "2.1: a := 1;"], ["c", "a"]),
                 spell(issued, [head, *second, "else", *first, "fi"], ["c"]))


def turned(of):
    """B turns a block round, A adds a part."""
    parts = 3980 // of
    base, issued = tagged(1, [f"x{at} := {at};" for at in range(parts)]), f"1:{parts}"
    return three(spell(issued, base, ["x0"]), spell(f"{issued}, 2:1", [*base, "2.1: a := 1;"], ["x0", "a"]), spell(issued, base[::-1], ["x0"]))


def chain(of):
    """Each part of a block reads the one before it; A and B add a part each."""
    parts = 3980 // of
    base = tagged(1, ["x0 := 1;", *(f"x{at} := x{at - 1} + 1;" for at in range(1, parts))])
    issued, last = f"1:{parts}", f"x{parts - 1}"
    return three(spell(issued, base, [last]), spell(f"{issued}, 2:1", ["2.1: a := 1;", *base], [last, "a"]),
                 spell(f"{issued}, 3:1", [*base, "3.1: b := x0;"], [last, "b"]))


def late(of):
    """Parts that read others, which B has behind them: what comes first in the base may stand last."""
    parts = 1980 // of
    readers, read = tagged(1, [f"y{at} := x{at};" for at in range(parts)]), tagged(2, [f"x{at} := {at};" for at in range(parts)])
    issued, pairs = f"1:{parts}", [line for pair in zip(read, readers) for line in pair]
    return three(spell(issued, readers, ["y0"]), spell(f"{issued}, 3:1", [*readers, "3.1: a := 1;"], ["y0", "a"]), spell(f"{issued}, 2:{parts}", pairs, ["y0"]))


# ---- scripts


def edit(program, script):
    return {"f": program, "script": script}, [["edit", "f", "script", "--author", "1"]]


def assignments(count):
    return spell(f"1:{count}", tagged(1, ["x := 1;"] * count), ["x"])


def repeated(commands, of):
    """As many of these commands as a file holds."""
    return commands * (MOST_BYTES // of // len(commands))


def in_turn(made, of):
    """As many of the commands that `made` gives for 0, 1, 2, .. as a file holds."""
    script, size, at = [], 0, 0
    while size + len(made(at)) <= MOST_BYTES // of:
        script.append(made(at))
        size += len(script[-1])
        at += 1
    return "".join(script)


def sets(of):
    """The only part of a program is set."""
    return edit(assignments(1), repeated("set 1.1 x:=1;\n", of))


def sets_of_last(of):
    """The last of 3,980 parts is set."""
    return edit(assignments(3980), repeated("set 1.3980 x:=1;\n", of))


def finals_then_sets(of):
    """`end` names many names before and behind a command, and sets follow."""
    head = f"finals ({','.join(names(300000 // of))});\n"
    sets_behind = "set 1.1 x:=1;\n" * ((MOST_BYTES // of - len(head)) // 14)
    return edit(spell("1:1", ["1.1: x := 1;"], names(600000 // of)), head + sets_behind)


def finals_again(of):
    """`end` names one name, again and again."""
    return edit(assignments(1), repeated("finals(x);\n", of))


def inserts_and_deletes(of):
    """As many parts as a program may have are put in and deleted, again and again."""
    most = MOST_PARTS // of

    def both(at):
        return "insert at top 0 x:=1;\n" * most + "".join(f"delete 1.{at * most + serial};\n" for serial in range(1, most + 1))

    return edit("program\nend()\n", in_turn(both, of))


def inserts_among_authors(of):
    """A part is put in and deleted, where many authors have numbers."""
    authors = ", ".join(f"{author}:1" for author in range(1, 300001 // of))
    return edit(f"program\nissued {authors}\nend()\n", in_turn(lambda at: f"insert at top 0 x:=1;\ndelete 1.{at + 2};\n", of))


def wraps(of):
    """The last of 3,980 parts is wrapped and unwrapped."""
    return edit(assignments(3980), in_turn(lambda at: f"wrap 1.3980 if x;\nunwrap 1.{at + 3981};\n", of))


def moves(of):
    """The last of 3,980 parts is moved to the front and back."""
    return edit(assignments(3980), repeated("move 1.3980 at top 0;\nmove 1.3980 at top 3979;\n", of))


# ---- what is read and answered


def points(of):
    """A slice at many points."""
    asked = names(100000 // of)
    return {"f": f"program end({', '.join(asked)})\n"}, [["slice", "f", *(f"final:{one}" for one in asked)]]


def falling_authors(of):
    """The numbers of many authors in falling order, in the header and at the tags."""
    header = ",".join(f"{at}:1" for at in range(460000 // of, 0, -1))
    tags = "".join(f"{at}.1:x:=1;" for at in range(300000 // of, 0, -1))
    return {"header": f"program issued {header} end()\n", "tags": f"program {tags}end()\n"}, [["run", "header"], ["run", "tags"]]


# ---- names and edges chosen to be slow


MASK, MULTIPLIER = 2**64 - 1, 0x9E3779B97F4A7C15


def folded(a, b):
    return (a * b & MASK) ^ (a * b >> 64)


def hash_of(text):
    """The 32 bits by which an index looks a name of 4 to 8 letters up: what the toolchain's FoldHasher makes of it and of a byte 255."""
    word = int.from_bytes(text[:4], "little") | int.from_bytes(text[-4:], "little") << 32
    state = folded(folded(0x243F6A8885A308D3 ^ word, MULTIPLIER ^ 2 * len(text)) ^ 0xFFFFFF, MULTIPLIER ^ 2)
    return (state ^ state >> 32) & 0xFFFFFFFF


def crowded_names(count):
    """So many names that an index of them and of as many others looks for in an eighth of its groups, which lie one behind another."""
    groups = 1
    while 9 * groups < 2 * count:
        groups *= 2
    found, at = [], len(DIGITS) ** 2
    while len(found) < count:
        text = name(at)
        if hash_of(text.encode()) & groups - 1 < max(groups // 8, 1):
            found.append(text)
        at += 1
    return found


def crowded(of):
    """All names at `end`, chosen so that their hashes are alike. An index that goes on to the next place passes all that came before."""
    text = spell("", [], crowded_names(300000 // of)).replace("issued \n", "")
    return {"f": text}, [["slice", "f", "entry"], ["graph", "f"]]


def round_a_loop(count, read):
    """A loop in which three parts, of which A changes the first and B the last, may give x a value, and the parts behind them read these and
    one another: the part number k those that `read` tells of it. The least edges of all conflicts are order edges."""

    def text(changed):
        lines = ["1.1: while c do"]
        for at in range(3):
            lines += [f"1.{2 * at + 2}: if p then", f"1.{2 * at + 3}: x := {at + 100 if at == changed else at};", "fi"]
        for at in range(count):
            others = [name(other) for other in read(at) if 0 <= other < count]
            lines.append(f"1.{at + 8}: {name(at)} := {'+'.join(['x'] * (at == 0) + others) or '1'};")
        return spell(f"1:{count + 7}", [*lines, "od"], [name(count - 1)])

    return three(text(None), text(0), text(2))


def both_ways(of):
    """Each part reads the one before it, and many behind it: values go round the loop in both directions, in one of them by one part a turn."""
    return round_a_loop(3700 // of, lambda at: [at - 1, *range(at + 1, at + 1 + 100 // of)])


def to_and_fro(of):
    """Each part reads the one behind it, and beside that one of the other half: the longest way goes to and fro between the halves."""
    half = 1850 // of
    return round_a_loop(2 * half, lambda at: [at + 1, at - half if at >= half else at + half - 1])


# ---- what is told at length


def long_sum():
    """An expression of 255 operators and the longest names: one operator fewer than there may be."""
    return "+".join(f"{'n' * 60}{at:04}" for at in range(256))


def long_conflicts(of):
    """The 7,800 conflicts of above, where the edge of each lies between parts of 17,000 bytes."""
    files, calls = skipped(3, ["y := x;"] * (3900 // of), 2)
    return {file: re.sub(r"x := (\d+);", rf"x := {long_sum()}*\1;", text) for file, text in files.items()}, calls


def long_edges(of):
    """As many flow edges as there may be, all of which carry one name of 64 bytes."""
    files, _ = parted_definitions(of)
    return {file: re.sub(r"\bx\b", "x" * 64, text) for file, text in files.items()}, [["graph", "f"], ["graph", "f", "--json"]]


# ---- sixteen variants


def own_edges(author, of):
    """The lines of parts of one author, with close to a million edges, and how many parts there are."""
    lines, serial, one = [], 0, f"x{author}"
    for _ in range(max(62 // of, 1)):
        lines += [f"{author}.{serial + 1}: if p then", f"{author}.{serial + 2}: {one} := 1;", "fi"]
        serial += 2
    lines += [f"{author}.{serial + at}: y{author} := {one};" for at in range(1, 501)]
    return lines, serial + 500


def sixteen(base, variant):
    """Sixteen variants of a base, which the function tells."""
    files = {"base": base} | {f"v{at}": variant(at) for at in range(1, 17)}
    return files, [["integrate", *files]]


def wide_variants(of):
    """Each adds close to a million edges of its own, and gives x another value."""

    def variant(at):
        lines, count = own_edges(at + 1, of)
        return spell(f"1:1, {at + 1}:{count}", [f"1.1: x := {at};", *lines], ["x"])

    return sixteen(spell("1:1", ["1.1: x := 0;"], ["x"]), variant)


def many_variants(of):
    """Each changes a part that all others read: 62,000 conflicts."""

    def variant(at):
        lines = [f"1.{part}: x{part} := {at if part == at else 0};" for part in range(1, 17)]
        first = "+".join(f"x{part}" for part in range(1, 17))
        lines += [f"1.{part}: y := {first if part == 17 else 'y'};" for part in range(17, 3900 // of)]
        return spell(f"1:{max(3899 // of, 17)}", lines, ["y"])

    return sixteen(variant(0), variant)


# ---- what hprkit reads and prints


def of_kit(made, *calls):
    """The files of another case, with these calls."""
    return lambda of: (made(of)[0], [list(call) for call in calls])


def many_signs(of):
    """A text of signs alone, each of which is looked at for tags."""
    return {"f": "program " + ";" * (MOST_BYTES // of - 8)}, [["tag", "f", "--author", "1", "--keep"], ["fmt", "f"]]


def far_apart(of):
    """Parts in conditionals as deep as may be, with a comment in front of each and of each `fi`."""
    gap = f"#{' then ; ' * (MOST_BYTES // of // 8 // 8200)}\n"
    lines, serial = [], 0
    while serial < 3900:
        lines += [f"{gap}1.{serial + at}: if x then" for at in range(1, 64)]
        lines += [f"{gap}1.{serial + 64}: x := 1;"] + [f"{gap}fi"] * 63
        serial += 64
    text = spell(f"1:{serial}", lines, ["x"])
    bare = re.sub(r"\b1\.\d+: ", "", text)
    return {"f": text, "bare": bare}, [["impact", "f", "1.1", "--marks"], ["graph", "f", "--json"], ["tag", "bare", "--author", "1", "--keep"]]


def points_of_kit(of):
    """What many points reach."""
    files, calls = points(of)
    return files, [["impact", *calls[0][1:], *form] for form in ([], ["--json"], ["--marks"])]


def all_affected(of):
    """Each part is affected, through many edges."""
    files, _ = round_a_loop(3700 // of, lambda at: [at - 1, *range(at + 1, at + 1 + 100 // of)])
    return files, [["affected", "base", "a"]]


CASES = {
    "330,000 names of `end`": end_names,
    "3,980 parts, each with 125 names of its own": free_names,
    "1,750 definitions in different branches, 499 uses": parted_definitions,
    "the same, in branches 64 deep": leaning_definitions,
    "115 uses of 257 names each, of which each has some definitions": wide_uses,
    "1,900 names inside 63 loops": nested_loops,
    "7,800 conflicts, a million order edges": many_conflicts,
    "the same, whose least edge comes late": conflicts_last,
    "the same, where each use reads the one before": one_after_another,
    "7,500 conflicts, a million flow edges": wide_conflicts,
    "two branches of 1,990 parts, exchanged": exchanged,
    "a block of 3,980 parts, turned round": turned,
    "a chain of 3,980 parts": chain,
    "1,980 parts that read what comes behind them": late,
    "299,000 times `set`, in a program of one part": sets,
    "246,000 times `set`, of the last of 3,980 parts": sets_of_last,
    "`finals` of 300,000 names, then 160,000 times `set`": finals_then_sets,
    "381,000 times `finals`": finals_again,
    "`insert` and `delete`, to 4,000 parts and back": inserts_and_deletes,
    "the same of one part, among 300,000 authors": inserts_among_authors,
    "`wrap` and `unwrap`, of the last of 3,980 parts": wraps,
    "`move`, of the last of 3,980 parts": moves,
    "100,000 points": points,
    "authors in falling order": falling_authors,
    "300,000 names of `end` with hashes that are alike": crowded,
    "3,700 parts that read one another both ways round a loop, 7,400 conflicts": both_ways,
    "the same, to and fro between the halves": to_and_fro,
    "7,800 conflicts, each told with parts of 17,000 bytes": long_conflicts,
    "870,000 edges, each told with a name of 64 bytes": long_edges,
    "sixteen variants, each with a million edges of its own": wide_variants,
    "62,000 conflicts of sixteen variants": many_variants,
}

KIT_CASES = {
    "870,000 edges, each told with a name of 64 bytes": of_kit(long_edges, ["graph", "f", "--dot"], ["graph", "f", "--json"]),
    "7,800 conflicts, each told with parts of 17,000 bytes": of_kit(long_conflicts, ["conflicts", "base", "a", "b"]),
    "62,000 conflicts of sixteen variants": of_kit(many_variants, ["conflicts", "base", *(f"v{at}" for at in range(1, 17))]),
    "3,700 parts, all affected through many edges": all_affected,
    "4 MB of signs": many_signs,
    "4,000 parts among 4 MB of comments, 64 deep": far_apart,
    "100,000 points": points_of_kit,
}
