"""Made functions of C with loops in loops and exits anywhere, for checks/c_merges: what the translator makes of exits is tried by runs."""

NAMES = ["a", "b", "x", "y", "g"]
FIRST = """int g;

int f(int a, int b)
{
    int x = a, y = 1;

"""


class Maker:
    """Writes statements that a drawn number decides."""

    def __init__(self, draw):
        self.draw, self.lines, self.loops = draw, [], 0

    def value(self):
        name = self.draw.choice(NAMES)
        return self.draw.choice([f"{name}", f"{name} + {self.draw.randrange(1, 9)}", f"({name} - {self.draw.choice(NAMES)}) % 97", f"{name} * 3 % 101"])

    def condition(self):
        sign = self.draw.choice(["<", ">", "==", "!=", "<=", ">="])
        one = f"{self.draw.choice(NAMES)} {sign} {self.draw.randrange(-3, 9)}"
        return one if self.draw.randrange(4) else f"{one} {self.draw.choice(['&&', '||'])} {self.draw.choice(NAMES)} > {self.draw.randrange(5)}"

    def put(self, depth, line):
        self.lines.append("    " * depth + line)

    def block(self, depth, in_loop):
        for _ in range(self.draw.randrange(1, 4)):
            self.statement(depth, in_loop)

    def statement(self, depth, in_loop):
        kind = self.draw.randrange(12 if depth < 5 else 5)
        if kind < 3:
            self.put(depth, f"{self.draw.choice(NAMES)} = {self.value()};")
        elif kind == 3:
            self.put(depth, self.draw.choice([f"{self.draw.choice(NAMES)}++;", f"x += {self.value()};", "y--;", 'printf("%d\\n", x);']))
        elif kind == 4:
            self.put(depth, f"if ({self.condition()})")
            self.put(depth + 1, self.draw.choice(["break;", "continue;", f"return {self.value()};"] if in_loop else [f"return {self.value()};"]))
        elif kind < 9:
            self.conditional(depth, in_loop)
        else:
            self.loop(depth)

    def conditional(self, depth, in_loop):
        self.put(depth, f"if ({self.condition()}) {{")
        self.block(depth + 1, in_loop)
        if self.draw.randrange(2):
            self.put(depth, "} else {")
            self.block(depth + 1, in_loop)
        self.put(depth, "}")

    def loop(self, depth):
        """A loop that ends by a counter of its own, whatever is in it."""
        self.loops += 1
        name, most = f"i{self.loops}", self.draw.randrange(1, 5)
        kind = self.draw.randrange(3)
        if kind == 0:
            self.put(depth, f"for (int {name} = 0; {name} < {most}; {name}++) {{")
        else:
            self.put(depth, f"int {name} = 0;")
            self.put(depth, f"while ({name} < {most}) {{" if kind == 1 else "do {")
            self.put(depth + 1, f"{name}++;")
        self.block(depth + 1, True)
        self.put(depth, f"}} while ({name} < {most});" if kind == 2 else "}")


def made_function(draw):
    """The text of a file with one function, `f`."""
    maker = Maker(draw)
    for _ in range(draw.randrange(2, 6)):
        maker.statement(1, False)
    maker.put(1, f"return {maker.value()};")
    return "int printf(const char *, ...);\n" + FIRST + "\n".join(maker.lines) + "\n}\n"
