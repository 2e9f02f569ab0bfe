"""Runs versions of a function of C on drawn inputs, for checks/c_merges.

A version is compiled by gcc with undefined behaviour trapped, together with a program that draws what it begins with: parameters, what
pointers reach, and the variables of the file. Draws are by name, so all versions begin alike. Each run is a process of its own, which a trap or too
much time ends. Pointers of one type that may be equal are, in every third run.
"""
import math
import pathlib
import re
import subprocess

from parts import all_parts, below

GCC = ["gcc", "-std=gnu17", "-O0", "-w", "-fsanitize=undefined,float-cast-overflow", "-fsanitize-undefined-trap-on-error", "-ftrivial-auto-var-init=pattern"]
MACROS = ["-Dprintf=note_printf", "-Dputs=note_puts", "-Dputchar=note_putchar"]
# elements behind each pointer, and to which of them it points
ROOM, START = 96, 32
# microseconds of a processor for a run; the merge has as much as its three versions together, and more
LIMIT = 60_000
SECONDS = 120

BEFORE = """
#include <stdarg.h>
static char noted[1 << 16];
static int noted_to;
int vsnprintf(char *, unsigned long, const char *, va_list);
int note_printf(const char *format, ...)
{
    va_list more;
    va_start(more, format);
    if (noted_to < (1 << 16) - 512)
        noted_to += vsnprintf(noted + noted_to, 256, format, more);
    va_end(more);
    return 0;
}
int note_puts(const char *text) { return note_printf("%s\\n", text); }
int note_putchar(int sign) { return note_printf("%c", sign); }
"""

AFTER = """
#undef printf
#undef puts
#undef putchar
int dprintf(int, const char *, ...);
int fork(void);
void _exit(int);
int waitpid(int, int *, int);
int setitimer(int, const void *, void *);
static unsigned long state;
static long draw(const char *name, int at, int of)
{
    unsigned long x = state + 1099511628211ul * (at + 7);
    while (*name)
        x = (x ^ (unsigned char)*name++) * 1099511628211ul;
    x ^= x >> 29;
    x *= 0xbf58476d1ce4e5b9ul;
    x ^= x >> 32;
    return (long)(x % of);
}
static void tell_integer(long x) { note_printf("%ld,", x); }
static void tell_floating(double x)
{
    if (x != x)
        note_printf("nan,");
    else
        note_printf("%a,", x);
}
#define TELL(x) _Generic((x), float: tell_floating, double: tell_floating, default: tell_integer)(x)
#define DRAW(x, name, at) ((x) = _Generic((x), float: draw(name, at, 80) / 4.0 - 5, double: draw(name, at, 80) / 4.0 - 5, \\
    unsigned char: draw(name, at, 256), unsigned int: draw(name, at, 40), default: draw(name, at, 5) ? draw(name, at, 17) - 4 : draw(name, at, 400) - 100))
"""


class Things:
    """What versions of a function begin with and leave: the parameters of the first, and all that any of them reaches outside."""

    def __init__(self, functions):
        self.name, self.kind = functions[0].name, functions[0].node["type"]["qualType"].split("(")[0].strip()
        self.parameters = [it for it in below(functions[0].node) if it["kind"] == "ParmVarDecl"]
        self.files, self.members = {}, {}
        for cell in (cell for one in functions for part in all_parts(one.parts) for cell in part.outside()):
            if cell.where == "file":
                self.files[cell.root] = cell.root_type
            for step in cell.path:
                if hasattr(step, "name") and "[" not in step.type:
                    self.members.setdefault(cell.root, {})[step.name] = None

    def places(self, root, kind):
        """The numbers in a variable of the file, as expressions of C."""
        sizes = [int(it) for it in re.findall(r"\[(\d+)\]", kind)]
        found = [root]
        for size in sizes:
            found = [f"{it}[{at}]" for it in found for at in range(size)]
        return [f"{it}.{member}" for it in found for member in self.members.get(root, [None]) if member] or found


def element_of(node):
    """What a parameter's pointer reaches, as C spells the type of an array of it."""
    kind = node["type"]["qualType"].replace("const ", "").replace("restrict", "")
    inner = re.fullmatch(r"(.+?) ?\(\*\)((?:\[\d+\])+)", kind.strip())
    return (inner[1], inner[2]) if inner else (kind.rstrip("* "), "")


def drawn(target, name, at="0"):
    return f"DRAW({target}, \"{name}\", {at});"


def fill_and_tell(things, may_be_equal):
    """The lines that declare and fill what the function begins with, its arguments, and the lines that tell what is left."""
    declared, fill, words, numbers, tell, alike = [], [], [], [], [], {}
    for root, kind in sorted(things.files.items()):
        for at, place in enumerate(things.places(root, kind)):
            fill.append(drawn(place, root, at))
            tell.append(f"TELL({place});")
        tell.append(f'note_printf(" {root}\\n");')
    for at, it in enumerate(things.parameters):
        name = it.get("name", f"unnamed_{at}")
        if "*" not in it["type"]["qualType"]:
            declared.append(f"{it['type']['qualType']} {name};")
            fill.append(f"{name} = draw(\"{name}\", 0, 10);" if name == "n" else drawn(name, name))
            words.append(name)
            numbers.append(f'TELL({name}); note_printf(" {name}\\n");')
            continue
        kind, dimensions = element_of(it)
        declared.append(f"static {kind} room_{name}[{ROOM}]{dimensions};")
        count = math.prod(map(int, re.findall(r"\d+", dimensions)))
        places = [f"room_{name}[i].{member}" for member in things.members.get(name, {})] or [f"(&room_{name}[i]{'[0]' * dimensions.count('[')})[j]"]
        for place in places:
            loop = f"for (int i = 0; i < {ROOM}; i++) for (int j = 0; j < {count}; j++)"
            fill.append(f"{loop} {drawn(place, name + place, 'i * 16 + j')}")
            tell.append(f'{loop} TELL({place}); note_printf(" {name} {len(tell)}\\n");')
        other = alike.setdefault((kind, dimensions, "restrict" in it["type"]["qualType"]), name)
        if not may_be_equal or "restrict" in it["type"]["qualType"]:
            other = name
        words.append(f"(run % 3 ? room_{name} : room_{other}) + {START}")
    return declared, fill, words, numbers, tell


def program(text, things, runs, may_be_equal, limit):
    """A program of the text that makes so many runs, and prints of each that ends what it began with and what it leaves."""
    declared, fill, words, numbers, tell = fill_and_tell(things, may_be_equal)
    missing = [f"{kind} {root};" for root, kind in things.files.items() if not re.search(rf"\b{root}\b", text)]
    call = f"{things.name}({', '.join(words)})"
    result = [] if things.kind == "void" else ["TELL(result);", 'note_printf(" result\\n");']
    return "\n".join([
        BEFORE, "#line 1", text, *missing, AFTER, "int main(void)", "{", *declared, f"for (int run = 0; run < {runs}; run++) {{",
        "state = run * 7919ul + 17;", "if (fork() == 0) {", f"long timer[4] = {{0, 0, 0, {limit}}};", "setitimer(1, timer, 0);", *fill,
        *([] if may_be_equal else [*numbers, *tell, 'note_printf(" begun\\n");']),
        f"{things.kind} result = {call};" if result else f"{call};", 'note_printf(" written\\n");', *result, *tell,
        'noted[noted_to] = 0; dprintf(1, "== %d\\n%s", run, noted); _exit(0); }', "int status; waitpid(-1, &status, 0);", "}", "return 0; }",
    ])


def outcomes(folder, name, text, things, runs, may_be_equal=True, limit=LIMIT):
    """Of each run that ended normally, by its number, the values that it left by their names; or those before and behind it, where
    no pointers are equal."""
    source, binary = pathlib.Path(folder) / f"{name}.c", pathlib.Path(folder) / name
    source.write_text(program(text, things, runs, may_be_equal, limit), encoding="latin-1")
    subprocess.run([*GCC, *MACROS, "-o", binary, source, "-lm"], stderr=subprocess.PIPE, text=True, check=True)
    ran = subprocess.run([binary], capture_output=True, text=True, errors="replace", timeout=SECONDS, check=False)
    blocks = dict(block.split("\n", 1) for block in ran.stdout.split("== ")[1:])
    if may_be_equal:
        return {int(number): values_of(left) for number, left in blocks.items()}
    return {int(number): (values_of("written\n" + left.partition(" begun\n")[0]), values_of(left.partition(" begun\n")[2])) for number, left in blocks.items()}


def values_of(text):
    """The values that a run tells, by their names."""
    written, _, left = text.partition(" written\n") if " written\n" in text else ("", "", text.partition("\n")[2])
    return {"written": written, **{line.partition(" ")[2]: line.partition(" ")[0] for line in left.splitlines()}}


def broken(base, a, b, merged):
    """The first run that breaks the theorem's rule, and how; and in how many all three versions ended."""
    ended = sorted(base.keys() & a.keys() & b.keys())
    for run in ended:
        if run not in merged:
            return f"run {run}: the merge doesn't end", len(ended)
        for name in base[run]:
            of_base, of_a, of_b, got = (it[run][name] for it in (base, a, b, merged))
            wanted = {it for it in (of_a, of_b) if it != of_base} or {of_base}
            if wanted != {got}:
                return f"run {run}: {name}: base {of_base}, ours {of_a}, theirs {of_b}, the merge {got}", len(ended)
    return None, len(ended)
