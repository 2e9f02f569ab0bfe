"""Cases in which git calls the driver of examples/c-merge, each in a new repository, and `review` behind it: for checks/c_merges.

Behind each call nothing that a person wrote is lost: what git merges is a commit on both sides, so a file must be merged, hold both versions where
they conflict, or be as it was.
"""
import os
import pathlib
import subprocess
import tempfile
import time

TOOL = pathlib.Path(__file__).resolve().parent.parent / "examples" / "c-merge"
BASE = """#include <stdio.h>

long most_seen;

/* Tells the mean of some numbers. */
void tell(const int *a, int n)
{
    long sum = 0;

    for (int i = 0; i < n; i++)
        sum += a[i];
    printf("mean %ld\\n", sum / n);
}
"""
ODD = [("    long sum = 0;\n", "    long sum = 0;\n    long odd = 0;\n"),
       ("i++)\n        sum += a[i];", "i++) {\n        sum += a[i];\n        odd += a[i] % 2 != 0;\n    }"),
       ("sum / n);\n", "sum / n);\n    printf(\"odd %ld\\n\", odd);\n")]
MOST = [("    long sum = 0;\n", "    long sum = 0;\n    int most = 0; // of those seen\n"),
        ("i++)\n        sum += a[i];", "i++) {\n        sum += a[i];\n        if (a[i] > most)\n            most = a[i];\n    }"),
        ("    printf", "    most_seen = most;\n    printf")]
BOTH = """    long sum = 0;
    long odd = 0;
    int most = 0; // of those seen

    for (int i = 0; i < n; i++) {
        sum += a[i];
        odd += a[i] % 2 != 0;
        if (a[i] > most)
            most = a[i];
    }
    most_seen = most;
    printf("mean %ld\\n", sum / n);
    printf("odd %ld\\n", odd);
"""
LINES = """long g;
long f(long n)
{
    long a = n;
    long b = 2;
    a = a * 3;
    g = b;
    return a + b;
}
"""


class Wrong(Exception):
    """What a case finds that is not to be."""


def expect(is_so, what):
    if not is_so:
        raise Wrong(what)


class Repository:
    """A new repository with one file, and a branch for each of two changes of it."""

    def __init__(self, folder):
        self.folder, self.name = pathlib.Path(folder) / "tree", "f.c"
        self.environment = {it: value for it, value in os.environ.items() if not it.startswith("GIT_")}
        self.environment |= {"GIT_CONFIG_GLOBAL": "/dev/null", "GIT_CONFIG_NOSYSTEM": "1", "GIT_EDITOR": "true", "LC_ALL": "C"}
        self.folder.mkdir()
        self.git("init", "-q", "-b", "ours", "--template=", ".")
        for name, value in (("user.name", "tester"), ("user.email", "tester@example.org"), ("merge.c.driver", f"'{TOOL}/merge' %O %A %B %L %P")):
            self.git("config", name, value)
        (self.folder / ".gitattributes").write_text("*.c merge=c\n")

    def git(self, *words, is_to_end=True):
        ran = subprocess.run(["git", *words], cwd=self.folder, env=self.environment, capture_output=True, check=False)
        self.said, self.status = (ran.stdout + ran.stderr).decode("latin-1"), ran.returncode
        expect(not is_to_end or self.status == 0, f"git {' '.join(words)}: {self.said}")
        return self.said

    def file(self):
        return (self.folder / self.name).read_bytes().decode("latin-1")

    def commit(self, text, message):
        path = self.folder / self.name
        path.parent.mkdir(exist_ok=True)
        path.write_bytes(text.encode("latin-1"))
        self.git("add", "-A")
        self.git("commit", "-q", "-m", message)

    def branches(self, base, ours, theirs):
        """The base, and two branches with these replacements; it ends on that of ours."""
        self.base = base
        self.commit(base, "base")
        self.git("checkout", "-q", "-b", "theirs")
        self.theirs = replaced(base, theirs)
        self.commit(self.theirs, "theirs")
        self.git("checkout", "-q", "ours")
        self.ours = replaced(base, ours)
        self.commit(self.ours, "ours")

    def merge(self):
        self.before = self.file()
        return self.git("merge", "-q", "-m", "merged", "theirs", is_to_end=False)

    def is_merged(self, *texts):
        expect(self.status == 0 and not self.git("status", "--porcelain"), f"not merged: {self.said}")
        for text in texts:
            expect(text in self.file(), f"no {text} in\n{self.file()}")

    def says(self, *texts):
        for text in texts:
            expect(text in self.said, f"no {text} in what is said: {self.said}")

    def conflicts(self, *texts):
        """A conflict that holds every line that a version has made, and that git can take back."""
        said = self.said
        expect(self.status == 1 and "<<<<<<<" in self.file(), f"no conflict, status {self.status}: {said}\n{self.file()}")
        for at, text in ((0, self.ours), (1, self.theirs)):
            lost = set(text.splitlines()) - set(self.file().splitlines()) - set(self.base.splitlines())
            expect(not lost, f"version {at} has lost {lost}")
        self.said = said
        self.says(*texts)
        self.git("merge", "--abort")
        expect(self.file() == self.before, "what was there isn't back")

    def stub(self, script):
        """A program in place of hpr."""
        path = self.folder.parent / "stub"
        path.write_text(f"#!/bin/sh\n{script}\n")
        path.chmod(0o755)
        self.environment["HPR"] = str(path)


def replaced(text, edits):
    for old, new in edits:
        expect(old in text, f"there is no {old}")
        text = text.replace(old, new, 1)
    return text


# ---- cases


def written(it):
    it.branches(BASE, ODD, MOST)
    it.merge()
    it.is_merged(BOTH, "/* Tells the mean of some numbers. */\nvoid tell")
    expect("unverified" not in it.said and "unchecked" not in it.said, it.said)
    ran = subprocess.run([TOOL / "review", "--commits"], cwd=it.folder, env=it.environment, capture_output=True, text=True, check=False)
    expect(ran.returncode == 0 and "kept 1, unverified 0, unchecked 0" in ran.stdout, ran.stdout + ran.stderr)


def verified(it):
    it.branches(LINES, [("long b = 2", "long b = 2 /* two */")], [("a * 3", "a * 4")])
    it.merge()
    it.is_merged("/* two */", "a * 4")
    expect("f.c" not in it.said, it.said)


def unverified(it):
    it.branches(LINES, [("long a = n", "long a = n + 1")], [("return a + b", "return a - b")])
    it.merge()
    said = it.said
    it.is_merged("n + 1", "a - b")
    it.said = said
    it.says("f.c: f: unverified: the two changes interfere", "ours 4 `long a = n + 1;`", "theirs 8 `return a - b;`")
    ran = subprocess.run([TOOL / "review", "--commits", "-1"], cwd=it.folder, env=it.environment, capture_output=True, text=True, check=False)
    expect(ran.returncode == 1 and "f.c: f: unverified" in ran.stdout, ran.stdout + ran.stderr)


def unverified_strict(it):
    it.git("config", "merge.c.driver", f"'{TOOL}/merge' --strict %O %A %B %L %P")
    it.branches(LINES, [("long a = n", "long a = n + 1")], [("return a + b", "return a - b")])
    it.merge()
    it.conflicts("f: unverified")


def marked(it):
    it.branches(LINES, [("a * 3", "a * 4")], [("a * 3", "a * 5")])
    (it.folder / ".gitattributes").write_text("*.c merge=c conflict-marker-size=12\n")
    it.git("commit", "-q", "-a", "-m", "longer")
    it.merge()
    text = it.file()
    expect("\n" + "<" * 12 + " ours\nlong f" in text and "\n" + "=" * 12 + "\n" in text and "\n" + ">" * 12 + " theirs\n" in text, text)
    it.conflicts("f: not merged: the two changes interfere")


def outside_functions(it):
    it.branches(LINES, [("long g;", "long g = 1;"), ("a * 3", "a * 4")], [("long g;", "long g = 2;")])
    it.merge()
    it.conflicts()


def two_functions(it):
    """One function is written, and the other left to a person."""
    it.branches(BASE + LINES, [*ODD, ("a * 3", "a * 4")], [*MOST, ("a * 3", "a * 5")])
    it.merge()
    expect(BOTH in it.file(), it.file())
    expect(it.status == 1 and "<<<<<<< ours\nlong f" in it.file(), it.file())
    it.says("f: not merged")
    it.git("merge", "--abort")


def refused(it):
    base = LINES.replace("long f", "long *p;\nlong f").replace("return", "p = &g;\n    return")
    it.branches(base, [("long a = n", "long a = n + 1")], [("return a + b", "return a - b")])
    it.merge()
    it.says("f.c: f: unchecked: ")
    it.is_merged("n + 1", "a - b")


def refused_and_in_conflict(it):
    it.branches(LINES.replace("g = b", "p = &g, g = b").replace("long f", "long *p;\nlong f"), [("a * 3", "a * 4")], [("a * 3", "a * 5")])
    it.merge()
    expect("<<<<<<< ours\n    a = a * 4;\n=======\n    a = a * 5;\n>>>>>>> theirs\n" in it.file(), it.file())
    it.conflicts("f: unchecked: ")


def no_compile(it):
    it.branches(LINES, [("long a = n;", "long a = n")], [("return a + b", "return a - b")])
    it.merge()
    it.says("f.c: unchecked: clang: ")
    it.is_merged("long a = n\n", "a - b")


def no_header(it):
    it.branches('#include "own.h"\n' + LINES, [("long a = n", "long a = n + 1")], [("return a + b", "return a - b")])
    it.merge()
    it.says("f.c: unchecked: clang: ", "'own.h' file not found")
    it.is_merged("n + 1", "a - b")


def header_by_option(it):
    (it.folder / "include").mkdir()
    (it.folder / "include" / "own.h").write_text("#define THREE 3\n")
    it.git("config", "c-merge.options", "-I include -DFOUR=4")
    it.branches('#include "own.h"\n' + LINES.replace("3", "THREE"), [("return a + b", "return a + FOUR")], [("long a = n", "long a = n + FOUR")])
    it.merge()
    it.says("f.c: f: unverified")


def header_beside_it(it):
    it.name = "d/f.c"
    (it.folder / "d").mkdir()
    (it.folder / "d" / "own.h").write_text("#define THREE 3\n")
    it.branches('#include "own.h"\n' + LINES.replace("3", "THREE"), [("long b = 2", "long b = 3")], [("return a + b", "return a - b")])
    it.merge()
    it.says("d/f.c: f: unverified")


def no_clang(it):
    it.environment["CLANG"] = "/nowhere/clang"
    it.branches(LINES, [("long a = n", "long a = n + 1")], [("return a + b", "return a - b")])
    it.merge()
    it.says("f.c: unchecked: /nowhere/clang can't be run")
    it.is_merged("n + 1", "a - b")


def no_clang_and_in_conflict(it):
    it.environment["CLANG"] = "/nowhere/clang"
    it.branches(BASE, ODD, MOST)
    it.merge()
    it.conflicts("unchecked: /nowhere/clang can't be run")


def no_hpr(it):
    it.environment["HPR"] = "/nowhere/hpr"
    it.branches(LINES, [("long a = n", "long a = n + 1")], [("return a + b", "return a - b")])
    it.merge()
    it.says("unchecked: hpr can't be run")
    it.is_merged("n + 1", "a - b")


def not_built(it):
    it.stub("exit 70")
    it.branches(BASE, ODD, MOST)
    it.merge()
    it.conflicts("unchecked: hpr isn't built")


def other_program(it):
    """A status alone is no answer of hpr."""
    it.stub("exit 0")
    it.branches(LINES, [("long a = n", "long a = n + 1")], [("return a + b", "return a - b")])
    it.merge()
    it.says("unchecked: hpr can't be run")


def killed(it):
    it.stub("kill -9 $PPID")
    it.branches(BASE, ODD, MOST)
    it.merge()
    it.conflicts()


def interrupted(it):
    begun = it.folder.parent / "begun"
    it.stub(f"echo >'{begun}'; sleep 60")
    it.branches(BASE, ODD, MOST)
    it.before = it.file()
    with subprocess.Popen(["git", "merge", "-q", "theirs"], cwd=it.folder, env=it.environment, stderr=subprocess.DEVNULL, start_new_session=True) as merging:
        for _ in range(300):
            if begun.exists():
                break
            time.sleep(0.1)
        expect(begun.exists(), "the driver hasn't begun")
        os.killpg(merging.pid, 15)
    expect(it.file() == it.before, "what was there is changed")


def wrong_words(it):
    it.git("config", "merge.c.driver", f"'{TOOL}/merge' %O %A")
    it.branches(BASE, ODD, MOST)
    it.merge()
    expect(it.status not in (0, 1) and it.file() == it.before and not it.git("status", "--porcelain"), f"status {it.status}: {it.said}")


def no_room(it):
    """No file can be written: git stops, and nothing is changed."""
    it.git("config", "merge.c.driver", f"ulimit -f 0; '{TOOL}/merge' %O %A %B %L %P")
    it.branches(BASE, ODD, MOST)
    it.merge()
    said = it.said
    expect(it.status not in (0, 1) and it.file() == it.before and not it.git("status", "--porcelain"), f"status {it.status}: {said}")
    expect("merge: " in said, said)


def strange_name_and_bytes(it):
    it.name = "d e/-$(x) '&.c"
    it.branches(LINES.replace("long f", "/* caf\xe9 */\r\nlong f"), [("long b = 2", "long b = 2 /* \xe9 */")], [("a * 3", "a * 4")])
    it.merge()
    it.is_merged("caf\xe9 */\r\n", "2 /* \xe9 */", "a * 4")


def rebased(it):
    it.branches(BASE, ODD, MOST)
    it.git("rebase", "-q", "theirs")
    it.is_merged("    long sum = 0;\n    int most = 0; // of those seen\n    long odd = 0;\n", "    most_seen = most;\n    printf")


def no_base(it):
    """Both sides add the file."""
    (it.folder / "other").write_text("other\n")
    it.git("add", "-A")
    it.git("commit", "-q", "-m", "base")
    it.git("checkout", "-q", "-b", "theirs")
    it.base, it.theirs, it.ours = "", replaced(LINES, [("a * 3", "a * 5")]), LINES
    it.commit(it.theirs, "theirs")
    it.git("checkout", "-q", "ours")
    it.commit(it.ours, "ours")
    it.merge()
    it.conflicts()


def reviewed(it):
    """Statuses of `review` on files."""
    texts = {"O": LINES, "A": replaced(LINES, [("long b = 2", "long b = 3")]), "B": replaced(LINES, [("a * 3", "a * 4")])}
    texts |= {"M": replaced(texts["A"], [("a * 3", "a * 4"), ("return a + b", "return a - b")]), "W": "long f(", "S": LINES.replace("return a + b", "return a")}
    for name, text in texts.items():
        (it.folder / name).write_text(text)
    rows = [("O A O A", 0, "kept 1, unverified 0"), ("O A B A", 1, "f: unverified: "), ("O A A M", 1, "it isn't what ours has")]
    rows += [("O A B W", 0, "unchecked: clang"), ("O A B", 2, "usage: "), ("O A B nowhere", 2, "nowhere"), ("--commits nowhere", 2, "nowhere")]
    for words, wanted, said in rows:
        ran = subprocess.run([TOOL / "review", *words.split()], cwd=it.folder, env=it.environment, capture_output=True, text=True, check=False)
        expect(ran.returncode == wanted and said in ran.stdout + ran.stderr, f"review {words}: status {ran.returncode}: {ran.stdout}{ran.stderr}")


def reviewed_headers(it):
    """A header that one side changes and a function that the other changes: each commit has its own headers."""
    (it.folder / "own.h").write_text("#define THREE 3\n")
    it.commit('#include "own.h"\n' + LINES.replace("3", "THREE"), "base")
    base = it.file()
    it.git("checkout", "-q", "-b", "theirs")
    (it.folder / "own.h").write_text("#define THREE 33\n")
    it.git("commit", "-q", "-a", "-m", "theirs")
    it.git("checkout", "-q", "ours")
    it.commit(replaced(base, [("return a + b", "return a - b")]), "ours")
    it.merge()
    it.is_merged()
    ran = subprocess.run([TOOL / "review", "--commits"], cwd=it.folder, env=it.environment, capture_output=True, text=True, check=False)
    expect(ran.returncode == 1 and "f: unverified: the two changes interfere" in ran.stdout, ran.stdout + ran.stderr)


CASES = [
    written, verified, unverified, unverified_strict, marked, outside_functions, two_functions, refused, refused_and_in_conflict, no_compile, no_header,
    header_by_option, header_beside_it, no_clang, no_clang_and_in_conflict, no_hpr, not_built, other_program, killed, interrupted, wrong_words,
    no_room, strange_name_and_bytes, rebased, no_base, reviewed, reviewed_headers,
]


def try_case(number):
    """What a case finds wrong."""
    with tempfile.TemporaryDirectory() as folder:
        try:
            CASES[number](Repository(folder))
        except Wrong as why:
            return f"{CASES[number].__name__}: {why}"
    return None
