"""The merge of three texts of C: by lines, and where lines conflict by functions, with what is to be said of it."""
import pathlib
import subprocess
import tempfile
from typing import NamedTuple

from align import tags_of
from parts import Failed, Refused, Spelling, Unit, ask, judged, judged_function
from print_back import Printer
from telling import Places, conflicts, sentences, shortened

MARK = "@@c-merge: {}@@"
WHY = {1: "the two changes interfere", 2: "no program has the merged graph", 3: "the tries are spent, and git config hpr.tries allows more"}


class Settings(NamedTuple):
    """How it is to be merged: the size of markers, words for clang and for git, and how many tries hpr has."""

    size: int = 7
    options: tuple = ()
    style: str = ""
    tries: str = ""
    is_strict: bool = False


class Merged(NamedTuple):
    """The text that comes of a merge, whether something in it is left to a person, and what is said."""

    text: str
    has_conflicts: bool
    said: list


def merge_lines(texts, settings):
    """git's merge of the lines of base, ours and theirs, and whether it is clean."""
    with tempfile.TemporaryDirectory() as folder:
        for name, text in zip(("base", "ours", "theirs"), texts):
            (pathlib.Path(folder) / name).write_text(text, encoding="latin-1", newline="")
        style = [f"--{settings.style}"] if settings.style in ("diff3", "zdiff3") else []
        words = ["git", "merge-file", "-p", "-q", f"--marker-size={settings.size}", *style, "-L", "ours", "-L", "base", "-L", "theirs"]
        ran = subprocess.run([*words, "ours", "base", "theirs"], cwd=folder, capture_output=True, check=False)
    if ran.returncode > 127:
        raise Failed(f"git can't merge the lines: {ran.stderr.decode(errors='replace').strip()}")
    return ran.returncode == 0, ran.stdout.decode("latin-1")


def both_versions(texts, settings):
    """Both whole versions between git's markers."""
    base, ours, theirs = (it if it.endswith("\n") or not it else it + "\n" for it in texts)
    middle = "|" * settings.size + " base\n" + base if settings.style in ("diff3", "zdiff3") else ""
    return f"{'<' * settings.size} ours\n{ours}{middle}{'=' * settings.size}\n{theirs}{'>' * settings.size} theirs\n"


def merge_texts(texts, settings):
    """The merge of the texts of base, ours and theirs."""
    is_clean, lines = merge_lines(texts, settings)
    try:
        units = [Unit(it, settings.options).read() for it in texts]
        return checked_lines(units, lines, settings) if is_clean else merge_functions(units, lines, settings)
    except (Refused, Failed, RecursionError) as why:
        return Merged(lines, not is_clean, [f"unchecked: {why}"])


# ---- lines that merge


def checked_lines(units, lines, settings):
    """git's clean merge, with what is said of its functions; to be strict, those that aren't verified are a conflict."""
    merged = Unit(lines, settings.options).read()
    said, wrong = [], []
    for verdict in judged(*units, merged, tags_of):
        versions = versions_of(verdict.name, [*units, merged])
        said += sentences(verdict, versions, tags_of)
        if verdict.outcome == "unverified" and None not in versions[1:]:
            wrong.append(versions[1:])
    if not settings.is_strict or not any(": unverified: " in it for it in said):
        return Merged(lines, False, said)
    text = lines
    for ours, theirs, its in sorted(wrong, key=lambda it: -it[2].begin):
        base = units[0].functions.get(its.name)
        block = both_versions([body(base) if base else "", body(ours), body(theirs)], settings)
        text = text[: its.begin] + "\n" * (text[: its.begin][-1:] not in ("", "\n")) + block + text[its.end :].removeprefix("\n")
    if text == lines:
        text = both_versions([it.text for it in units], settings)
    return Merged(text, True, said)


def versions_of(name, units):
    return [it.functions.get(name) for it in units]


def body(function):
    return function.unit.text[function.begin : function.end]


# ---- lines that conflict


class Resolution:
    """What becomes of a function that both versions change."""

    def __init__(self, versions, settings):
        self.versions, self.settings = versions, settings
        self.text, self.printer, self.said = None, None, []

    def find(self):
        """Lines where the function isn't looked at; else what hpr merges, printed."""
        name = self.versions[0].name
        refused = next((it.refused for it in self.versions if it.refused), None)
        if refused:
            is_clean, lines = merge_lines([body(it) for it in self.versions], self.settings)
            self.said = [f"{name}: unchecked: {refused}"]
            self.text = lines.rstrip("\n") if is_clean else None
        else:
            self.integrate(name)
        return self

    def integrate(self, name):
        tables, spelling = tags_of(*self.versions), Spelling(self.versions)
        texts = {letter: spelling.program(it, tags) for letter, it, tags in zip("OAB", self.versions, tables)}
        tries = ["--tries", self.settings.tries] if self.settings.tries else []
        status, said = ask(["integrate", *"OAB", *tries], texts)
        places = Places(("base", "ours", "theirs"), self.versions, tables, spelling)
        if status:
            why = shortened([WHY.get(status, f"hpr takes no such program: {said.strip()}"), *conflicts(said, places)])
            self.said = [f"{name}: not merged: {why[0]}", *("  " + it for it in why[1:])]
            return
        try:
            self.printer = Printer(said, spelling, self.versions, tables)
            self.text = self.printer.function()
        except Refused as why:
            self.reject(str(why))

    def reject(self, why):
        """The printed text isn't taken."""
        self.text, self.said = None, [f"{self.versions[0].name}: not merged: hpr merges the changes, and they can't be written as C: {why}"]

    def tags_of(self, base, a, b, merged):
        return [*self.printer.tables.values(), self.printer.tags(merged)]

    def is_kept(self, merged):
        """Whether the printed text, read in its file, is verified: by the tags of the print, or by those that are guessed."""
        versions = [*self.versions, merged]
        return any(judged_function(merged.name, versions, it).outcome == "kept" for it in (self.tags_of, tags_of))

    def left(self):
        """What a person is to resolve: both whole functions; of one that isn't looked at, the lines that conflict."""
        texts = [body(it) for it in self.versions]
        if any(it.refused for it in self.versions):
            return merge_lines([it + "\n" for it in texts], self.settings)[1].rstrip("\n")
        return both_versions(texts, self.settings).rstrip("\n")


def merge_functions(units, lines, settings):
    """The merge function by function, where lines conflict in functions alone; else git's lines with their conflicts."""
    names = changed_by_both(units)
    found = {name: Resolution(versions_of(name, units), settings).find() for name in names}
    is_clean, frame = merge_lines([without(it, names) for it in units], settings)
    said = [it for one in found.values() for it in one.said]
    if not is_clean or any(MARK.format(it) not in frame for it in names):
        return Merged(lines, True, said)
    try:
        merged = verified(found, units, frame, settings)
    except Refused as why:
        return Merged(lines, True, [*said, f"not merged: the functions, put together, don't compile: {why}"])
    resolved = {name: it.text for name, it in found.items() if it.text is not None}
    left = {name: it.left() for name, it in found.items() if it.text is None}
    others = [it for it in judged(*units, merged, tags_of) if it.name not in names]
    said = [it for one in found.values() for it in one.said] + [
        it for verdict in others for it in sentences(verdict, versions_of(verdict.name, [*units, merged]), tags_of)
    ]
    is_left = bool(left) or settings.is_strict and any(it.outcome == "unverified" for it in others)
    if is_left and not left:
        return Merged(both_versions([it.text for it in units], settings), True, said)
    return Merged(filled(frame, {**resolved, **left}), is_left, said)


def verified(found, units, frame, settings):
    """The merged file, with ours for what is left to a person; printed functions that aren't verified in it are left too."""
    while True:
        texts = {name: body(it.versions[1]) if it.text is None else it.text for name, it in found.items()}
        merged = Unit(filled(frame, texts), settings.options).read()
        wrong = [it for name, it in found.items() if it.text is not None and it.printer and not it.is_kept(merged.functions[name])]
        if not wrong:
            return merged
        for it in wrong:
            it.reject("the text that was written isn't verified")


def changed_by_both(units):
    names = []
    for name in units[0].functions:
        versions = versions_of(name, units)
        if None not in versions and len({body(it) for it in versions}) == 3:
            names.append(name)
    return names


def without(unit, names):
    """The file with a mark in place of each of these functions."""
    text = unit.text
    for it in sorted(unit.functions.values(), key=lambda it: -it.begin):
        if it.name in names:
            text = text[: it.begin] + MARK.format(it.name) + text[it.end :]
    return text


def filled(frame, texts):
    for name, text in texts.items():
        frame = frame.replace(MARK.format(name), text)
    return frame
