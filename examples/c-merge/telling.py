"""What is said of verdicts: sentences, with the lines of the sources that they are of."""
import json
import re

from parts import Spelling, all_parts, ask, begin_of

# of one function so many conflicts are told
MOST = 4


class Places:
    """Where the points of hpr's graphs stand in the sources."""

    def __init__(self, names, versions, tables, spelling):
        self.found, self.roots = {}, {}
        for name, version, tags in zip(names, versions, tables):
            for part in all_parts(version.parts):
                self.found.setdefault(f"{tags[part]} {spelling.content(part)}", {})[name] = line_of(version, part)
        for variable, number in spelling.names.items():
            self.roots[f"v{number}"] = said_of(variable)

    def of(self, point, *names):
        """A point as a person knows it: the version, by preference one of these, its line and the text of it."""
        if point.startswith(("final ", "init ")):
            kind, name = point.split()
            return self.roots[name] + (" at the end" if kind == "final" else " at first")
        found = self.found.get(point)
        if found is None:
            return point
        name = next((it for it in names if it in found), next(iter(found)))
        return f"{name} {found[name]}"

    def lacks(self, name, point):
        """Whether a point is a part that this version hasn't."""
        return name not in self.found.get(point, {name: ""})


def line_of(function, part):
    """The number of a part's line, and its text."""
    text, at = function.unit.text, begin_of(part.node)
    number = text.count("\n", 0, at)
    return f"{number + 1} `{' '.join(text.splitlines()[number].split())}`"


def said_of(variable):
    kind, *more = variable
    if kind == "own":
        return {"returns": "the result", "output": "what is written"}.get(more[0], "an exit")
    if kind == "memory":
        return "what pointers reach"
    return ".".join([more[0], *(it.name for it in more[2:])])


def conflicts(text, places):
    """Sentences of the conflicts that hpr lists: on which parts of the other version a changed point would depend, each once; and behind these
    the edges between parts that both versions have."""
    parts, edges = {}, {}
    for side, point, name, source, target in re.findall(r"^(A|B) \[(.+?)\]: \w+(?: (?:true|false))?(?: (v\d+))? ?\[(.+?)\] -> \[(.+?)\]", text, re.M):
        own, other = ("ours", "theirs") if side == "A" else ("theirs", "ours")
        head = f"{places.of(point, own)} would also depend on"
        foreign = next((it for it in (source, target) if places.lacks(own, it)), None)
        if foreign:
            parts.setdefault((side, foreign), f"{head} {places.of(foreign, other)}")
        else:
            by = f", by {places.roots[name]}" if name in places.roots else ""
            edges.setdefault((side, source, target), f"{head} {places.of(source, other)} -> {places.of(target, other)}{by}")
    return [*parts.values(), *edges.values()]


def why_not(verdict, versions, tags_of):
    """Sentences why hpr doesn't verify a merged function."""
    tables = tags_of(*versions)
    spelling = Spelling(versions)
    texts = {letter: spelling.program(version, tags) for letter, version, tags in zip("OABM", versions, tables)}
    places = Places(("base", "ours", "theirs", "merge"), versions, tables, spelling)
    status, said = ask(["integrate", *"OAB"], {letter: texts[letter] for letter in "OAB"})
    if status == 1:
        return shortened(["the two changes interfere", *conflicts(said, places)])
    told = json.loads(verdict.details)
    points = [told["vertex"]] if "vertex" in told else re.findall(r"\[(.+?)\]", told["edge"])
    where = " -> ".join(places.of(it, "merge", "ours", "theirs") for it in points)
    return [f"the merge {'lacks' if told['holder'] == 'merged' else 'has, and no version asks for it,'} {where}"]


def shortened(sentences):
    left = len(sentences) - 1 - MOST
    return sentences[: MOST + 1] + ([f"and {left} more"] if left > 0 else [])


def sentences(verdict, versions, tags_of):
    """What is said of a function: nothing where it is kept."""
    if verdict.outcome == "kept":
        return []
    said = [verdict.why] if verdict.why else why_not(verdict, versions, tags_of)
    return [f"{verdict.name}: {verdict.outcome}: {said[0]}", *("  " + it for it in said[1:])]
