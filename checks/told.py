"""What hpr and hprkit tell as data, turned back into hpr's lines, and where the parts of a text stand, for embed_data.py and kit."""
import json
import re

import definitions


# ---- lines
def words_of(one):
    said = {"entry": "entry", "part": "{tag} {content}"}.get(one["kind"], "{kind} {name}")
    return said.format(**one)


def vertex(one):
    """A vertex as it stands in lines; what is such a text already stays."""
    return one if isinstance(one, str) else f"[{words_of(one)}]"


def edge(one):
    way = f"{vertex(one['from'])} -> {vertex(one['to'])}"
    if one["kind"] == "control":
        return f"control {str(one['label']).lower()} {way}"
    if one["kind"] == "flow":
        return f"flow {one['name']} {way}"
    if one["kind"] == "carried":
        return f"carried {one['name']} {way} by {vertex(one['loop'])}"
    return f"order {way} for {vertex(one['for'])}"


def conflict(one, is_many):
    side = f"V{one['variant']}" if is_many else " AB"[one["variant"]]
    return f"{side} {vertex(one['point'])}: {edge(one['edge'])}"


def listed(word, lines):
    lines = list(lines)
    return [f"{word} {len(lines)}", *lines]


def compact(found):
    return json.dumps(found, sort_keys=True, separators=(",", ":"), ensure_ascii=False)


def graph(vertices, edges, is_json):
    if is_json:
        return [compact({"edges": edges, "vertices": list(map(words_of, vertices))})]
    texts = list(map(vertex, vertices))
    ends = ({end: texts[one[end]] for end in ("from", "to", "loop", "for") if end in one} for one in edges)
    return [*listed("vertices", texts), *listed("edges", [edge(one | at) for one, at in zip(edges, ends)])]


def parsed(text):
    found = json.loads(text)
    if compact(found).encode() + b"\n" != text:
        raise ValueError("the JSON isn't compact, or its members stand in another order")
    return found


# ---- places
class Placed(definitions.Reader):
    """Reads a program, and notes where its parts stand. A character is a byte."""

    def __init__(self, data):
        text = re.sub(r"#[^\n]*", lambda found: " " * len(found[0]), data.decode("latin-1"))
        found = list(re.finditer(r"[A-Za-z_][A-Za-z_0-9]*|\d+|:=|<>|<=|>=|[^ \t\r\n]", text))
        self.tokens, self.at = [one[0] for one in found], 0
        self.spans, self.places = [one.span() for one in found], []

    def part(self):
        at, first = len(self.places), self.at
        self.places.append({})
        part = super().part()
        byte = self.spans[first][0]
        self.places[at] = {"byte": byte, "length": self.spans[self.at - 1][1] - byte, "tag": definitions.tag_text(part.tag)}
        return part


def places_of(data):
    reader = Placed(data)
    reader.program()
    return reader.places
