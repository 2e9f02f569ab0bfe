"""Dependence graphs as texts for Graphviz: what examples/look/dot and examples/look/conflict share.

A vertex is its text, as the JSON of a graph has it. An edge has its kind and its ends, the name that flows, the loop that
carries it or the use that it is for, and the branch of a control edge.
"""
import collections
import json
import re

Graph = collections.namedtuple("Graph", "vertices edges")
Edge = collections.namedtuple("Edge", "kind source target name via branch")
VERTEX = re.compile(r"(entry$|(init|final) |\d+\.\d+ )")

# control edges pull their ends together the most, so that what a part decides stands below it
LOOKS = {
    "control": 'weight="4"',
    "flow": 'color="blue" fontcolor="blue" weight="1"',
    "carried": 'color="blue" fontcolor="blue" style="dashed" weight="1"',
    "order": 'color="gray70" fontcolor="gray55" style="dotted" arrowsize="0.6" weight="0"',
}


def graph_of(text):
    """The graph of a JSON text, as `hpr graph FILE --json` prints it, or None where it is none."""
    try:
        read = json.loads(text)
        texts = read["vertices"]
        named = lambda member, edge: texts[edge[member]] if member in edge else ""
        edges = frozenset(
            Edge(edge["kind"], texts[edge["from"]], texts[edge["to"]], edge.get("name", ""),
                 named("loop", edge) or named("for", edge), edge.get("label", True))
            for edge in read["edges"]
        )
        known = all(VERTEX.match(vertex) for vertex in texts) and all(edge.kind in LOOKS for edge in edges)
        return Graph(frozenset(texts), edges) if known else None
    except (ValueError, LookupError, TypeError, AttributeError):
        return None


def without_order(graph):
    return Graph(graph.vertices, frozenset(edge for edge in graph.edges if edge.kind != "order"))


# ---- from top to bottom


def tag_of(vertex):
    """The tag of a part, or nothing for another vertex."""
    return (re.match(r"\d+\.\d+", vertex) or [""])[0]


def tags_of(program):
    """The tags of the parts, in the order of the program's text."""
    return [f"{author}.{serial}" for author, serial in re.findall(r"(\d+)\s*\.\s*(\d+)\s*:", re.sub("#.*", " ", program))]


def tags_by_number(graph):
    tags = {tag_of(vertex) for vertex in graph.vertices} - {""}
    return sorted(tags, key=lambda tag: [int(number) for number in tag.split(".")])


def rows(graph, tags):
    """The vertices from top to bottom: the entry, initial definitions, the parts in the order of these tags, and finals."""
    place = {**{tag: at for at, tag in enumerate(tags, 2)}, "entry": 0, "init": 1, "final": len(tags) + 2}
    found = collections.defaultdict(list)
    for vertex in sorted(graph.vertices):
        found[place[vertex.split(" ")[0]]].append(vertex)
    return [found[at] for at in sorted(found)]


# ---- the text


def quoted(text):
    return '"' + text.replace("\\", "\\\\").replace('"', '\\"') + '"'


def label(edge, vias):
    """What stands beside an edge, with the loops that carry it or the uses that it is for."""
    listed = ", ".join(tag_of(via) or via for via in vias)
    texts = {"control": "" if edge.branch else "false", "flow": edge.name, "carried": f"{edge.name} by {listed}", "order": f"for {listed}"}
    text = texts[edge.kind]
    return f"label={quoted(' ' + text)} " if text else ""


def joined(edges):
    """Edges of one kind between the same two vertices, which are drawn as one."""
    found = collections.defaultdict(list)
    for edge in sorted(edges):
        found[edge._replace(via="")].append(edge.via)
    return found.items()


def lines_of(graph, tags, prefix="v", vertex_look=lambda vertex: "", edge_look=lambda edge: ""):
    """The lines of a graph: a row of vertices below the other, and the edges. `prefix` begins the names of its vertices."""
    ordered = rows(graph, tags)
    names = {vertex: f"{prefix}{at}" for at, vertex in enumerate(vertex for row in ordered for vertex in row)}
    places = {vertex: at for at, row in enumerate(ordered) for vertex in row}
    for vertex, name in names.items():
        yield f"  {name} [label={quoted(vertex)}{vertex_look(vertex)}]"
    for row in ordered:
        yield "  {rank=same; " + "; ".join(names[vertex] for vertex in row) + "}"
    for upper, lower in zip(ordered, ordered[1:]):
        yield f'  {names[upper[0]]} -> {names[lower[0]]} [style="invis" weight="0"]'
    for edge, vias in joined(graph.edges):
        looks = label(edge, vias) + LOOKS[edge.kind] + edge_look(edge)
        # Graphviz puts what an arrow leaves above what it goes to; an edge that goes up is therefore written the other way round
        if places[edge.source] <= places[edge.target]:
            yield f"  {names[edge.source]} -> {names[edge.target]} [{looks}]"
        else:
            yield f'  {names[edge.target]} -> {names[edge.source]} [{looks} dir="back"]'


def text_of(lines):
    """The text for Graphviz with these lines."""
    looks = ['  node [shape="box" fontname="monospace" fontsize="11" height="0.3"]', '  edge [fontname="monospace" fontsize="9"]']
    return "".join(f"{line}\n" for line in ["digraph {", *looks, *lines, "}"])
