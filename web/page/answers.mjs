/**
 * What hpr prints, as data. Its texts are fixed; each reader here takes one of them.
 *
 * @typedef {{kind: 'control' | 'flow' | 'carried' | 'order', from: string, to: string, name?: string, label?: string, by?: string}} Edge
 *   `from`, `to` and `by` are texts of vertices without their brackets; `by` is the loop of a carried edge, or the use of an order edge
 * @typedef {{side: number, point: string, edge: Edge}} Conflict `side` is the number of the variant, from 0
 */

/** The parts of a line that stand in outermost brackets, and what stands between them. */
function bracketed(line) {
  const inside = [];
  const between = [''];
  let depth = 0;
  let from = 0;
  for (let i = 0; i < line.length; i++) {
    if (line[i] === '[' && depth++ === 0) {
      from = i + 1;
    } else if (line[i] === ']' && --depth === 0) {
      inside.push(line.slice(from, i));
      between.push('');
    } else if (depth === 0) {
      between[between.length - 1] += line[i];
    }
  }
  return { inside, between };
}

/** The number of a variant by what hpr calls it: A, B, or V1 and so on. */
function sideOf(word) {
  return word === 'A' ? 0 : word === 'B' ? 1 : Number(word.slice(1)) - 1;
}

/** A conflict from its line: SIDE [POINT]: KIND .. [FROM] -> [TO] .. [BY] */
function conflictOf(line) {
  const { inside, between } = bracketed(line);
  // a name of an array has brackets of its own: flow a[] [..] -> [..]
  const isArray = inside[1] === '';
  const [point, ...ends] = isArray ? [inside[0], ...inside.slice(2)] : inside;
  const [kind, word = ''] = between[1].replace(/^:/, '').trim().split(' ');
  const edge = { kind, from: ends[0], to: ends[1] };
  if (kind === 'control') {
    edge.label = word;
  } else if (kind !== 'order') {
    edge.name = word + (isArray ? '[]' : '');
  }
  if (ends.length > 2) {
    edge.by = ends[2];
  }
  return { side: sideOf(between[0].trim()), point, edge };
}

/**
 * The conflicts that `integrate` printed.
 *
 * @param {string} text
 * @returns {Conflict[]}
 */
export function conflictsOf(text) {
  return text.split('\n').slice(1).filter(Boolean).map(conflictOf);
}

/** The points that `affected` printed. */
export function affectedOf(text) {
  return text.split('\n').slice(1).filter(Boolean).map((line) => line.slice(1, -1));
}

/** The vertices of the graph that `slice` printed. */
export function verticesOf(text) {
  const lines = text.split('\n');
  const count = Number(lines[0].split(' ')[1]);
  return lines.slice(1, count + 1).map((line) => line.slice(1, -1));
}

/**
 * The graph that `graph --json` printed, its edges with texts of vertices.
 *
 * @returns {{vertices: string[], edges: Edge[]}}
 */
export function graphOf(text) {
  const { vertices, edges } = JSON.parse(text);
  const at = (number) => (number === undefined ? undefined : vertices[number]);
  return {
    vertices,
    edges: edges.map((it) => ({
      kind: it.kind,
      from: vertices[it.from],
      to: vertices[it.to],
      name: it.name,
      label: it.label === undefined ? undefined : String(it.label),
      by: at(it.loop ?? it.for),
    })),
  };
}

/** What a vertex is, from its text: a part with its tag, or another vertex with its name. */
export function vertexOf(text) {
  const part = /^(\d+\.\d+) (.*)$/s.exec(text);
  if (part) {
    return { tag: part[1], content: part[2] };
  }
  const [kind, name] = text.split(' ');
  return { kind, name };
}

/** The word by which `slice` is told a vertex. */
export function pointWord(text) {
  const vertex = vertexOf(text);
  return vertex.tag ?? (vertex.name === undefined ? vertex.kind : `${vertex.kind}:${vertex.name}`);
}

/** What a refusal is of, from its line: the file, why, and the byte where there is one. */
export function refusalOf(text) {
  const match = /^hpr: ([^:]+): (.*)\n?$/.exec(text);
  const byte = match && /^syntax at byte (\d+)$/.exec(match[2]);
  return match && { file: match[1], why: match[2], byte: byte ? Number(byte[1]) : null };
}

/**
 * The steps that `run --trace` printed, and how the run went.
 *
 * @returns {{steps: {tag: string, turns: string, value: string}[], outcome: string}}
 */
export function traceOf(text) {
  const steps = [];
  const lines = text.split('\n');
  let at = 0;
  for (; at < lines.length; at++) {
    const match = /^(\d+\.\d+) \[([\d,]*)\] (-?\d+)$/.exec(lines[at]);
    if (!match) {
      break;
    }
    steps.push({ tag: match[1], turns: match[2], value: match[3] });
  }
  return { steps, outcome: lines.slice(at).join('\n') };
}

/** How a run went: its first line, and the final values by name. */
export function outcomeOf(text) {
  const [how = '', ...lines] = text.trimEnd().split('\n');
  const values = new Map();
  for (const line of lines) {
    const at = line.indexOf(' = ');
    values.set(line.slice(0, at), line.slice(at + 3));
  }
  return { how, values };
}

/** The vertices on a shortest way in a graph from one vertex to another, both with them; none where there is no way. */
export function wayBetween(graph, from, to) {
  const next = new Map();
  const step = (source, target) => next.set(source, [...(next.get(source) ?? []), target]);
  for (const edge of graph.edges) {
    // an order edge counts at the use that both definitions reach
    step(edge.from, edge.kind === 'order' ? edge.by : edge.to);
    if (edge.kind === 'order') {
      step(edge.to, edge.by);
    }
  }
  const before = new Map([[from, null]]);
  const open = [from];
  for (const vertex of open) {
    for (const target of next.get(vertex) ?? []) {
      if (!before.has(target)) {
        before.set(target, vertex);
        open.push(target);
      }
    }
  }
  const way = [];
  for (let at = before.has(to) ? to : null; at !== null; at = before.get(at)) {
    way.unshift(at);
  }
  return way;
}
