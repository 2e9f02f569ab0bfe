/** A dependence graph as a picture: boxes for vertices, lines for edges. */
import { escaped } from './editor.mjs';
import { vertexOf } from './answers.mjs';

/** Above so many vertices a graph is not drawn: its slices are. */
export const MOST_DRAWN = 120;
const MOST_NAMED = 45;
const LETTER = 7.3;
const MOST_LETTERS = 40;
const WEIGHTS = { control: 2, flow: 3, carried: 1, order: 1 };

const shortened = (text) => (text.length > MOST_LETTERS ? `${text.slice(0, MOST_LETTERS - 1)}…` : text);

/** What an edge says, in a line. */
export function edgeText(edge) {
  const what = { control: edge.label, flow: edge.name, carried: edge.name }[edge.kind];
  const by = { carried: `, carried by ${edge.by}`, order: `, both reach ${edge.by}` }[edge.kind] ?? '';
  return `${edge.kind}${what === undefined ? '' : ` ${what}`}: ${edge.from} → ${edge.to}${by}`;
}

/** The part of a graph that is drawn: without what is hidden, and without ends that are left alone. */
export function visible(graph, hidden) {
  const vertices = graph.vertices.filter((it) => !(hidden.has('entry') && it === 'entry'));
  const has = new Set(vertices);
  const edges = graph.edges.filter((it) => !hidden.has(it.kind) && has.has(it.from) && has.has(it.to));
  return { vertices, edges };
}

/** A line through points, with rounded corners. */
function pathOf(points) {
  const [first, ...rest] = points;
  let path = `M${first.x.toFixed(1)},${first.y.toFixed(1)}`;
  rest.slice(0, -1).forEach((point, i) => {
    const next = rest[i + 1];
    path += ` Q${point.x.toFixed(1)},${point.y.toFixed(1)} ${((point.x + next.x) / 2).toFixed(1)},${((point.y + next.y) / 2).toFixed(1)}`;
  });
  const last = rest.at(-1) ?? first;
  return `${path} L${last.x.toFixed(1)},${last.y.toFixed(1)}`;
}

function boxSvg(vertex, size, place, classes, number) {
  const isPart = vertexOf(vertex).tag !== undefined;
  const left = place.x - size.width / 2;
  const top = place.y - size.height / 2;
  return (
    `<g class="vertex ${classes}" data-vertex="${escaped(vertex)}" data-number="${number}"><title>${escaped(vertex)}</title>` +
    `<rect x="${left.toFixed(1)}" y="${top.toFixed(1)}" width="${size.width.toFixed(1)}" height="${size.height}" rx="${isPart ? 4 : 11}"/>` +
    `<text x="${place.x.toFixed(1)}" y="${(place.y + 4).toFixed(1)}">${escaped(shortened(vertex))}</text></g>`
  );
}

function lineSvg(edge, points, isNamed) {
  const middle = points[Math.floor(points.length / 2)];
  const name = isNamed && edge.name ? `<text class="name" x="${(middle.x + 4).toFixed(1)}" y="${middle.y.toFixed(1)}">${escaped(edge.name)}</text>` : '';
  return `<g class="edge ${edge.kind}${edge.isAdded ? ' added' : ''}"><title>${escaped(edgeText(edge))}</title><path marker-end="url(#arrow)" d="${pathOf(points)}"/>${name}</g>`;
}

/**
 * Draws a graph.
 *
 * @param {{vertices: string[], edges: import('./answers.mjs').Edge[]}} graph
 * @param {(graph: object) => Promise<object>} layout where boxes and lines go
 * @param {(vertex: string) => string} classesOf the classes of a vertex
 * @returns {Promise<string>} a picture as SVG
 */
export async function drawn(graph, layout, classesOf) {
  const numbers = new Map(graph.vertices.map((vertex, number) => [vertex, number]));
  const sizes = graph.vertices.map((vertex) => ({ width: shortened(vertex).length * LETTER + 16, height: 24 }));
  const lines = graph.edges.map((edge) => ({ from: numbers.get(edge.from), to: numbers.get(edge.to), weight: WEIGHTS[edge.kind] }));
  const placed = await layout({ boxes: sizes, lines });
  const isNamed = graph.vertices.length <= MOST_NAMED;
  const edges = graph.edges.map((edge, number) => lineSvg(edge, placed.lines[number], isNamed || edge.isAdded));
  const boxes = graph.vertices.map((vertex, number) => boxSvg(vertex, sizes[number], placed.boxes[number], classesOf(vertex), number));
  const width = Math.ceil(placed.width) || 1;
  const height = Math.ceil(placed.height) || 1;
  return (
    `<svg viewBox="0 0 ${width} ${height}" width="${width}" height="${height}" role="img" aria-label="Graph of ${graph.vertices.length} vertices and ${graph.edges.length} edges">` +
    '<defs><marker id="arrow" viewBox="0 0 8 8" refX="7" refY="4" markerWidth="7" markerHeight="7" orient="auto"><path d="M0,0 L8,4 L0,8 z"/></marker></defs>' +
    `${edges.join('')}${boxes.join('')}</svg>`
  );
}
