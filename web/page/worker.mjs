/**
 * Makes calls of hpr, and lays graphs out, away from the page, so that typing never waits.
 *
 * It takes `{ module }` first, the bytes of hpr.wasm, and then any number of `{ id, words, files }` and `{ id, graph }`;
 * each is answered by `{ id, told }`, `{ id, placed }` or `{ id, error }`.
 */
import { load } from '../hpr.mjs';

/** The module, which may still be loading when the first call comes. */
let loaded = null;

/** The places of boxes, and the corners of lines between them, from top to bottom. */
function laidOut({ boxes, lines }) {
  const graph = new dagre.graphlib.Graph({ multigraph: true });
  graph.setGraph({ rankdir: 'TB', nodesep: 18, edgesep: 8, ranksep: 34, marginx: 8, marginy: 8 });
  boxes.forEach((box, number) => graph.setNode(String(number), { width: box.width, height: box.height }));
  lines.forEach((line, number) => graph.setEdge(String(line.from), String(line.to), { weight: line.weight }, String(number)));
  dagre.layout(graph);
  const { width, height } = graph.graph();
  return {
    width,
    height,
    boxes: boxes.map((_, number) => graph.node(String(number))).map(({ x, y }) => ({ x, y })),
    lines: lines.map((line, number) => graph.edge(String(line.from), String(line.to), String(number)).points),
  };
}

self.onmessage = async ({ data }) => {
  try {
    if (data.module) {
      loaded = load(data.module);
      await loaded;
      self.postMessage({ id: data.id });
    } else if (data.graph) {
      self.postMessage({ id: data.id, placed: laidOut(data.graph) });
    } else {
      const hpr = await loaded;
      self.postMessage({ id: data.id, told: hpr.call(data.words, data.files) });
    }
  } catch (error) {
    self.postMessage({ id: data.id, error: error.message });
  }
};
