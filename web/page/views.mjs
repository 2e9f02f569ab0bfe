/** The closer looks at a program: its graph, a slice, the affected points, its runs. */
import { affectedOf, graphOf, outcomeOf, pointWord, traceOf, verticesOf, vertexOf } from './answers.mjs';
import { escaped } from './editor.mjs';
import { drawn, MOST_DRAWN, visible } from './graph.mjs';
import { named } from './sentences.mjs';

const KINDS = ['control', 'flow', 'carried', 'order'];
const MOST_TRACED = 2000;
const MOST_STEPS = 10_000_000;

/** The graph of a program, as hpr tells it; null where it is refused. */
export async function fetchGraph(calls, program) {
  const told = await calls.call(['graph', program.name, '--json'], { [program.name]: program.text });
  return told.status === 0 ? graphOf(told.out) : null;
}

/** The vertices of the slice of a program at one of its vertices. */
export async function fetchSlice(calls, program, vertex) {
  const told = await calls.call(['slice', program.name, pointWord(vertex)], { [program.name]: program.text });
  return told.status === 0 ? verticesOf(told.out) : null;
}

/** The points of a variant that differ from the base, where both are programs. */
export async function fetchAffected(calls, base, variant) {
  const told = await calls.call(['affected', base.name, variant.name], { [base.name]: base.text, [variant.name]: variant.text });
  return told.status === 0 ? affectedOf(told.out) : [];
}

/** The controls of the view of graphs: which program, and what is drawn. */
export function graphControls(programs, chosen, hidden) {
  const options = programs.map((it) => `<option value="${it.key}"${it === chosen ? ' selected' : ''}>${escaped(it.title)}</option>`);
  const kinds = [...KINDS, 'entry'].map(
    (it) => `<label><input type="checkbox" data-kind="${it}"${hidden.has(it) ? '' : ' checked'}>${it === 'entry' ? '' : ` <i class="swatch ${it}"></i>`} ${it}</label>`,
  );
  const zoom = '<label>Zoom <input id="zoom" type="range" min="20" max="200" step="10"></label>';
  return `<label>Program <select id="of">${options.join('')}</select></label>${kinds.join('')}${zoom}`;
}

/** What is drawn of a graph: all of it where it is small, else the slice of what one looks at. */
export async function graphView(drawing, { graph, slice, hidden, classesOf }) {
  const isLarge = graph.vertices.length > MOST_DRAWN;
  const some = slice === null ? null : { vertices: slice, edges: graph.edges.filter((it) => slice.includes(it.from) && slice.includes(it.to)) };
  if (isLarge && (some === null || some.vertices.length > MOST_DRAWN)) {
    return { told: `${graph.vertices.length} vertices are too many to draw. Put the cursor on a part: what it depends on is drawn, where that is less.`, html: '' };
  }
  const shown = visible(isLarge ? some : graph, hidden);
  const told = isLarge ? `${shown.vertices.length} of ${graph.vertices.length} vertices: what the part at the cursor depends on.` : '';
  return { told, html: await drawn(shown, (it) => drawing.layout(it), classesOf) };
}

/** What a slice view says. */
export function sliceView(program, vertex, slice, left) {
  const parts = (list) => list.filter((it) => vertexOf(it).tag !== undefined).length;
  const count = program.places.parts.length;
  return {
    told: `${program.title}: ${parts(slice)} of ${count} parts matter to ${vertex}. The others are pale in the text.`,
    html: `<p>As a program of its own:</p><pre><code>${escaped(left)}</code></pre>`,
  };
}

/** The program that a slice leaves. */
export async function fetchLeft(calls, program, vertex) {
  const told = await calls.call(['slice', program.name, pointWord(vertex), '--program'], { [program.name]: program.text });
  return told.out;
}

/** The lists of affected points. */
export function affectedView(lists) {
  const list = ({ variant, points }) => `<h3>${escaped(variant.title)}</h3>${points.length === 0 ? '<p>It computes what the base computes.</p>' : `<ul>${points.map((it) => `<li>${named(it)}</li>`).join('')}</ul>`}`;
  return { told: 'Where each variant may compute something else than the base. These are underlined in the texts.', html: lists.map(list).join('') };
}

/** The controls of the view of runs. */
export function runControls(programs, { state, steps, traced }) {
  const options = programs.map((it) => `<option value="${it.key}"${it === traced ? ' selected' : ''}>${escaped(it.title)}</option>`);
  return (
    `<label>State <input id="state" size="18" placeholder="x=3 y=-1" value="${escaped(state)}"></label>` +
    `<label>Steps at most <input id="steps" type="number" min="1" max="${MOST_STEPS}" value="${steps}"></label>` +
    `<label>Step through <select id="traced"><option value="">none</option>${options.join('')}</select></label>`
  );
}

/** The words of the state that one typed. */
export const stateWords = (state) => state.trim().split(/[\s,;]+/).filter(Boolean);

/** How many steps a run may take, from what one typed. */
export const stepsOf = (text) => Math.min(Math.max(Math.trunc(Number(text)) || 1, 1), MOST_STEPS);

/** What each program ends with. */
export async function fetchRuns(calls, programs, state, steps) {
  const runs = [];
  for (const program of programs) {
    const told = await calls.call(['run', program.name, ...stateWords(state), '--steps', String(steps)], { [program.name]: program.text });
    runs.push({ program, error: told.err.trim(), ...outcomeOf(told.out) });
  }
  return runs;
}

/** The table of final values, a row a name. A value that is not the base's is marked. */
export function runsTable(runs) {
  const names = [...new Set(runs.flatMap((run) => [...run.values.keys()]))].sort();
  const head = runs.map((run) => `<th scope="col">${escaped(run.program.title)}</th>`).join('');
  const how = runs.map((run) => `<td>${escaped(run.error || run.how)}</td>`).join('');
  const row = (name) => {
    const values = runs.map((run) => run.values.get(name) ?? '–');
    const cells = values.map((value) => `<td title="${escaped(value)}"${value !== values[0] ? ' class="differs"' : ''}>${escaped(value)}</td>`);
    return `<tr><th scope="row">${escaped(name)}</th>${cells.join('')}</tr>`;
  };
  return `<table><tr><td></td>${head}</tr><tr><th scope="row">how it went</th>${how}</tr>${names.map(row).join('')}</table>`;
}

/** The steps of a run, the first ones of many. */
export async function fetchTrace(calls, program, state, steps) {
  const words = ['run', program.name, ...stateWords(state), '--steps', String(Math.min(steps, MOST_TRACED)), '--trace'];
  return traceOf((await calls.call(words, { [program.name]: program.text })).out);
}

/** What the variables are worth behind the first so many steps, as far as plain names were assigned. */
function valuesBehind(program, steps) {
  const contents = new Map(program.places.parts.map((part) => [part.tag, part.content]));
  const values = new Map();
  for (const { tag, value } of steps) {
    const assigned = /^([A-Za-z_]\w*) := /.exec(contents.get(tag) ?? '');
    if (assigned) {
      values.set(assigned[1], value);
    }
  }
  return values;
}

/** A slider over the steps of a run, and what the step came to. */
export function traceView(program, trace, at) {
  const count = trace.steps.length;
  const step = trace.steps[at - 1];
  const part = step && program.places.parts.find((it) => it.tag === step.tag);
  const turns = step?.turns ? `, turn ${step.turns.split(',').map((it) => Number(it) + 1).join(' of turn ')}` : '';
  const said = step ? `<code>${step.tag} ${escaped(part?.content ?? '')}</code>${turns}: ${step.value}` : 'before the first step';
  const values = [...valuesBehind(program, trace.steps.slice(0, at))].map(([name, value]) => `<code>${escaped(name)} = ${value}</code>`);
  return (
    `<p><label>Step <input id="at" type="range" min="0" max="${count}" value="${at}"> ${at} of ${count}${count >= MOST_TRACED ? ', the first ones' : ''}</label></p>` +
    `<p>${said}</p><p>${values.join(' ')}</p>`
  );
}
