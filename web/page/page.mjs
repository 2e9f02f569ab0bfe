/** The page: what one types, what hpr answers, and what one looks at. */
import { conflictsOf, refusalOf, wayBetween } from './answers.mjs';
import { Calls, Stopped } from './calls.mjs';
import { Editor, escaped } from './editor.mjs';
import { EXAMPLES } from './examples.mjs';
import { caseOf, linkOf } from './link.mjs';
import { lettersOf, marksOf, origins, placeOf, vertexAt } from './marks.mjs';
import { sentenceOf } from './sentences.mjs';
import { lineAndColumn, placeOfByte } from './texts.mjs';
import * as views from './views.mjs';

const LEAST_VARIANTS = 2;
const MOST_VARIANTS = 16;
const HUES = 4;
const PATIENCE = 400;
const LEAST_ZOOM = 0.5;
const TABS = ['graph', 'slice', 'affected', 'runs'];
const $ = (id) => document.getElementById(id);

const state = {
  base: null,
  variants: [],
  merged: null,
  /** what integrate answered, and its conflicts */
  told: null,
  conflicts: [],
  /** the number of the conflict that one looks at, and what lies between its edge and its point */
  chosen: -1,
  way: [],
  tab: 'graph',
  /** the program whose graph is drawn, where one picked it */
  of: null,
  hidden: new Set(['entry']),
  /** how large a graph is drawn, 1 is its own size; null, as large as there is room */
  zoom: null,
  /** the program and the vertex at the cursor, and the slice there */
  at: null,
  slice: null,
  affected: new Map(),
  runs: { state: '', steps: 100_000, traced: null, step: 0 },
  now: null,
};

/** the workers: of what integrate answers, of what one looks at, and of pictures */
let calls;
let looks;
let drawing;
let keys = 0;

const programs = () => [state.base, ...state.variants];
const shown = () => (state.told?.status === 0 ? [...programs(), state.merged] : programs());
const isLooking = (tab) => state.tab === tab;

// ---- what one types

function newEditor(title, hue, isShown = false) {
  const events = { typed: (editor) => typed(editor), moved: (editor) => moved(editor), removed: isShown || title === 'Base' ? undefined : (editor) => remove(editor) };
  return new Editor({ key: `p${keys++}`, title, hue, isShown }, events);
}

/** What is typed is asked for, and painted meanwhile as far as it is known. */
function typed(editor) {
  refresh();
  editor.changed();
  paintOne(editor);
}

/** Names the variants by their number: A and B where there are two, as hpr does. */
function retitle() {
  const isPair = state.variants.length === 2;
  state.variants.forEach((it, number) => {
    it.retitle(isPair ? 'AB'[number] : `V${number + 1}`, `hue-${number % HUES}`);
    const button = it.root.querySelector('button');
    if (button) {
      button.hidden = isPair;
    }
  });
  $('add').disabled = state.variants.length >= MOST_VARIANTS;
}

function add(text) {
  const editor = newEditor('V', 'hue-0');
  state.variants.push(editor);
  $('programs').append(editor.root);
  editor.text = text;
  retitle();
}

function remove(editor) {
  if (state.variants.length > LEAST_VARIANTS) {
    state.variants = state.variants.filter((it) => it !== editor);
    editor.root.remove();
    retitle();
    refresh();
  }
}

/** Shows another case. */
function put({ base, variants, initial = '', says = '' }) {
  state.base.text = base;
  state.variants.forEach((it) => it.root.remove());
  state.variants = [];
  variants.forEach(add);
  state.runs = { ...state.runs, state: initial, traced: null, step: 0 };
  state.chosen = 0;
  state.of = null;
  state.at = null;
  $('says').textContent = says;
  refresh();
}

let isBusy = false;
let isStale = false;
let looking = 0;

let patience = null;

/** Tells a reader of the screen whether an answer is still to come; what takes long, an answer or a look, can be stopped. */
function showBusy() {
  const isWaiting = isBusy || looking > 0;
  $('answer').setAttribute('aria-busy', String(isWaiting));
  if (!isWaiting) {
    clearTimeout(patience);
    patience = null;
    $('stop').hidden = true;
  } else if (patience === null) {
    patience = setTimeout(() => {
      $('stop').hidden = false;
    }, PATIENCE);
  }
}

/** Asks hpr anew; while a call is under way, once more behind it. */
async function refresh() {
  isStale = true;
  if (isBusy) {
    return;
  }
  isBusy = true;
  showBusy();
  try {
    while (isStale) {
      isStale = false;
      await asked();
    }
  } catch (error) {
    failed(error);
  } finally {
    isBusy = false;
  }
  await looked();
}

function failed(error) {
  if (error instanceof Stopped) {
    outcome('Stopped', 'Type to ask again.', 'warn');
  } else {
    outcome('The page failed', error.message, 'bad');
    console.error(error);
  }
}

// ---- what hpr answers

async function asked() {
  const begun = performance.now();
  const files = new Map(programs().map((it) => [it.name, it.text]));
  state.told = await calls.call(['integrate', ...programs().map((it) => it.name)], files);
  const spent = performance.now() - begun;
  answer();
  $('cost').textContent = `integrate took ${spent.toFixed(1)} ms.`;
  if (!isStale) {
    await tellContents();
    conflicts();
    paint();
  }
}

/** Has each program tell its contents as hpr prints them. */
async function tellContents() {
  for (const it of programs()) {
    if (it.canonical === null) {
      const { status, out } = await calls.call(['edit', 'p', 'none', '--author', '1'], { p: it.text, none: '' });
      it.told(status === 0 ? out : '');
    }
  }
}

function outcome(title, detail, kind) {
  $('answer').className = kind;
  $('outcome').textContent = title;
  $('detail').textContent = detail;
}

function answer() {
  const { status, out, err } = state.told;
  for (const it of programs()) {
    it.say('');
    it.wrong = null;
  }
  state.conflicts = status === 1 ? conflictsOf(out) : [];
  state.merged.root.hidden = status !== 0;
  if (status === 0) {
    state.merged.text = out;
    state.merged.told(out);
  }
  const count = state.conflicts.length;
  const told = {
    0: () => ['They merge', 'Wherever base and all variants end, the merged program ends too, with what each variant changed.', 'good'],
    1: () => [`They interfere: ${count} ${count === 1 ? 'point' : 'points'}`, 'Together the changes would make something that neither variant computes. Pick one to see why.', 'warn'],
    2: () => ['No program has all changes', `They don’t interfere, but ${out.trim()}.`, 'warn'],
    3: () => ['The search ended without an answer', out.trim(), 'warn'],
    4: () => refused(refusalOf(err) ?? { file: '', why: err.trim(), byte: null }),
    8: () => ['Memory ran out', 'The programs are too large for this page.', 'bad'],
  }[status] ?? (() => [`Status ${status}`, err.trim(), 'bad']);
  outcome(...told());
}

/** Marks what is refused, and says why. */
function refused({ file, why, byte }) {
  const editor = programs().find((it) => it.name === file);
  if (!editor) {
    return ['Refused', why, 'bad'];
  }
  const tag = /\b\d+\.\d+\b/.exec(why)?.[0];
  const part = byte === null ? editor.places.parts.findLast((it) => it.tag === tag) : undefined;
  const at = byte === null ? part?.from : placeOfByte(editor.text, byte);
  const reason = byte === null ? why : at >= editor.text.trimEnd().length ? 'the text ends too early' : 'no program goes on like this';
  editor.say(reason, { isBad: true, at: at === undefined ? null : lineAndColumn(editor.text, at) });
  editor.wrong = at === undefined ? null : { from: Math.min(at, Math.max(editor.text.length - 1, 0)), to: part?.to ?? at + 1 };
  return [`${editor.title} is no program`, editor.note.textContent, 'bad'];
}

function conflicts() {
  const list = $('conflicts');
  list.replaceChildren(
    ...state.conflicts.map((conflict, number) => {
      const item = document.createElement('li');
      const button = document.createElement('button');
      button.innerHTML = `${sentenceOf(conflict, programs())}<small>${escaped(state.told.out.split('\n')[number + 1])}</small>`;
      button.onclick = () => choose(number);
      item.append(button);
      return item;
    }),
  );
  state.chosen = Math.min(Math.max(state.chosen, 0), state.conflicts.length - 1);
  pressed();
}

function pressed() {
  $('conflicts').querySelectorAll('button').forEach((button, number) => button.setAttribute('aria-pressed', String(number === state.chosen)));
}

async function choose(number) {
  state.chosen = number;
  state.of = null;
  pressed();
  paint();
  await looked();
}

// ---- what one looks at

/** The conflict that one looks at. */
const conflict = () => state.conflicts[state.chosen] ?? null;

/** The classes of a vertex in a text or a picture. */
function classesIn(program, vertex) {
  const it = conflict();
  const found = [];
  if (it && isConflictVertex(it, program, vertex)) {
    found.push(vertex === it.point && vertex !== it.edge.to ? 'point' : vertex === it.edge.from ? 'source' : vertex === it.edge.to ? 'target' : 'way');
  }
  if (isLooking('slice') && state.slice && state.at.program === program) {
    found.push(vertex === state.at.vertex ? 'point' : state.slice.includes(vertex) ? '' : 'fade');
  }
  if (isLooking('affected') && state.affected.get(program)?.has(vertex)) {
    found.push('affected');
  }
  if (isLooking('runs') && state.now && state.runs.traced === program && vertex.startsWith(`${state.now} `)) {
    found.push('now');
  }
  return found.filter(Boolean).join(' ');
}

/** Whether a vertex of this program belongs to what shows a conflict: the edge in all texts, the rest in its variant. */
function isConflictVertex({ side, point, edge }, program, vertex) {
  const isEnd = vertex === edge.from || vertex === edge.to;
  return isEnd || (program === state.variants[side] && (vertex === point || state.way.includes(vertex)));
}

/** Paints the text of a program. */
function paintOne(program) {
  const from = origins(program, state.base, state.variants);
  const marks = marksOf(program, from, (vertex) => classesIn(program, vertex));
  const wrong = state.told?.status === 4 && program.wrong ? [{ ...program.wrong, classes: 'wrong' }] : [];
  // a mark of what is wrong stands in the place of the part that it is in
  const apart = wrong.length === 0 ? marks : marks.filter((it) => it.to <= wrong[0].from || it.from >= wrong[0].to);
  program.show([...apart, ...wrong], lettersOf(program, from));
}

/** Paints all texts. */
function paint() {
  shown().forEach(paintOne);
  legend();
}

function legend() {
  const brought = state.variants.map((it) => `<span class="paint"><b class="${it.hue}" style="color:var(--hue)">${escaped(it.title)}</b></span>`);
  const looked = conflict() ? '<span class="source">what would be read</span> <span class="target">where</span> <span class="way">on the way to</span> <span class="point">the changed point</span>' : '';
  $('legend').innerHTML = looked || (state.told?.status === 0 ? `Colours and letters tell who brought a part: ${brought.join(' ')}` : '');
}

async function moved(program) {
  const vertex = vertexAt(program, program.area.selectionStart);
  if (vertex !== null && (state.at?.program !== program || state.at.vertex !== vertex)) {
    state.at = { program, vertex };
    if (!isBusy) {
      await looked();
    }
  }
}

let lookNumber = 0;

/** Shows the closer look that one picked, unless another one is asked for meanwhile. */
async function looked() {
  const number = ++lookNumber;
  looking++;
  showBusy();
  try {
    await { graph: lookAtGraph, slice: lookAtSlice, affected: lookAtAffected, runs: lookAtRuns }[state.tab](() => number !== lookNumber);
    if (number === lookNumber) {
      paint();
    }
  } catch (error) {
    if (error instanceof Stopped) {
      view({ told: 'Stopped. With fewer steps a run ends sooner.', html: '' });
    } else {
      failed(error);
    }
  } finally {
    looking--;
    showBusy();
  }
}

function view({ told, html }) {
  $('told').textContent = told;
  $('view').innerHTML = html;
}

/** The slice at the cursor, where it stands in a program. */
async function sliceAtCursor(program) {
  return state.at && state.at.program === program ? views.fetchSlice(looks, program, state.at.vertex) : null;
}

function drawnProgram() {
  const it = conflict();
  const picked = shown().includes(state.of) ? state.of : null;
  return picked ?? (it ? state.variants[it.side] : state.told?.status === 0 ? state.merged : state.base);
}

/** The edge of a conflict, put into the graph of its variant, and the way from there to the changed point. */
function withConflict(graph, program) {
  const it = conflict();
  state.way = it && program === state.variants[it.side] ? wayBetween(graph, it.edge.to, it.point) : [];
  if (state.way.length > 0) {
    graph.vertices = [...new Set([...graph.vertices, it.edge.from])];
    graph.edges.push({ ...it.edge, isAdded: true });
  }
  return graph;
}

async function lookAtGraph(isOld) {
  const program = drawnProgram();
  $('controls').innerHTML = views.graphControls(shown(), program, state.hidden);
  const graph = await views.fetchGraph(looks, program);
  const slice = graph && (await sliceAtCursor(program));
  if (isOld()) {
    return;
  }
  if (graph === null) {
    view({ told: `${program.title} is no program, so it has no graph.`, html: '' });
    return;
  }
  const from = origins(program, state.base, state.variants);
  const hue = (vertex) => from.get(placeOf(program, vertex))?.hue ?? '';
  const isAt = (vertex) => state.at?.program === program && state.at.vertex === vertex;
  const whole = withConflict(graph, program);
  const classesOf = (vertex) => `${hue(vertex)} ${classesIn(program, vertex)} ${isAt(vertex) ? 'at' : ''}`;
  const drawn = await views.graphView(drawing, { graph: whole, slice, hidden: state.hidden, classesOf });
  if (!isOld()) {
    view(drawn);
    zoomed();
  }
}

/** Draws the graph as large as was picked, or as there is room, but no smaller than can be read. */
function zoomed() {
  const svg = $('view').querySelector('svg');
  if (svg === null) {
    return;
  }
  const { width, height } = svg.viewBox.baseVal;
  const zoom = state.zoom ?? Math.min(1, Math.max(LEAST_ZOOM, $('view').clientWidth / width));
  svg.setAttribute('width', width * zoom);
  svg.setAttribute('height', height * zoom);
  $('zoom').value = String(Math.round(zoom * 100));
}

async function lookAtSlice(isOld) {
  $('controls').innerHTML = '';
  state.slice = null;
  const { program, vertex } = state.at ?? {};
  const slice = program && shown().includes(program) ? await sliceAtCursor(program) : null;
  const left = slice && (await views.fetchLeft(looks, program, vertex));
  if (isOld()) {
    return;
  }
  if (slice === null) {
    view({ told: 'Put the cursor on a part of a program, or on a name of its end: what it depends on stays, the rest of the text goes pale.', html: '' });
    return;
  }
  state.slice = slice;
  view(views.sliceView(program, vertex, slice, left));
}

async function lookAtAffected(isOld) {
  $('controls').innerHTML = '';
  const lists = [];
  for (const variant of state.variants) {
    lists.push({ variant, points: await views.fetchAffected(looks, state.base, variant) });
  }
  if (!isOld()) {
    state.affected = new Map(lists.map(({ variant, points }) => [variant, new Set(points)]));
    view(views.affectedView(lists));
  }
}

async function lookAtRuns(isOld) {
  state.now = null;
  if (!shown().includes(state.runs.traced)) {
    state.runs.traced = null;
  }
  if ($('controls').querySelector('#state') === null) {
    $('controls').innerHTML = views.runControls(shown(), state.runs);
  }
  const runs = await views.fetchRuns(looks, shown(), state.runs.state, state.runs.steps);
  const { traced, state: words, steps } = state.runs;
  const trace = traced && (await views.fetchTrace(looks, traced, words, steps));
  if (isOld()) {
    return;
  }
  view({ told: 'What each program ends with. A value that is not the base’s is marked.', html: `${views.runsTable(runs)}<div id="trace"></div>` });
  if (trace) {
    state.runs.step = Math.min(state.runs.step, trace.steps.length);
    showStep(trace);
  }
}

function showStep(trace) {
  const { traced, step } = state.runs;
  $('trace').innerHTML = views.traceView(traced, trace, step);
  state.now = trace.steps[step - 1]?.tag ?? null;
  paint();
  $('at').oninput = () => {
    state.runs.step = Number($('at').value);
    showStep(trace);
    $('at').focus();
  };
}

// ---- what one picks

function pickTab(tab) {
  state.tab = tab;
  for (const it of TABS) {
    $(`tab-${it}`).setAttribute('aria-selected', String(it === tab));
    $(`tab-${it}`).tabIndex = it === tab ? 0 : -1;
  }
  $('panel').setAttribute('aria-labelledby', `tab-${tab}`);
  $('controls').innerHTML = '';
  looked();
}

function picked(event) {
  const { target } = event;
  if (target.id === 'zoom') {
    return;
  }
  const program = shown().find((it) => it.key === target.value) ?? null;
  if (target.id === 'of') {
    state.of = program;
  } else if (target.id === 'traced') {
    state.runs = { ...state.runs, traced: program, step: 0 };
  } else if (target.id === 'state') {
    state.runs.state = target.value;
  } else if (target.id === 'steps') {
    state.runs.steps = views.stepsOf(target.value);
  } else if (target.dataset.kind) {
    state.hidden[target.checked ? 'delete' : 'add'](target.dataset.kind);
  }
  looked();
}

/** Puts the cursor on what a box of the graph says. */
function pickVertex(vertex) {
  const program = drawnProgram();
  const place = placeOf(program, vertex);
  state.at = { program, vertex };
  if (place) {
    program.area.setSelectionRange(place.from, place.from);
    program.area.scrollTop = Math.max(0, (program.lineOf(place.from) - 4) * 20);
  }
  $('view').querySelectorAll('.vertex').forEach((it) => it.classList.toggle('at', it.dataset.vertex === vertex));
}

/** Goes from box to box of the graph by the keys of arrows. */
function pickNext(event) {
  const step = { ArrowDown: 1, ArrowRight: 1, ArrowUp: -1, ArrowLeft: -1 }[event.key];
  const boxes = [...$('view').querySelectorAll('.vertex')];
  if (step === undefined || boxes.length === 0) {
    return;
  }
  event.preventDefault();
  const at = boxes.findIndex((it) => it.classList.contains('at'));
  const next = boxes[(at + step + boxes.length) % boxes.length];
  pickVertex(next.dataset.vertex);
  next.scrollIntoView({ block: 'nearest', inline: 'nearest' });
  $('told').textContent = next.dataset.vertex;
}

async function share() {
  const shared = { base: state.base.text, variants: state.variants.map((it) => it.text), initial: state.runs.state };
  location.hash = `case=${await linkOf(shared)}`;
  try {
    await navigator.clipboard.writeText(location.href);
    $('shared').textContent = 'The link is copied: it holds all programs.';
  } catch {
    $('shared').textContent = 'The link stands in the address of this page: it holds all programs.';
  }
}

/** The case that the address holds, or an example. */
async function firstCase() {
  const [what, text] = location.hash.slice(1).split('=');
  const held = what === 'case' ? await caseOf(location.hash.slice('#case='.length)) : null;
  const number = what === 'example' ? Math.min(Math.max(Math.trunc(Number(text)) || 0, 0), EXAMPLES.length - 1) : 0;
  if (what === 'case' && held === null) {
    $('shared').textContent = 'The link holds no case.';
  }
  $('example').value = held === null ? String(number) : '';
  return held ?? EXAMPLES[number];
}

function wire() {
  $('example').innerHTML = EXAMPLES.map((it, number) => `<option value="${number}">${escaped(it.title)}</option>`).join('');
  $('example').onchange = () => put(EXAMPLES[Number($('example').value)]);
  $('add').onclick = () => {
    add(state.base.text);
    refresh();
  };
  $('share').onclick = share;
  $('stop').onclick = () => {
    calls.stop();
    looks.stop();
  };
  $('controls').addEventListener('change', picked);
  $('controls').addEventListener('input', ({ target }) => {
    if (target.id === 'zoom') {
      state.zoom = Number(target.value) / 100;
      zoomed();
    }
  });
  $('view').tabIndex = 0;
  $('view').addEventListener('click', (event) => {
    const box = event.target.closest('.vertex');
    if (box) {
      pickVertex(box.dataset.vertex);
    }
  });
  $('view').addEventListener('keydown', pickNext);
  TABS.forEach((tab) => {
    $(`tab-${tab}`).onclick = () => pickTab(tab);
  });
  document.querySelector('[role=tablist]').addEventListener('keydown', (event) => {
    const step = { ArrowRight: 1, ArrowLeft: -1 }[event.key];
    if (step !== undefined) {
      const next = TABS[(TABS.indexOf(state.tab) + step + TABS.length) % TABS.length];
      pickTab(next);
      $(`tab-${next}`).focus();
    }
  });
  window.addEventListener('hashchange', async () => {
    if (location.hash.startsWith('#example=')) {
      put(await firstCase());
    }
  });
}

/** What the page is served with: a worker of its own file, and the module; or both as they stand in this file. */
async function served() {
  const inline = $('worker-text');
  if (inline) {
    const url = URL.createObjectURL(new Blob([inline.textContent], { type: 'text/javascript' }));
    const bytes = Uint8Array.from(atob($('module-text').textContent.trim()), (letter) => letter.charCodeAt(0));
    return { make: () => new Worker(url), module: bytes.buffer };
  }
  const module = await (await fetch('hpr.wasm')).arrayBuffer();
  return { make: () => new Worker('worker.js'), module };
}

async function begin() {
  const { make, module } = await served();
  calls = new Calls(make, module);
  looks = new Calls(make, module);
  drawing = new Calls(make);
  state.base = newEditor('Base', 'hue-base');
  state.merged = newEditor('Merged', 'hue-base', true);
  $('programs').append(state.base.root);
  $('merged').append(state.merged.root);
  wire();
  put(await firstCase());
}

begin().catch(failed);
