/** What is marked in the texts of the programs: where a part comes from, and what one looks at. */
import { vertexOf } from './answers.mjs';

const textOf = (part) => `${part.tag} ${part.content}`;

/** What a program says: the texts of its parts, its tags, and its finals. */
function sayings(program) {
  return {
    parts: new Set(program.places.parts.map(textOf)),
    tags: new Set(program.places.parts.map((part) => part.tag)),
    finals: new Set(program.places.finals.map((final) => final.name)),
  };
}

/**
 * Where each part and final of a program comes from: a letter for its line, and the colour of the variant that brings it.
 *
 * @returns {Map<object, {letter: string, hue: string, title: string}>} nothing for what the base says too
 */
export function origins(program, base, variants) {
  const old = sayings(base);
  const brings = variants.map((variant) => ({ variant, ...sayings(variant) }));
  const isMerged = program !== base && !variants.includes(program);
  const found = new Map();
  for (const part of program === base ? [] : program.places.parts) {
    if (!old.parts.has(textOf(part))) {
      found.set(part, isMerged ? broughtBy(part, brings) : changedIn(part, old, program));
    }
  }
  for (const final of program === base ? [] : program.places.finals) {
    const from = isMerged ? brings.find((it) => it.finals.has(final.name))?.variant : program;
    if (!old.finals.has(final.name) && from) {
      found.set(final, { letter: '', hue: from.hue, title: `a final of ${from.title}` });
    }
  }
  return found;
}

function changedIn(part, old, program) {
  const isNew = !old.tags.has(part.tag);
  return { letter: isNew ? '+' : '~', hue: program.hue, title: isNew ? `new in ${program.title}` : `changed in ${program.title}` };
}

function broughtBy(part, brings) {
  const exactly = brings.filter((it) => it.parts.has(textOf(part)));
  // a part that was split off has a new tag, and the content that a variant or the base gave it
  const alike = brings.filter((it) => it.variant.places.parts.some((other) => other.content === part.content));
  const from = exactly.length > 0 ? exactly : alike;
  const titles = from.map((it) => it.variant.title);
  return {
    letter: titles.length === 1 ? titles[0].replace(/^V/, '') : '*',
    hue: from[0]?.variant.hue ?? '',
    title: exactly.length > 0 ? `from ${titles.join(', ')}` : `split off, as ${titles.join(', ')} has it`,
  };
}

/**
 * The marks of a text: parts and finals with the classes that they have.
 *
 * @param {import('./editor.mjs').Editor} program
 * @param {Map<object, {hue: string, title: string}>} from
 * @param {(vertex: string) => string} looked the classes of a vertex that one looks at
 */
export function marksOf(program, from, looked) {
  const part = (it) => markOf(it, from.get(it), looked(textOf(it)));
  const final = (it) => markOf(it, from.get(it), looked(`final ${it.name}`));
  return [...program.places.parts.map(part), ...program.places.finals.map(final)].filter((it) => it.classes !== '' || it.title);
}

function markOf({ from, to }, origin, classes) {
  return { from, to, classes: [origin?.hue, classes].filter(Boolean).join(' '), title: origin?.title };
}

/** The letters beside the lines of a text. */
export function lettersOf(program, from) {
  return new Map([...from].filter(([, origin]) => origin.letter !== '').map(([it, origin]) => [program.lineOf(it.from), origin.letter]));
}

/** The vertex of a program that its text says at a place: a part, or a final. */
export function vertexAt(program, at) {
  const final = program.places.finals.find((it) => it.from <= at && at <= it.to);
  if (final) {
    return `final ${final.name}`;
  }
  const part = program.places.parts.findLast((it) => it.from <= at && at <= it.end);
  return part ? textOf(part) : null;
}

/** Where a vertex stands in a text, if it does. */
export function placeOf(program, text) {
  const vertex = vertexOf(text);
  return vertex.tag === undefined ? program.places.finals.find((it) => vertex.kind === 'final' && it.name === vertex.name) : program.partOf(vertex);
}
