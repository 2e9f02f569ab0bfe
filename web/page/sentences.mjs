/** Conflicts in sentences that one reads without knowing what a dependence graph is. */
import { escaped } from './editor.mjs';
import { vertexOf } from './answers.mjs';

const code = (text) => `<code>${escaped(text)}</code>`;

/** A vertex as a sentence names it. */
export function named(text) {
  const vertex = vertexOf(text);
  if (vertex.tag !== undefined) {
    return code(text);
  }
  return { entry: 'the beginning', init: `the first value of ${code(vertex.name)}`, final: `the final value of ${code(vertex.name)}` }[vertex.kind];
}

/** What the edge of a conflict would do to its target. */
function effect({ kind, from, to, name, label, by }, whose) {
  const source = `${named(from)}${whose}`;
  const isFinal = vertexOf(to).kind === 'final';
  switch (kind) {
    case 'flow':
      return isFinal ? `would come from ${source}` : `would read ${code(name)} from ${source}`;
    case 'carried':
      return `would read ${code(name)} from ${source} of an earlier turn of ${named(by)}`;
    case 'control':
      return from === 'entry' ? 'would always be run' : `would be run where ${source} is ${label}`;
    default:
      return `would have its value at ${named(by)} before or behind that of ${source}`;
  }
}

/** Which programs have the source of an edge, and what the variant has under its tag. */
function whoseSource(source, variant, programs) {
  if (source.tag === undefined) {
    return '';
  }
  const having = programs.filter((it) => it.partOf(source) !== undefined).map((it) => it.title);
  const own = variant.places.parts.find((part) => part.tag === source.tag);
  const instead = own && own.content !== source.content ? `, not from ${code(`${own.tag} ${own.content}`)}` : '';
  return `${having.length === 0 || having.length === programs.length ? '' : ` of ${listed(having)}`}${instead}`;
}

/**
 * A conflict as a sentence, in HTML.
 *
 * @param {import('./answers.mjs').Conflict} conflict
 * @param {import('./editor.mjs').Editor[]} programs base, and then the variants
 */
export function sentenceOf({ side, point, edge }, programs) {
  const variant = programs[side + 1];
  const whose = whoseSource(vertexOf(edge.from), variant, programs);
  const subject = `${variant.title}’s ${withoutArticle(named(point))}`;
  const chain = edge.to === point ? subject : `${subject} depends on ${named(edge.to)}, which`;
  return `${chain} ${effect(edge, whose)}.`;
}

const withoutArticle = (text) => text.replace(/^the /, '');

/** Words as a list in a sentence. */
export function listed(words) {
  return words.length < 2 ? words.join('') : `${words.slice(0, -1).join(', ')} and ${words.at(-1)}`;
}
