/**
 * Where the parts of a program stand in its text, for marks alone. What is no program, hpr itself says; this reader takes
 * what it finds, and is quick on any text.
 *
 * @typedef {{tag: string, from: number, to: number, end: number, level: number, content: string}} Part
 *   the head of a part is text.slice(from, to), the whole of it text.slice(from, end)
 * @typedef {{name: string, from: number, to: number}} Final
 * @typedef {{parts: Part[], finals: Final[]}} Places
 */

/** Texts above this many characters get no marks. */
export const MOST_MARKED = 400_000;

const TOKEN = /#[^\n]*|[A-Za-z_]\w*|\d+|:=|[^\s\w]/g;
const ENDS_HEAD = new Set([';', 'then', 'do']);

/** The tokens of a text that are no comments. */
function tokensOf(text) {
  const found = [];
  for (const match of text.matchAll(TOKEN)) {
    if (match[0][0] !== '#') {
      found.push({ text: match[0], from: match.index, to: match.index + match[0].length });
    }
  }
  return found;
}

const isNumber = (token) => token !== undefined && /^\d/.test(token.text);

/** Whether a tag with its colon begins at this token. */
function isTag(tokens, at) {
  return isNumber(tokens[at]) && tokens[at + 1]?.text === '.' && isNumber(tokens[at + 2]) && tokens[at + 3]?.text === ':';
}

/** The names of `end`, from the token behind its bracket on. */
function finalsFrom(tokens, at) {
  const finals = [];
  for (let i = at; i < tokens.length && tokens[i].text !== ')'; i++) {
    if (/^\w/.test(tokens[i].text)) {
      const isArray = tokens[i + 1]?.text === '[' && tokens[i + 2]?.text === ']';
      const last = isArray ? tokens[i + 2] : tokens[i];
      finals.push({ name: tokens[i].text + (isArray ? '[]' : ''), from: tokens[i].from, to: last.to });
    }
  }
  return finals;
}

/** The part whose tag begins at this token, and the number of the token that ends its head. */
function headAt(text, tokens, at, level) {
  const first = at + 4;
  let last = first;
  while (last < tokens.length && !ENDS_HEAD.has(tokens[last].text) && !isTag(tokens, last)) {
    last++;
  }
  const isWhole = last < tokens.length && ENDS_HEAD.has(tokens[last].text);
  const end = isWhole ? tokens[last] : tokens[last - 1];
  const content = text.slice(tokens[at + 3].to, isWhole ? end.from : end.to).trim();
  const tag = `${tokens[at].text}.${tokens[at + 2].text}`;
  return { part: { tag, from: tokens[at].from, to: end.to, end: end.to, level, content }, last: isWhole ? last : last - 1 };
}

/**
 * The parts and the finals of a text.
 *
 * @param {string} text
 * @returns {Places}
 */
export function placesOf(text) {
  const places = { parts: [], finals: [] };
  const tokens = text.length > MOST_MARKED ? [] : tokensOf(text);
  const open = [];
  for (let i = 0; i < tokens.length; i++) {
    const word = tokens[i].text;
    if (isTag(tokens, i)) {
      const { part, last } = headAt(text, tokens, i, open.length + 1);
      places.parts.push(part);
      if (tokens[last].text === 'then' || tokens[last].text === 'do') {
        open.push(part);
      }
      i = last;
    } else if ((word === 'fi' || word === 'od') && open.length > 0) {
      open.pop().end = tokens[i].to;
    } else if (word === 'end' && tokens[i + 1]?.text === '(') {
      places.finals = finalsFrom(tokens, i + 2);
    }
  }
  return places;
}

/**
 * The places of a text, where the content of each part is what hpr prints for it.
 *
 * @param {string} text
 * @param {string} canonical the canonical text of the same program
 * @returns {Places}
 */
export function placesWith(text, canonical) {
  const places = placesOf(text);
  const printed = placesOf(canonical).parts;
  if (printed.length === places.parts.length) {
    places.parts.forEach((part, i) => {
      part.content = printed[i].content;
    });
  }
  return places;
}

/** The innermost part whose text holds this place. */
export function partAt(places, at) {
  return places.parts.findLast((part) => part.from <= at && at <= part.end) ?? null;
}

/** The line and column of a place, each from 1. */
export function lineAndColumn(text, at) {
  const before = text.slice(0, at);
  return { line: before.split('\n').length, column: at - before.lastIndexOf('\n') };
}

/** The place in a text that so many of its bytes stand before. */
export function placeOfByte(text, bytes) {
  const encoder = new TextEncoder();
  const room = new Uint8Array(bytes);
  return encoder.encodeInto(text, room).read;
}
