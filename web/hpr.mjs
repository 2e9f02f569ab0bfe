/**
 * hpr in process: any command of the program over texts in memory, in Node, in browsers and in workers.
 *
 *     import { load } from './hpr.mjs';
 *     const hpr = await load(await readFile('hpr.wasm'));
 *     const { status, out, err } = hpr.integrate(base, a, b);
 *     const { conflicts } = JSON.parse(hpr.data(['integrate', 'base', 'a', 'b'], { base, a, b }).json);
 *
 * Nothing is fetched and no file is opened: a word names a text that is handed in. No proof covers this file, the
 * compilation to WebAssembly and the heap of the module; docs/web.md says what is proved.
 */

/** What each status means, by its number. */
export const STATUS = Object.freeze({
  DONE: 0,
  INTERFERENCE: 1,
  NO_PROGRAM: 2,
  SPENT: 3,
  REFUSED: 4,
  ABSENT: 5,
  WORDS: 7,
  MEMORY: 8,
  NOT_ENDED: 9,
  REJECTED: 10,
});

/** The status that the module answers where what it is handed has not the form that it asks for. */
const FORM = 64;
/** Memory never shrinks: an instance that holds more bytes than these is dropped behind a call. */
const KEPT = 64 * 2 ** 20;
/** The first room for each text. Where one is longer, the call is made once more. */
const ROOM = 64 * 2 ** 10;
/** What a call that told nothing says. */
const NO_MEMORY = 'hpr: no memory\n';

const encoder = new TextEncoder();
const decoder = new TextDecoder();

const bytesOf = (text) => (typeof text === 'string' ? encoder.encode(text) : text);

/** The bytes of all texts, one after another. */
function joined(texts) {
  const all = new Uint8Array(texts.reduce((sum, text) => sum + text.length, 0));
  let at = 0;
  for (const text of texts) {
    all.set(text, at);
    at += text.length;
  }
  return all;
}

/** Words as the module takes them, each ended by a zero byte. */
function ended(words) {
  for (const word of words) {
    if (word.includes('\0')) {
      throw new TypeError('a word or a name of a file holds a zero byte');
    }
  }
  return encoder.encode(words.map((word) => `${word}\0`).join(''));
}

/** What a call hands in: four pieces of memory, and how many things each of them holds. */
function requestOf(words, files) {
  const pairs = files instanceof Map ? [...files] : Object.entries(files);
  const contents = pairs.map(([, text]) => bytesOf(text));
  const lengths = new BigUint64Array(contents.map((it) => BigInt(it.length)));
  const texts = [ended(words), ended(pairs.map(([name]) => name)), new Uint8Array(lengths.buffer), joined(contents)];
  return { texts, counts: [texts[0].length, texts[1].length, lengths.length, texts[3].length] };
}

/** A module, and the instance of it that answers calls. */
export class Hpr {
  #module;
  #limit;
  #exports;

  /**
   * @param {WebAssembly.Module} module
   * @param {{memory?: number}} options
   */
  constructor(module, { memory = 2 ** 30 } = {}) {
    this.#module = module;
    this.#limit = memory;
    this.#renew();
  }

  #renew() {
    this.#exports = new WebAssembly.Instance(this.#module, {}).exports;
    this.#exports.limit(BigInt(this.#limit));
  }

  /** Bytes of memory that the instance holds. */
  get memory() {
    return this.#exports.memory.buffer.byteLength;
  }

  /**
   * Makes a call.
   *
   * @param {string[]} words the words of a command line, without the name of the program
   * @param {Record<string, string | Uint8Array> | Map<string, string | Uint8Array>} files what the words may name
   * @returns {{status: number, out: string, err: string}} its status and what it prints
   * @throws {WebAssembly.RuntimeError} where the module traps, which no input is known to do; the next call has a fresh instance
   */
  call(words, files = {}) {
    const { status, texts } = this.#whole('hpr_call', requestOf(words, files), 2);
    const [out, err] = texts ?? ['', NO_MEMORY];
    return { status, out, err };
  }

  /**
   * The answer of `integrate`, `affected`, `graph`, `run` or `verify` as data; other commands have the status of words that are no call.
   *
   * @param {string[]} words
   * @param {Record<string, string | Uint8Array> | Map<string, string | Uint8Array>} files
   * @returns {{status: number, json: string}} its status, and JSON, empty where there was no memory
   */
  data(words, files = {}) {
    const { status, texts } = this.#whole('hpr_data', requestOf(words, files), 1);
    return { status, json: texts?.[0] ?? '' };
  }

  /**
   * Where the parts of a program stand in its text.
   *
   * @param {string | Uint8Array} text
   * @returns {{status: number, json: string}} places count bytes of UTF-8
   */
  places(text) {
    const bytes = bytesOf(text);
    const { status, texts } = this.#whole('hpr_places', { texts: [bytes], counts: [bytes.length] }, 1);
    return { status, json: texts?.[0] ?? '' };
  }

  /**
   * Integrates two variants or more with their base; messages name the texts `base` and `a`, `b` and so on.
   *
   * @param {string | Uint8Array} base
   * @param {...(string | Uint8Array)} variants
   */
  integrate(base, ...variants) {
    const names = variants.map((_, number) => String.fromCharCode('a'.charCodeAt(0) + number));
    const files = new Map([['base', base], ...names.map((name, number) => [name, variants[number]])]);
    return this.call(['integrate', 'base', ...names], files);
  }

  /** Makes a call that answers so many texts, and once more where a room was too short. */
  #whole(name, request, count) {
    try {
      const rooms = Array(count).fill(ROOM);
      const first = this.#made(name, request, rooms);
      const isShort = first.sizes?.some((size) => size > ROOM);
      return isShort ? this.#made(name, request, first.sizes) : first;
    } catch (error) {
      this.#renew();
      throw error;
    } finally {
      if (this.memory > KEPT) {
        this.#renew();
      }
    }
  }

  /** Makes one call, with so much room for its texts. */
  #made(name, { texts, counts }, rooms) {
    const places = [];
    try {
      for (const size of [...texts.map((it) => it.length), ...rooms, 8 * rooms.length]) {
        const place = this.#exports.malloc(BigInt(Math.max(size, 1)));
        if (place === 0n) {
          return { status: STATUS.MEMORY };
        }
        places.push(place);
      }
      return this.#told(name, places, texts, counts, rooms);
    } finally {
      places.forEach((place) => this.#exports.free(place));
    }
  }

  #told(name, places, texts, counts, rooms) {
    // memory that grew has another buffer, so each look takes it anew
    texts.forEach((text, i) => new Uint8Array(this.#exports.memory.buffer).set(text, Number(places[i])));
    const given = texts.flatMap((_, i) => [places[i], BigInt(counts[i])]);
    const ends = places.slice(texts.length, -1);
    const sizesAt = places.at(-1);
    const status = this.#exports[name](...given, ...ends.flatMap((end, i) => [end, BigInt(rooms[i])]), sizesAt);
    if (status === FORM) {
      throw new TypeError('the module does not take the form of this call');
    }
    const view = new DataView(this.#exports.memory.buffer, Number(sizesAt), 8 * rooms.length);
    const sizes = rooms.map((_, i) => Number(view.getBigUint64(8 * i, true)));
    const text = (end, i) => decoder.decode(new Uint8Array(this.#exports.memory.buffer, Number(end), Math.min(sizes[i], rooms[i])));
    return { status, texts: ends.map(text), sizes };
  }
}

/**
 * Makes an hpr of the bytes of its module, or of a response that holds them.
 *
 * @param {BufferSource | Response | Promise<Response>} source
 * @param {{memory?: number}} options `memory` is how many bytes the module may take: 1 GiB, if not said
 * @returns {Promise<Hpr>}
 */
export async function load(source, options) {
  const it = await source;
  const bytes = typeof Response !== 'undefined' && it instanceof Response ? await it.arrayBuffer() : it;
  return new Hpr(await WebAssembly.compile(bytes), options);
}
