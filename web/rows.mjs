/**
 * Makes the calls of a file of rows, as `checks/embed_rows.py FILE` writes them, through the module, and compares.
 *
 *     node web/rows.mjs HPR.WASM ROWS ANSWERS
 *
 * What is told as data of the rows is written into ANSWERS, as checks/embed_data.py reads it. Status 0: all answers are the
 * rows'. Status 1: one isn't, and standard output shows the first ones.
 */
import { readFile, writeFile } from 'node:fs/promises';
import { load } from './hpr.mjs';

const SHOWN = 5;

/** What is left of a file of rows. A number is 8 bytes, the lowest first; bytes are a number and so many of them. */
class Rows {
  #data;
  #at = 0;

  constructor(data) {
    this.#data = data;
  }

  get isAtEnd() {
    return this.#at >= this.#data.length;
  }

  number() {
    this.#at += 8;
    return Number(this.#data.readBigUInt64LE(this.#at - 8));
  }

  bytes() {
    const size = this.number();
    this.#at += size;
    return this.#data.subarray(this.#at - size, this.#at);
  }

  texts() {
    return this.bytes().toString().split('\0').slice(0, -1);
  }
}

function* rowsOf(data) {
  const rows = new Rows(data);
  while (!rows.isAtEnd) {
    const words = rows.texts();
    const files = new Map();
    const contents = [];
    for (const name of rows.texts()) {
      const bytes = rows.bytes();
      contents.push(bytes);
      // of two files with one name the first counts
      files.set(name, files.get(name) ?? bytes);
    }
    yield { words, files, contents, wanted: { status: rows.number(), out: rows.bytes().toString(), err: rows.bytes().toString() } };
  }
}

/** A status and JSON, as a row of answers. */
function rowOf({ status, json }) {
  const text = Buffer.from(json);
  const numbers = Buffer.alloc(16);
  numbers.writeBigUInt64LE(BigInt(status));
  numbers.writeBigUInt64LE(BigInt(text.length), 8);
  return [numbers, text];
}

const TOLD = ['integrate', 'affected', 'graph', 'run', 'verify'];
const [wasm, file] = await Promise.all(process.argv.slice(2, 4).map((name) => readFile(name)));
const hpr = await load(wasm);
const answers = [];
let made = 0;
let differ = 0;
for (const { words, files, contents, wanted } of rowsOf(file)) {
  if (TOLD.includes(words[0])) {
    answers.push(...rowOf(hpr.data(words, files)));
  }
  contents.forEach((text) => answers.push(...rowOf(hpr.places(text))));
  const told = hpr.call(words, files);
  made++;
  if (told.status !== wanted.status || told.out !== wanted.out || told.err !== wanted.err) {
    differ++;
    if (differ <= SHOWN) {
      console.log(`${words.join(' ')}\n  wanted ${JSON.stringify(wanted)}\n  told ${JSON.stringify(told)}`);
    }
  }
}
await writeFile(process.argv[4], Buffer.concat(answers));
console.log(`${made} calls, ${differ} differ`);
process.exitCode = differ === 0 && made > 0 ? 0 : 1;
