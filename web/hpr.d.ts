/** What a call came to: its status, what it prints, and its message. */
export interface Told {
  status: number;
  out: string;
  err: string;
}

/** What a call told as data: its status, and JSON, whose members docs/calling.md names; it is empty where there was no memory. */
export interface Data {
  status: number;
  json: string;
}

/** A text is a string, or its bytes. */
export type Text = string | Uint8Array;

/** What each status means. */
export const STATUS: Readonly<{
  DONE: 0;
  INTERFERENCE: 1;
  NO_PROGRAM: 2;
  SPENT: 3;
  REFUSED: 4;
  ABSENT: 5;
  WORDS: 7;
  MEMORY: 8;
  NOT_ENDED: 9;
  REJECTED: 10;
}>;

export interface Options {
  /** How many bytes of memory the module may take: 1 GiB, if not said. */
  memory?: number;
}

export class Hpr {
  constructor(module: WebAssembly.Module, options?: Options);
  /** Bytes of memory that the instance holds. */
  readonly memory: number;
  /** Makes a call: the words of a command line, and the files that they may name. */
  call(words: string[], files?: Record<string, Text> | Map<string, Text>): Told;
  /** The answer of `integrate`, `affected`, `graph`, `run` or `verify` as data. Numbers have up to 64 bits, of which JSON.parse keeps 53. */
  data(words: string[], files?: Record<string, Text> | Map<string, Text>): Data;
  /** Where the parts of a program stand in its text, in bytes of UTF-8: `{"byte":FIRST,"length":BYTES,"tag":"1.2"}` for each. */
  places(text: Text): Data;
  /** Integrates two variants or more with their base. */
  integrate(base: Text, ...variants: Text[]): Told;
}

/** Makes an hpr of the bytes of its module. */
export function load(source: BufferSource | Response | Promise<Response>, options?: Options): Promise<Hpr>;
