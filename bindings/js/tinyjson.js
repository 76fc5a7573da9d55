// JSON texts (RFC 8259), checked, also by a schema, normalized, indented, compared, patched and searched by proved code.
//
// A text is a string, or a Uint8Array in UTF-8, and what is written has the type of the first text. In a text at most
// `depth` containers may be open at once.

/** The limit on depth that calls have by default. */
export const DEPTH = 1000;

/** The bytes of memory above which an instance of the module is replaced after a call: its memory never shrinks. */
export const LARGEST = 256 * 1024 * 1024;

const STATUSES = ['OK', 'REFUSED', 'NOT_UTF8', 'OUT_OF_MEMORY', 'TOO_SMALL', 'NO_ERROR', 'NOT_FOUND', 'BAD_POINTER',
  'BAD_PATCH', 'FAILED', 'BAD_QUERY', 'PATTERN_LIMIT', 'INVALID', 'BAD_SCHEMA', 'SCHEMA_FAULT', 'STEP_LIMIT'];

const KINDS = [undefined, 'UNEXPECTED_EOF', 'INVALID_CHARACTER', 'EXPECTED_EOF', 'KEY_NOT_STRING', 'EXPECTED_COLON',
  'EXPECTED_COMMA_OR_BRACE', 'EXPECTED_COMMA_OR_BRACKET', 'INVALID_UTF16', 'INVALID_HEX_DIGIT', 'INVALID_ESCAPE',
  'CONTROL_CHARACTER', 'UNEXPECTED_IN_LITERAL', 'EMPTY_INTEGER', 'LEADING_ZERO', 'EMPTY_FRACTION', 'EMPTY_EXPONENT',
  'NUMBER_OUT_OF_RANGE', 'NO_MEMORY', 'TOO_DEEP'];

const VALUES = [undefined, 'null', 'boolean', 'number', 'string', 'array', 'object'];

// The kinds whose error comes before the character that is wrong is consumed. The others have consumed it.
const BEFORE = new Set(['UNEXPECTED_EOF', 'INVALID_CHARACTER', 'EMPTY_INTEGER', 'EMPTY_FRACTION', 'EMPTY_EXPONENT', 'TOO_DEEP']);

// The kinds that name a character in `found`.
const WITH_CHARACTER = new Set(['INVALID_CHARACTER', 'EXPECTED_EOF', 'EXPECTED_COLON', 'EXPECTED_COMMA_OR_BRACE',
  'EXPECTED_COMMA_OR_BRACKET', 'INVALID_HEX_DIGIT', 'INVALID_ESCAPE', 'CONTROL_CHARACTER', 'UNEXPECTED_IN_LITERAL', 'TOO_DEEP']);

const WORDS = {
  OUT_OF_MEMORY: () => 'Out of memory',
  OUT_OF_STACK: () => "The engine's stack ended",
  NOT_UTF8: place => `Not UTF-8 after ${place.length} bytes`,
  BAD_POINTER: () => 'Not a JSON pointer',
  BAD_PATCH: place => `Not a JSON patch: no operation ${place.length}`,
  FAILED: place => `Operation ${place.length} can't be applied`,
  BAD_QUERY: place => `Not a JSONPath query at character ${place.length}`,
  PATTERN_LIMIT: () => 'A regular expression is too deep or too large',
  SCHEMA_FAULT: (_, pointer) => `The schema can't be applied at ${JSON.stringify(pointer)}`,
  STEP_LIMIT: () => 'The check needs too many nested schemas, or too many steps',
};

const encoder = new TextEncoder();
const decoder = new TextDecoder('utf-8', { fatal: true, ignoreBOM: true });
const lenient = new TextDecoder('utf-8', { ignoreBOM: true });

/** Why a call has no answer. */
export class TinyjsonError extends Error {
  constructor(status, message, fields = {}) {
    super(message);
    this.name = 'TinyjsonError';
    this.status = status;
    Object.assign(this, fields);
  }
}

/** The library in one instance of the module, which is replaced after a trap, or when it has grown large. */
export class Tinyjson {
  #module;
  #largest;
  #exports;

  constructor(module, { largest = LARGEST } = {}) {
    this.#module = module;
    this.#largest = largest;
  }

  /** Compiles the module: its bytes, or the answer to a `fetch` of it. */
  static async load(source, options) {
    if (source instanceof WebAssembly.Module) return new Tinyjson(source, options);
    const bytes = typeof Response !== 'undefined' && source instanceof Response ? await source.arrayBuffer() : source;
    return new Tinyjson(await WebAssembly.compile(bytes), options);
  }

  /** The bytes of memory that the instance has. */
  get memory() {
    return this.#instance().memory.buffer.byteLength;
  }

  check(text, depth = DEPTH) {
    this.#done('check', [text], depth);
  }

  normal(text, depth = DEPTH) {
    return like(text, this.#done('normal', [text], depth, 1).written);
  }

  indented(text, depth = DEPTH) {
    return like(text, this.#done('indented', [text], depth, 2).written);
  }

  normalLines(text, depth = DEPTH) {
    return like(text, this.#done('normal_lines', [text], depth, 1).written);
  }

  isNormal(text) {
    return this.#done('is_normal', [text]).place.found === 1;
  }

  equal(first, second, depth = DEPTH) {
    return this.#done('equal', [first, second], depth).place.found === 1;
  }

  part(text, pointer, depth = DEPTH) {
    const { status, written } = this.#done('part', [text, pointer], depth, 1);
    return status === 'NOT_FOUND' ? undefined : like(text, written);
  }

  merge(target, patch, depth = DEPTH) {
    return like(target, this.#done('merge', [target, patch], depth, 1).written);
  }

  patch(text, operations, depth = DEPTH) {
    return like(text, this.#done('patch', [text, operations], depth, 1).written);
  }

  select(text, query, depth = DEPTH) {
    return lines(text, this.#done('select', [text, query], depth, 1).written);
  }

  selectPaths(text, query, depth = DEPTH) {
    return lines(text, this.#done('select_paths', [text, query], depth, 1).written);
  }

  selectLines(text, query, depth = DEPTH) {
    return lists(text, this.#done('select_lines', [text, query], depth, 1).written);
  }

  selectLinesPaths(text, query, depth = DEPTH) {
    return lists(text, this.#done('select_lines_paths', [text, query], depth, 1).written);
  }

  valid(text, schema, depth = DEPTH) {
    const { status, written } = this.#done('valid', [text, schema], depth, 1);
    return status === 'OK' ? undefined : JSON.parse(decoder.decode(written));
  }

  validLines(text, schema, depth = DEPTH) {
    return lines('', this.#done('valid_lines', [text, schema], depth, 1).written).map(report => JSON.parse(report));
  }

  /** What a call answers: its status, its place and what it writes. It throws a TinyjsonError where there is none. */
  #done(name, texts, depth, room) {
    const answer = this.call(name, texts, depth, room);
    if (['OK', 'NOT_FOUND', 'INVALID'].includes(answer.status)) return answer;
    throw failure(name, texts, answer);
  }

  /**
   * Calls an export with texts, a depth and a buffer, which has `room` times the bytes of the first text, and grows to what
   * the call asks for. It answers the status, the numbers of the place, what is written, and the message of an error.
   */
  call(name, texts, depth, room) {
    texts.forEach(expectText);
    const last = depth === undefined ? [] : [limit(depth)];
    const instance = this.#instance(), taken = [];
    try {
      const given = texts.flatMap(text => put(instance, text, taken));
      let size = room === undefined ? undefined : given[1] * room;
      for (;;) {
        const buffer = size === undefined ? [] : [take(instance, size, taken), size];
        const status = this.#run(instance, name, [...given, ...last, ...buffer]);
        const place = placeOf(instance);
        if (status !== 'TOO_SMALL') {
          const isWritten = buffer.length > 0 && ['OK', 'INVALID', 'SCHEMA_FAULT'].includes(status);
          const written = isWritten ? new Uint8Array(instance.memory.buffer, buffer[0], place.length).slice() : undefined;
          return { status, place, written, message: place.kind === 0 ? '' : messageOf(instance, taken) };
        }
        instance.give(taken.pop());
        size = place.length;
      }
    } finally {
      if (this.#exports === instance) {
        for (const at of taken) instance.give(at);
        if (instance.memory.buffer.byteLength > this.#largest) this.#exports = undefined;
      }
    }
  }

  /** The status of a call. A trap, or the end of the engine's stack, leaves the memory half written: so the instance goes. */
  #run(instance, name, words) {
    try {
      return STATUSES[instance[name](...words)];
    } catch (error) {
      this.#exports = undefined;
      throw new TinyjsonError('OUT_OF_STACK', WORDS.OUT_OF_STACK(), { cause: error });
    }
  }

  #instance() {
    this.#exports ??= new WebAssembly.Instance(this.#module, {}).exports;
    return this.#exports;
  }
}

// ---- what goes into the module's memory, and what is read there

function expectText(text) {
  if (typeof text === 'string') return;
  if (!(text instanceof Uint8Array)) throw new TypeError('a text is a string or a Uint8Array');
  // This throws a TypeError where the buffer is detached: its bytes are gone.
  if (text.length === 0) new Uint8Array(text.buffer);
}

function limit(depth) {
  if (typeof depth !== 'number' || !(depth >= 0)) throw new TypeError('a depth is a number that is not negative');
  return Math.min(Math.floor(depth), 0xffffffff);
}

function take(instance, size, taken) {
  const at = size < 2 ** 31 ? instance.take(size) >>> 0 : 0;
  if (at === 0) throw new TinyjsonError('OUT_OF_MEMORY', WORDS.OUT_OF_MEMORY());
  taken.push(at);
  return at;
}

/** Where a text is in the memory, and how many bytes it has. */
function put(instance, text, taken) {
  if (typeof text === 'string' && text.length < 1 << 16 && isWellFormed(text)) {
    const at = take(instance, text.length * 3, taken);
    return [at, encoder.encodeInto(text, new Uint8Array(instance.memory.buffer, at, text.length * 3)).written];
  }
  const bytes = encoded(text), at = take(instance, bytes.length, taken);
  new Uint8Array(instance.memory.buffer, at, bytes.length).set(bytes);
  return [at, bytes.length];
}

function isWellFormed(text) {
  return text.isWellFormed ? text.isWellFormed() : !/\p{Surrogate}/u.test(text);
}

/** The bytes of a text. A lone surrogate has the three bytes that stand for it, which are not UTF-8, and so are refused. */
function encoded(text) {
  if (typeof text !== 'string') return text;
  if (isWellFormed(text)) return encoder.encode(text);
  const parts = text.split(/(\p{Surrogate})/u).map((part, number) => {
    const unit = part.charCodeAt(0);
    return number % 2 === 0 ? encoder.encode(part) : Uint8Array.of(0xe0 | unit >> 12, 0x80 | unit >> 6 & 0x3f, 0x80 | unit & 0x3f);
  });
  const bytes = new Uint8Array(parts.reduce((length, part) => length + part.length, 0));
  let at = 0;
  for (const part of parts) {
    bytes.set(part, at);
    at += part.length;
  }
  return bytes;
}

function placeOf(instance) {
  const view = new DataView(instance.memory.buffer, instance.place() >>> 0, 40);
  const [line, column, length, text] = [8, 16, 24, 32].map(at => Number(view.getBigUint64(at, true)));
  return { kind: view.getUint32(0, true), found: view.getUint32(4, true), line, column, length, text };
}

/** The message of the error at the place. The longest has some 170 bytes. */
function messageOf(instance, taken) {
  const at = take(instance, 256, taken), length = instance.message(at, 256);
  return decoder.decode(new Uint8Array(instance.memory.buffer, at, length));
}

// ---- answers

/** What was written, in the type of a text. */
function like(text, written) {
  return typeof text === 'string' ? decoder.decode(written) : written;
}

function lines(text, written) {
  if (written === undefined) return [];
  if (typeof text === 'string') return decoder.decode(written).split('\n').slice(0, -1);
  const found = [];
  for (let from = 0, to; (to = written.indexOf(10, from)) >= 0; from = to + 1) found.push(written.subarray(from, to));
  return found;
}

/** The lines of each text, which an empty line ends. */
function lists(text, written) {
  const found = [[]];
  for (const line of lines(text, written)) {
    if (line.length > 0) found.at(-1).push(line);
    else found.push([]);
  }
  return found.slice(0, -1);
}

// ---- errors

const OF_LINES = new Set(['normal_lines', 'select_lines', 'select_lines_paths', 'valid_lines']);

/** The error of a call that has no answer. */
function failure(name, texts, { status, place, written, message }) {
  const isLine = OF_LINES.has(name) && !['BAD_QUERY', 'BAD_SCHEMA', 'SCHEMA_FAULT', 'OUT_OF_MEMORY'].includes(status);
  const text = texts[isLine ? 0 : Math.min(place.text, texts.length - 1)];
  const kind = KINDS[place.kind], fields = { text: place.text };
  const before = isLine ? startOfLine(text, place.text) : 0;
  if (kind !== undefined && status !== 'OUT_OF_MEMORY') {
    Object.assign(fields, { kind, line: place.line, column: place.column });
    if (WITH_CHARACTER.has(kind)) fields.found = String.fromCodePoint(place.found);
    if (kind === 'KEY_NOT_STRING') fields.found = VALUES[place.found];
    fields.place = placeIn(text, wrongAt(text, before, kind, place));
  } else if (status === 'NOT_UTF8' || (status === 'BAD_SCHEMA' && place.kind === 0)) {
    fields.validUpTo = place.length;
    fields.place = placeIn(text, atByte(text, before, place.length));
  } else if (status === 'BAD_QUERY') {
    fields.place = placeIn(text, afterCharacters(text, 0, place.length));
  } else if (status === 'BAD_PATCH' || status === 'FAILED') {
    fields.operation = place.length;
  }
  if (status === 'SCHEMA_FAULT') fields.pointer = decoder.decode(written);
  const words = message || (WORDS[status] ?? WORDS.NOT_UTF8)(place, fields.pointer);
  return new TinyjsonError(status, status === 'BAD_SCHEMA' ? `The schema: ${words}` : words, fields);
}

/** Where the line of a number, from 0 on, begins: an index into a string or into bytes. */
function startOfLine(text, number) {
  let at = 0;
  for (; number > 0; number--) at = text.indexOf(typeof text === 'string' ? '\n' : 10, at) + 1;
  return at;
}

/** The index of the character that is wrong. */
function wrongAt(text, before, kind, { line, column }) {
  const start = startOfLine(before === 0 ? text : text.slice(before), line - 1) + before;
  const at = afterCharacters(text, start, column);
  return BEFORE.has(kind) ? at : previous(text, at);
}

/** The index after so many characters from an index on. */
function afterCharacters(text, from, number) {
  let at = from;
  for (; number > 0 && at < text.length; number--) at += width(text, at);
  return at;
}

/** How many units the character at an index has. */
function width(text, at) {
  if (typeof text === 'string') return text.codePointAt(at) > 0xffff ? 2 : 1;
  let length = 1;
  while (at + length < text.length && (text[at + length] & 0xc0) === 0x80) length++;
  return length;
}

/** The index of the character before an index. */
function previous(text, at) {
  if (at === 0) return 0;
  if (typeof text === 'string') return at > 1 && text.codePointAt(at - 2) > 0xffff ? at - 2 : at - 1;
  do at--; while (at > 0 && (text[at] & 0xc0) === 0x80);
  return at;
}

/** The index of the character that begins after so many bytes from an index on. */
function atByte(text, from, length) {
  if (typeof text !== 'string') return from + length;
  let at = from;
  for (let bytes = 0; bytes < length; at += width(text, at)) {
    const point = text.codePointAt(at);
    bytes += point < 0x80 ? 1 : point < 0x800 ? 2 : point < 0x10000 ? 3 : 4;
  }
  return at;
}

/** A place as editors count: the index, from 0 on, and the line and the column of UTF-16 units, from 1 on. */
function placeIn(text, offset) {
  const front = typeof text === 'string' ? text.slice(0, offset) : lenient.decode(text.subarray(0, offset));
  const line = front.split('\n').length, column = front.length - (front.lastIndexOf('\n') + 1) + 1;
  return { offset, line, column };
}
