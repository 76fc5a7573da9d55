// The rows that tests/bindings writes, by the calls of the package: rows.mjs PACKAGE TESTED.wasm ROWS
//
// The module TESTED.wasm has an allocator of which an allocation can be refused. The last line is 'N passed, M failed'.
import fs from 'node:fs';
import path from 'node:path';
import { fileURLToPath, pathToFileURL } from 'node:url';
import { isDeepStrictEqual } from 'node:util';

const [folder, tested, rows] = process.argv.slice(2).map(it => path.resolve(it));
const { Tinyjson, TinyjsonError } = await import(pathToFileURL(`${folder}/tinyjson.js`));
const whole = await import(pathToFileURL(`${folder}/index.js`));
const bytesOfModule = fs.readFileSync(`${folder}/tinyjson.wasm`);
const library = await Tinyjson.load(bytesOfModule);

let passed = 0, failed = 0;

function check(isRight, what) {
  if (isRight) passed++;
  else if (++failed <= 20) console.log('js:', what.slice(0, 300));
}

function same(answer, expected, what) {
  check(isDeepStrictEqual(answer, expected), `${what}: ${show(answer)}, and not ${show(expected)}`);
}

const show = value => JSON.stringify(value, (_, it) => it instanceof Uint8Array ? Buffer.from(it).toString() : it) ?? 'undefined';
const bytes = digits => Uint8Array.from(Buffer.from(digits, 'hex'));
const words = given => new TextDecoder('utf-8', { fatal: true, ignoreBOM: true }).decode(given);
const lines = name => fs.readFileSync(`${rows}/${name}.txt`, 'utf8').split('\n').filter(it => it).map(it => it.split('\t'));

/** What is thrown. */
function thrown(call) {
  try {
    call();
  } catch (error) {
    return error;
  }
  return undefined;
}

// The names of the numbers of the header.
const header = fs.readFileSync(fileURLToPath(new URL('../../c/tinyjson.h', import.meta.url)), 'utf8');
const names = name => Object.fromEntries([...header.match(RegExp(`enum ${name} {(.*?)};`, 's'))[1].matchAll(/TINYJSON_(\w+) = (\d+)/g)]
  .map(([, word, number]) => [number, word]));
const KIND = names('tinyjson_kind'), VALUE = names('tinyjson_value');

// ---- texts

function accepts(text, depth, normal, indented) {
  const inBytes = [text, bytes(normal), bytes(indented)];
  for (const [given, wanted, pretty] of [inBytes, inBytes.map(words)]) {
    same(library.check(given, depth), undefined, `check ${show(given)}`);
    same(library.normal(given, depth), wanted, `normal ${show(given)}`);
    if (indented) same(library.indented(given, depth), pretty, `indented ${show(given)}`);
    same(library.isNormal(given), isDeepStrictEqual(given, wanted), `isNormal ${show(given)}`);
    same(library.equal(given, wanted, depth), true, `equal ${show(given)}`);
    same(library.equal('["no value of a row"]', given, Math.max(depth, 1)), false, `unequal ${show(given)}`);
  }
}

/** Whether a place is where its line and its column say. */
function isPlace(text, { offset, line, column }) {
  const front = typeof text === 'string' ? text.slice(0, offset) : Buffer.from(text.subarray(0, offset)).toString();
  const before = front.split('\n');
  return line === before.length && column === before.at(-1).length + 1 && offset <= text.length;
}

function refuses(text, depth, [kind, found, line, column, length], message) {
  const given = [text, ...kind === '0' ? [] : [words(text)]];
  for (const one of given) {
    const calls = [() => library.check(one, depth), () => library.normal(one, depth), () => library.indented(one, depth),
      () => library.equal(one, '1', depth), () => library.equal('1', one, depth)];
    calls.forEach((call, number) => {
      const error = thrown(call), what = `error ${number} of ${show(one)}`;
      check(error instanceof TinyjsonError, what);
      same(error.text, Number(number === 4), what);
      if (kind === '0') {
        same([error.status, error.validUpTo, error.place.offset], ['NOT_UTF8', Number(length), Number(length)], what);
        return;
      }
      same([error.status, error.kind, error.line, error.column, error.message],
        ['REFUSED', KIND[kind], Number(line), Number(column), words(bytes(message))], what);
      const isKind = KIND[kind] === 'KEY_NOT_STRING', character = String.fromCodePoint(Number(found));
      same(error.found, found === '0' ? undefined : isKind ? VALUE[found].toLowerCase() : character, what);
      check(isPlace(one, error.place), `the place of ${what}`);
      if (found !== '0' && !isKind) {
        const rest = typeof one === 'string' ? one.slice(error.place.offset) : words(one.subarray(error.place.offset));
        check(rest.startsWith(character), `the character of ${what}`);
      }
    });
  }
  if (kind === '0') same(thrown(() => library.isNormal(text))?.status, 'NOT_UTF8', `isNormal ${show(text)}`);
  else if (KIND[kind] !== 'TOO_DEEP') same(library.isNormal(text), false, `isNormal ${show(text)}`);
}

const ROWS = lines('rows');
for (const [text, depth, normal, indented, ...rest] of ROWS) {
  if (normal) accepts(bytes(text), Number(depth), normal, indented);
  else refuses(bytes(text), Number(depth), rest.slice(0, 5), rest[5]);
}

const accepted = ROWS.filter(([text, , normal]) => normal && !bytes(text).includes(10));
const all = accepted.map(([text]) => words(bytes(text))).join('\n'), written = accepted.map(it => `${words(bytes(it[2]))}\n`).join('');
same(library.normalLines(all), written, 'normalLines');
same(library.normalLines(`${all}\n`), written, 'normalLines');
const cut = thrown(() => library.normalLines(`${all}\n[1`));
same([cut.text, cut.line, cut.column, cut.place], [accepted.length, 1, 2, { offset: all.length + 3, line: accepted.length + 1, column: 3 }],
  'the last line');

// ---- two texts

/** The name of a call of the header. */
const nameOf = call => call.replace(/_(\w)/g, (_, letter) => letter.toUpperCase());

/** The lines of each text, behind which is an empty line. */
function lists(given) {
  const found = [[]];
  for (const line of given.split('\n').slice(0, -1)) {
    if (line) found.at(-1).push(line);
    else found.push([]);
  }
  return found.slice(0, -1);
}

function expected(call, status, given) {
  if (status === 'NOT_FOUND' || (call === 'valid' && status === 'OK')) return undefined;
  if (call === 'valid') return JSON.parse(given);
  if (call === 'valid_lines') return given.split('\n').slice(0, -1).map(it => JSON.parse(it));
  if (call.startsWith('select_lines')) return lists(given);
  return call.startsWith('select') ? given.split('\n').slice(0, -1) : given;
}

/** An answer with strings in the place of bytes. */
function inWords(answer) {
  if (answer instanceof Uint8Array) return words(answer);
  return Array.isArray(answer) ? answer.map(inWords) : answer;
}

const PAIRS = lines('pairs');
for (const [call, one, other, depth, status, given, ...place] of PAIRS) {
  const name = nameOf(call), what = `${call} ${one.slice(0, 60)} ${other.slice(0, 60)}`;
  const [kind, , line, column, length, text] = place;
  const hasStack = call !== 'merge' || other.length < 9000;
  if (['OK', 'NOT_FOUND', 'INVALID'].includes(status)) {
    for (const texts of [[bytes(one), bytes(other)], [words(bytes(one)), words(bytes(other))]]) {
      const ran = { answer: undefined };
      const error = thrown(() => { ran.answer = library[name](...texts, Number(depth)); });
      // A merge patch of 1,000 levels takes more stack than some engines have: then the call says so.
      if (error && !hasStack) same(error.status, 'OUT_OF_STACK', what);
      else if (error) check(false, `${what}: ${error.message}`);
      else same(inWords(ran.answer), expected(call, status, words(bytes(given))), what);
    }
    continue;
  }
  const error = thrown(() => library[name](bytes(one), bytes(other), Number(depth)));
  check(error instanceof TinyjsonError, `${what}: ${error}`);
  same([error.status, error.text], [status, Number(text)], what);
  if (kind !== '0') same([error.kind, error.line, error.column], [KIND[kind], Number(line), Number(column)], what);
  if (status === 'NOT_UTF8') same(error.validUpTo, Number(length), what);
  if (status === 'FAILED' || status === 'BAD_PATCH') same(error.operation, Number(length), what);
  if (status === 'SCHEMA_FAULT') same(error.pointer, words(bytes(given)), what);
  const isAscii = bytes(other).every(byte => byte < 0x80);
  if (status === 'BAD_QUERY' && isAscii) same(error.place.offset, Number(length), what);
}

// ---- the function of each call

for (const name of Object.getOwnPropertyNames(Tinyjson.prototype).filter(it => !['constructor', 'call', 'memory'].includes(it))) {
  same(typeof whole[name], 'function', `${name} of the package`);
}
same(whole.normal('{"b": [1.50, true], "a": 2e3}'), '{"a":2000,"b":[1.5,true]}', 'the package');
same(whole.valid('[1.5]', '{"items": {"type": "integer"}}').line, 1, 'the package');

// ---- the place of the character that is wrong: text, offset, line, column

const PLACES = [
  ['', 0, 1, 1],
  ['[1,\n tru]', 8, 2, 5],
  ['[1,]', 3, 1, 4],
  ['[1 2]', 3, 1, 4],
  ['["😀", x]', 7, 1, 8],
  ['["😀" 😀]', 6, 1, 7],
  ['["é\n"]', 3, 1, 4],
  ['"a\\q"', 3, 1, 4],
  ['-', 1, 1, 2],
  ['1.x', 2, 1, 3],
  ['\n\n00', 3, 3, 2],
  ['[[', 2, 1, 3],
  ['{"a":1}\n\n😀', 9, 3, 1],
];
for (const [text, offset, line, column] of PLACES) {
  same(thrown(() => library.check(text)).place, { offset, line, column }, `the place in ${text}`);
}
same(thrown(() => library.check(new TextEncoder().encode('["😀", x]'))).place, { offset: 9, line: 1, column: 8 }, 'a place in bytes');
same(thrown(() => library.select('{"a":1}', '$["😀", ?')).place, { offset: 9, line: 1, column: 10 }, 'a place in a query');
same(thrown(() => library.valid('1', '{"type": [}')).place, { offset: 10, line: 1, column: 11 }, 'a place in a schema');
same(thrown(() => library.validLines('1\n[2,]\n3', 'true')).place, { offset: 5, line: 2, column: 4 }, 'a place in a line');

// ---- arguments

same(library.normal(`[${'1e20,'.repeat(100)}1]`).length, 101 * 22 - 20 + 1, 'the buffer grows');
same(thrown(() => library.check('1\0')).found, '\0', 'a NUL is a character');
for (const text of ['"\ud800"', '"a\udc00', '\ud800']) {
  const error = thrown(() => library.check(text));
  same([error.status, error.place.offset], ['NOT_UTF8', text.search(/[\ud800-\udfff]/)], `a lone surrogate in ${JSON.stringify(text)}`);
}
same(library.normal('"\ud83d\ude00"'), '"😀"', 'a pair of surrogates');
same(library.normal('\t"😀"'.padEnd(100000)), '"😀"', 'a long string');
same(library.normal(new TextEncoder().encode('[1 ]').subarray(0, 4)), bytes('5b315d'), 'a part of a buffer');
same(thrown(() => library.check(new Uint8Array(0)))?.kind, 'UNEXPECTED_EOF', 'no bytes');
const lent = new Uint8Array(8);
structuredClone(lent.buffer, { transfer: [lent.buffer] });
check(thrown(() => library.check(lent)) instanceof TypeError, 'a detached buffer');
for (const text of [undefined, null, 1, {}, [91, 93], new ArrayBuffer(2), new Uint16Array(2)]) {
  check(thrown(() => library.check(text)) instanceof TypeError, `a text of another type: ${show(text)}`);
  check(thrown(() => library.equal('1', text)) instanceof TypeError, `a second text of another type: ${show(text)}`);
}
for (const depth of [-1, NaN, '9', null, 1n]) check(thrown(() => library.check('[]', depth)) instanceof TypeError, 'a depth that is none');
same(library.normal('[[]]', Infinity), '[[]]', 'no limit on depth');
same(library.normal('[[]]', 2 ** 40), '[[]]', 'a large limit on depth');

// ---- an instance that has trapped or has grown

const small = await Tinyjson.load(bytesOfModule, { largest: 32 << 20 });
const levels = 900000, nested = '['.repeat(levels) + ']'.repeat(levels);
same(small.normal(nested, levels), nested, 'deep arrays take no stack');
check(small.memory <= 32 << 20, 'an instance that has grown is replaced');
const members = levels => `${'{"a":'.repeat(levels)}1${'}'.repeat(levels)}`;
const error = thrown(() => library.merge('[]', members(900), 1000));
check(error === undefined || error.status === 'OUT_OF_STACK', `a deep merge patch: ${error}`);
same(library.merge('{"a":[]}', members(500), 1000), members(500), 'a merge patch of 500 levels');
function recurse(levels) {
  return levels === 0 ? library.merge('{}', '{"a":1}') : recurse(levels - 1);
}
for (let levels = 1000; levels < 30000; levels += 100) {
  const stopped = thrown(() => recurse(levels));
  if (stopped === undefined) continue;
  check(stopped.status === 'OUT_OF_STACK' || stopped instanceof RangeError, `little stack: ${stopped}`);
  break;
}
same(library.normal('[1.50]'), '[1.5]', 'a call after the end of the stack');

// ---- each allocation refused

const refusing = await WebAssembly.compile(fs.readFileSync(tested));

/** Calls an export as the library does, with an allocation refused: whether it was, the status and the place. */
function refused(exports, call, texts, depth, room, number) {
  const taken = [];
  const put = given => {
    const at = exports.take(given.length + 1) >>> 0;
    new Uint8Array(exports.memory.buffer, at, given.length).set(given);
    taken.push(at);
    return [at, given.length];
  };
  const given = texts.flatMap(put), buffer = put(new Uint8Array(room));
  exports.grant(number);
  const status = exports[call](...given, depth, ...call === 'check' ? [] : buffer);
  const wasRefused = exports.granted() < 0;
  exports.grant(-1);
  const place = [...new Uint32Array(exports.memory.buffer, exports.place(), 10)];
  for (const at of taken) exports.give(at);
  return { wasRefused, status, place };
}

const NO_MEMORY = 3, KIND_OF_NO_MEMORY = 18;
const exports = new WebAssembly.Instance(refusing, {}).exports;

function survives(call, texts, depth, room) {
  const usual = refused(exports, call, texts, depth, room, -1);
  for (let number = 0, isMore = true; isMore; number += 1 + (number >> 6)) {
    const { wasRefused, status, place } = refused(exports, call, texts, depth, room, number);
    isMore = wasRefused;
    const isRight = status === NO_MEMORY ? wasRefused && place[0] === KIND_OF_NO_MEMORY
      : status === usual.status && isDeepStrictEqual(place, usual.place);
    if (!isRight) return false;
  }
  return true;
}

for (const [text, depth, normal] of ROWS) {
  for (const call of ['check', 'normal', 'indented']) {
    if (text.length < 400) check(survives(call, [bytes(text)], Number(depth), normal.length * 2), `memory refused: ${call} ${text}`);
  }
}
for (const [call, one, other, depth, , given] of PAIRS.filter((_, number) => number % 5 === 0)) {
  if (one.length + other.length < 400) {
    check(survives(call, [bytes(one), bytes(other)], Number(depth), given.length / 2), `memory refused: ${call} ${one} ${other}`);
  }
}

console.log(`${passed} passed, ${failed} failed`);
process.exit(failed > 0 ? 1 : 0);
