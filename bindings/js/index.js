// The library with its module inside: each call of tinyjson.js as a function.
import { Tinyjson } from './tinyjson.js';
import packed from './module.js';

export { DEPTH, TinyjsonError } from './tinyjson.js';

/** The bytes of the module, which is compressed by gzip and written in base64. */
async function unpacked() {
  const bytes = Uint8Array.from(atob(packed), letter => letter.charCodeAt(0));
  if (typeof DecompressionStream === 'undefined') return globalThis.Bun.gunzipSync(bytes);
  return new Response(new Blob([bytes]).stream().pipeThrough(new DecompressionStream('gzip'))).arrayBuffer();
}

const tinyjson = await Tinyjson.load(await unpacked());

export const check = (text, depth) => tinyjson.check(text, depth);
export const normal = (text, depth) => tinyjson.normal(text, depth);
export const indented = (text, depth) => tinyjson.indented(text, depth);
export const normalLines = (text, depth) => tinyjson.normalLines(text, depth);
export const isNormal = text => tinyjson.isNormal(text);
export const equal = (first, second, depth) => tinyjson.equal(first, second, depth);
export const part = (text, pointer, depth) => tinyjson.part(text, pointer, depth);
export const merge = (target, patch, depth) => tinyjson.merge(target, patch, depth);
export const patch = (text, operations, depth) => tinyjson.patch(text, operations, depth);
export const select = (text, query, depth) => tinyjson.select(text, query, depth);
export const selectPaths = (text, query, depth) => tinyjson.selectPaths(text, query, depth);
export const selectLines = (text, query, depth) => tinyjson.selectLines(text, query, depth);
export const selectLinesPaths = (text, query, depth) => tinyjson.selectLinesPaths(text, query, depth);
export const valid = (text, schema, depth) => tinyjson.valid(text, schema, depth);
export const validLines = (text, schema, depth) => tinyjson.validLines(text, schema, depth);
