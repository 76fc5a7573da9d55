import type { Tinyjson } from './tinyjson.js';

export { DEPTH, TinyjsonError } from './tinyjson.js';
export type { Kind, Place, Report, Status, Text } from './tinyjson.js';

/** The calls of `Tinyjson`, as functions. */
export const check: Tinyjson['check'];
export const normal: Tinyjson['normal'];
export const indented: Tinyjson['indented'];
export const normalLines: Tinyjson['normalLines'];
export const isNormal: Tinyjson['isNormal'];
export const equal: Tinyjson['equal'];
export const part: Tinyjson['part'];
export const merge: Tinyjson['merge'];
export const patch: Tinyjson['patch'];
export const select: Tinyjson['select'];
export const selectPaths: Tinyjson['selectPaths'];
export const selectLines: Tinyjson['selectLines'];
export const selectLinesPaths: Tinyjson['selectLinesPaths'];
export const valid: Tinyjson['valid'];
export const validLines: Tinyjson['validLines'];
