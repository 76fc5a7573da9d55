/** A JSON text: a string, or its bytes in UTF-8. */
export type Text = string | Uint8Array;

/** The limit on depth that calls have by default: how many containers may be open at once. */
export const DEPTH: 1000;

/** The bytes of memory above which an instance of the module is replaced after a call. */
export const LARGEST: number;

/** The statuses of tinyjson.h that no call answers with, and the end of the engine's stack. */
export type Status = 'REFUSED' | 'NOT_UTF8' | 'OUT_OF_MEMORY' | 'OUT_OF_STACK' | 'BAD_POINTER' | 'BAD_PATCH' | 'FAILED'
  | 'BAD_QUERY' | 'PATTERN_LIMIT' | 'BAD_SCHEMA' | 'SCHEMA_FAULT' | 'STEP_LIMIT';

/** Why a text is refused. */
export type Kind = 'UNEXPECTED_EOF' | 'INVALID_CHARACTER' | 'EXPECTED_EOF' | 'KEY_NOT_STRING' | 'EXPECTED_COLON'
  | 'EXPECTED_COMMA_OR_BRACE' | 'EXPECTED_COMMA_OR_BRACKET' | 'INVALID_UTF16' | 'INVALID_HEX_DIGIT' | 'INVALID_ESCAPE'
  | 'CONTROL_CHARACTER' | 'UNEXPECTED_IN_LITERAL' | 'EMPTY_INTEGER' | 'LEADING_ZERO' | 'EMPTY_FRACTION' | 'EMPTY_EXPONENT'
  | 'NUMBER_OUT_OF_RANGE' | 'TOO_DEEP';

/** Where a character is, as editors count. */
export interface Place {
  /** Its index in the text, from 0 on: in UTF-16 units of a string, in bytes of a Uint8Array. */
  readonly offset: number;
  /** Its line, from 1 on. */
  readonly line: number;
  /** Its column, from 1 on, in UTF-16 units. */
  readonly column: number;
}

/** Why a call has no answer. */
export class TinyjsonError extends Error {
  constructor(status: Status, message: string, fields?: object);
  readonly status: Status;
  /** Which text of the call this is about, from 0 on; or which line. */
  readonly text?: number;
  /** Why the text, or the schema, is refused. */
  readonly kind?: Kind;
  /** The character, or the kind of value, that `kind` names. */
  readonly found?: string;
  /** The line, from 1 on: of REFUSED and BAD_SCHEMA. */
  readonly line?: number;
  /** How many characters were consumed after the last line feed. */
  readonly column?: number;
  /** The character that is wrong: of REFUSED, NOT_UTF8, BAD_QUERY and BAD_SCHEMA. */
  readonly place?: Place;
  /** How many bytes precede what is not UTF-8. */
  readonly validUpTo?: number;
  /** The number of the operation, from 0 on: of BAD_PATCH and FAILED. */
  readonly operation?: number;
  /** A JSON pointer to the fault in the schema: of SCHEMA_FAULT. */
  readonly pointer?: string;
}

/** What is not valid in a text, or in one of its lines. */
export interface Report {
  readonly valid: false;
  readonly error: string;
  /** A JSON pointer to the part that is not valid. */
  readonly instanceLocation: string;
  /** A JSON pointer to the keyword. */
  readonly keywordLocation: string;
  /** Where the part begins, from 1 on. */
  readonly line: number;
  readonly column: number;
}

/** The library in one instance of the module, which is replaced after a trap, or when it has grown large. */
export class Tinyjson {
  constructor(module: WebAssembly.Module, options?: { largest?: number });
  /** Compiles the module: its bytes, or the answer to a `fetch` of it. */
  static load(source: BufferSource | Response | WebAssembly.Module, options?: { largest?: number }): Promise<Tinyjson>;
  /** The bytes of memory that the instance has. */
  readonly memory: number;
  /** Throws a TinyjsonError unless the text has a value. */
  check(text: Text, depth?: number): void;
  /** The one compact text of the value: its keys are sorted, and each number has one spelling. */
  normal(text: string, depth?: number): string;
  normal(text: Uint8Array, depth?: number): Uint8Array;
  /** The text of the value, indented with two spaces. */
  indented(text: string, depth?: number): string;
  indented(text: Uint8Array, depth?: number): Uint8Array;
  /** The normal text of each line, with a line feed behind it. */
  normalLines(text: string, depth?: number): string;
  normalLines(text: Uint8Array, depth?: number): Uint8Array;
  /** Whether the text is its own normal text. One that has no value is not. */
  isNormal(text: Text): boolean;
  /** Whether two texts have equal values. */
  equal(first: Text, second: Text, depth?: number): boolean;
  /** The normal text of the part that a JSON pointer (RFC 6901) names. */
  part(text: string, pointer: Text, depth?: number): string | undefined;
  part(text: Uint8Array, pointer: Text, depth?: number): Uint8Array | undefined;
  /** The normal text of a target with a merge patch (RFC 7396) applied. */
  merge(target: string, patch: Text, depth?: number): string;
  merge(target: Uint8Array, patch: Text, depth?: number): Uint8Array;
  /** The normal text of a text with a patch (RFC 6902) applied, all of its operations or none. */
  patch(text: string, operations: Text, depth?: number): string;
  patch(text: Uint8Array, operations: Text, depth?: number): Uint8Array;
  /** The normal text of each value that a JSONPath query (RFC 9535) selects. */
  select(text: string, query: Text, depth?: number): string[];
  select(text: Uint8Array, query: Text, depth?: number): Uint8Array[];
  /** The normalized path of each value that a JSONPath query selects. */
  selectPaths(text: string, query: Text, depth?: number): string[];
  selectPaths(text: Uint8Array, query: Text, depth?: number): Uint8Array[];
  /** What `select` returns of each line. */
  selectLines(text: string, query: Text, depth?: number): string[][];
  selectLines(text: Uint8Array, query: Text, depth?: number): Uint8Array[][];
  /** What `selectPaths` returns of each line. */
  selectLinesPaths(text: string, query: Text, depth?: number): string[][];
  selectLinesPaths(text: Uint8Array, query: Text, depth?: number): Uint8Array[][];
  /** The report of a text that is not valid by a schema, or undefined. */
  valid(text: Text, schema: Text, depth?: number): Report | undefined;
  /** The report of each line that is not valid by a schema. */
  validLines(text: Text, schema: Text, depth?: number): Report[];
}
