// What the page asks of the library, in a worker: a tab, its two texts, and back come a state, what is written, and what to mark.

const RUN = {
  Normal: (it, text) => ({ written: it.normal(text) }),
  Indented: (it, text) => ({ written: it.indented(text) }),
  Schema: (it, text, schema) => reported(text, it.valid(text, schema)),
  Query: (it, text, query) => selected(it.selectPaths(text, query), it.select(text, query)),
  Pointer: (it, text, pointer) => found(it.part(text, pointer.trim())),
  Patch: (it, text, patch) => ({ written: it.patch(text, patch) }),
  Merge: (it, text, patch) => ({ written: it.merge(text, patch) }),
  Compare: (it, text, other) => it.equal(text, other) ? { state: 'good', words: 'Equal' } : { state: 'bad', words: 'Not equal' },
};

function selected(paths, values) {
  if (paths.length === 0) return { words: 'Nothing is selected' };
  return { written: paths.map((path, number) => `${path}\n    ${values[number]}`).join('\n') };
}

function found(part) {
  return part === undefined ? { state: 'bad', words: 'The pointer names no part' } : { written: part };
}

function reported(text, report) {
  if (report === undefined) return { state: 'good', words: 'Valid' };
  const from = afterCharacters(text, startOfLine(text, report.line - 1), report.column - 1);
  return {
    state: 'bad',
    words: `${report.instanceLocation || 'The value'} ${report.error}: line ${report.line}, column ${report.column}`,
    written: `keyword   ${report.keywordLocation}\ninstance  ${report.instanceLocation || '""'}`,
    fault: { field: 'text', from, to: from + tokenLength(text, from) },
  };
}

/** How long the token is that begins at an index. */
function tokenLength(text, from) {
  return /^(?:"(?:[^"\\\n]|\\.)*"?|[^\s,:[\]{}"]+|.)/su.exec(text.slice(from, from + 10000))?.[0].length ?? 1;
}

/** What the page shows of an error. */
function refusal(error, texts) {
  const isOther = error.text === 1, { place } = error;
  const number = error.operation === undefined ? '' : ` (number ${error.operation}, from 0 on)`;
  if (!place) return { state: 'bad', words: error.message + number };
  const text = texts[isOther ? 1 : 0];
  const words = error.message.replace(/^(The schema: )?Parse error at line:\d+, col:\d+: /, '$1');
  return {
    state: 'bad',
    words: `Line ${place.line}, column ${place.column}: ${words}`,
    fault: { field: isOther ? 'other' : 'text', from: place.offset, to: place.offset + width(text, place.offset) },
  };
}

let library;

onmessage = ({ data }) => {
  if (data.module) {
    library = new Tinyjson(data.module);
    return;
  }
  const { id, tab, texts } = data, began = performance.now();
  let answer;
  try {
    answer = RUN[tab](library, ...texts);
  } catch (error) {
    answer = error instanceof TinyjsonError ? refusal(error, texts) : { state: 'bad', words: `${error}` };
  }
  postMessage({ id, took: performance.now() - began, ...answer });
};
