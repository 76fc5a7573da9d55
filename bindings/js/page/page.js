const $ = id => document.getElementById(id);

const SAMPLE = `{
  "task": "pay",
  "sum": 12345678901234567890.10,
  "done": false,
  "tags": ["home", "2e3"]
}`;

// What the second field of each tab holds, and an example.
const TABS = {
  Normal: {},
  Indented: {},
  Schema: {
    other: 'JSON Schema',
    sample: '{\n  "required": ["task", "sum"],\n  "properties": {\n    "sum": { "maximum": 1000 },\n    "done": { "type": "boolean" }\n  }\n}',
  },
  Query: { other: 'JSONPath', sample: "$.tags[?match(@, '[a-z]+')]" },
  Pointer: { other: 'JSON Pointer', sample: '/tags/0' },
  Patch: {
    other: 'JSON Patch',
    sample: '[\n  { "op": "test", "path": "/task", "value": "pay" },\n  { "op": "replace", "path": "/done", "value": true }\n]',
  },
  Merge: { other: 'Merge patch', sample: '{ "done": true, "tags": null }' },
  Compare: { other: 'JSON', sample: '{"tags":["home","2e3"],"done":false,"sum":12345678901234567890.1,"task":"pay"}' },
};

// The examples of the README.
const EXAMPLES = {
  'a normal form': { tab: 'Normal', text: '{"b": [1.50, true], "a": 2e3}' },
  'a task is done': { tab: 'Merge', text: '{"task": "pay", "sum": 12345678901234567890.10, "done": false}', other: '{"done": true}' },
  'two numbers': { tab: 'Compare', text: '1e400', other: '10e399' },
};

// After so many ms a call is ended, with its worker: two seconds, or `limit` of the address. From so many characters on a text
// is read when no key was pressed for a while, its lines do not wrap, its fault is not marked, and of an answer only the front
// is shown.
const LIMIT = Number(new URLSearchParams(location.search).get('limit') ?? 2000);
const LONG = 100000;
const PAUSE = 250;
const SHOWN = 100000;
const LONGEST_LINK = 8000;

const fields = { text: $('text-field'), other: $('other-field') };
const others = Object.fromEntries(Object.entries(TABS).map(([name, { sample }]) => [name, sample ?? '']));
let tab = 'Schema', module, worker, asked = 0, running, waiting, pause, ending, whole = '';

// ---- the worker

function start() {
  const source = new Blob([$('library').textContent], { type: 'text/javascript' });
  const url = URL.createObjectURL(source);
  worker = new Worker(url);
  URL.revokeObjectURL(url);
  worker.postMessage({ module });
  worker.onmessage = ({ data }) => {
    clearTimeout(ending);
    running = undefined;
    if (data.id === asked) show(data);
    next();
  };
  worker.onerror = event => stop(`The worker has failed: ${event.message}`);
}

/** Ends the worker, and says why there is no answer. */
function stop(words) {
  clearTimeout(ending);
  worker.terminate();
  const isLast = running === asked;
  running = undefined;
  start();
  if (isLast) show({ state: 'bad', words });
  next();
}

/** Asks the last question that waits. */
function next() {
  if (!waiting || running !== undefined) return;
  running = waiting.id;
  worker.postMessage(waiting);
  waiting = undefined;
  ending = setTimeout(() => stop(`The call was ended: it took longer than ${LIMIT / 1000} seconds`), LIMIT);
}

function ask() {
  if (!module) return;
  waiting = { id: ++asked, tab, texts: [fields.text.value, fields.other.value] };
  next();
}

/** Asks now, or when the keys are still. */
function soon() {
  clearTimeout(pause);
  if (fields.text.value.length + fields.other.value.length < LONG) ask();
  else pause = setTimeout(ask, PAUSE);
}

// ---- the answer

function show({ state = '', words = '', written = '', fault, took }) {
  for (const name of Object.keys(fields)) mark(name);
  const line = $('state');
  line.className = state;
  line.replaceChildren();
  if (fault) {
    const { field, from, to } = fault, button = document.createElement('button');
    Object.assign(button, { className: 'fault', type: 'button', textContent: words, onclick: () => choose(field, from, to) });
    line.append(button);
    mark(field, from, to);
  } else line.textContent = words;
  whole = written;
  const rest = written.length - SHOWN;
  $('written').textContent = rest > 0 ? `${written.slice(0, SHOWN)}\n… and ${rest.toLocaleString('en')} more characters, which Copy has` : written;
  $('answer').querySelector('.about').textContent = took === undefined ? '' : `${took.toFixed(1)} ms`;
  $('panel').dataset.answered = asked;
}

/** Marks a part of a field, or none. */
function mark(name, from, to) {
  const under = $(name).querySelector('.under'), field = fields[name], text = field.value;
  under.replaceChildren();
  field.setAttribute('aria-invalid', from !== undefined);
  if (from === undefined || text.length > LONG) return;
  const marked = document.createElement('mark');
  const part = text.slice(from, to);
  marked.textContent = part === '' || part === '\n' ? ` ${part}` : part;
  under.append(text.slice(0, from), marked, `${text.slice(to)}\n`);
  under.scrollTop = field.scrollTop;
}

function choose(name, from, to) {
  fields[name].focus();
  fields[name].setSelectionRange(from, to);
}

// ---- tabs, files, links

function open(name) {
  others[tab] = fields.other.value;
  tab = name;
  for (const button of document.querySelectorAll('nav button')) {
    const isOpen = button.textContent === name;
    button.setAttribute('aria-selected', isOpen);
    button.tabIndex = isOpen ? 0 : -1;
    if (isOpen) $('panel').setAttribute('aria-labelledby', button.id);
  }
  $('panel').classList.toggle('one', !TABS[name].other);
  $('other').querySelector('label').textContent = TABS[name].other ?? '';
  fields.other.value = others[name];
  counted();
  soon();
}

function counted() {
  for (const [name, field] of Object.entries(fields)) {
    field.classList.toggle('long', field.value.length > LONG);
    $(name).querySelector('.about').textContent = `${field.value.length.toLocaleString('en')} characters`;
  }
}

/** Reads what is shared by the address. */
function read() {
  const words = new URLSearchParams(location.hash.slice(1)), name = words.get('tab');
  if (words.has('text')) fields.text.value = words.get('text');
  if (words.has('other')) others[TABS[name] ? name : tab] = words.get('other');
  fields.other.value = others[tab];
  open(TABS[name] ? name : tab);
}

function address({ tab: name, text, other }) {
  const words = new URLSearchParams({ tab: name, text, ...other === undefined ? {} : { other } });
  return `#${words.toString().replaceAll('+', '%20')}`;
}

async function copied(text, words) {
  try {
    await navigator.clipboard.writeText(text);
    $('about').textContent = words;
  } catch {
    $('about').textContent = 'The browser does not let this page copy';
  }
}

async function load(name, file) {
  if (!file) return;
  fields[name].value = await file.text();
  counted();
  soon();
}

const names = Object.keys(TABS);
names.forEach((name, number) => {
  const button = document.createElement('button');
  Object.assign(button, { type: 'button', id: `tab-${name}`, textContent: name, onclick: () => open(name) });
  button.setAttribute('role', 'tab');
  button.setAttribute('aria-controls', 'panel');
  button.onkeydown = event => {
    const step = { ArrowRight: 1, ArrowLeft: -1 }[event.key];
    const to = step ? names.at((number + step) % names.length) : { Home: names[0], End: names.at(-1) }[event.key];
    if (to === undefined) return;
    event.preventDefault();
    open(to);
    $(`tab-${to}`).focus();
  };
  document.querySelector('nav').append(button);
});

for (const [name, field] of Object.entries(fields)) {
  const section = $(name);
  field.oninput = () => { counted(); soon(); };
  field.onscroll = () => { section.querySelector('.under').scrollTop = field.scrollTop; };
  section.ondragover = event => { event.preventDefault(); section.classList.add('drop'); };
  section.ondragleave = () => section.classList.remove('drop');
  section.ondrop = event => {
    event.preventDefault();
    section.classList.remove('drop');
    load(name, event.dataTransfer.files[0]);
  };
  section.querySelector('.open').onclick = () => {
    $('file').onchange = () => { load(name, $('file').files[0]); $('file').value = ''; };
    $('file').click();
  };
}
for (const [words, example] of Object.entries(EXAMPLES)) {
  const link = document.createElement('a');
  Object.assign(link, { textContent: words, href: address(example) });
  $('examples').append(link);
}
$('copy').onclick = () => copied(whole, 'The answer is copied');
$('link').onclick = () => {
  const hash = address({ tab, text: fields.text.value, other: TABS[tab].other ? fields.other.value : undefined });
  if (hash.length > LONGEST_LINK) $('about').textContent = 'The texts are too long for a link';
  else {
    history.replaceState(null, '', hash);
    copied(location.href, 'The link is copied');
  }
};
addEventListener('hashchange', read);

// ---- the start

const began = performance.now();
fields.text.value = SAMPLE;
read();
try {
  const packed = Uint8Array.from(atob($('module').textContent), letter => letter.charCodeAt(0));
  const bytes = await new Response(new Blob([packed]).stream().pipeThrough(new DecompressionStream('gzip'))).arrayBuffer();
  module = await WebAssembly.compile(bytes);
  start();
  $('about').textContent = `${(bytes.byteLength / 1e6).toFixed(1)} MB of WebAssembly, ready after ${(performance.now() - began).toFixed(0)} ms`;
} catch (error) {
  $('about').textContent = `This browser does not load the module: ${error.message}`;
}
ask();
