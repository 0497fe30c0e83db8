// The page: picks a module and values, runs the adapter, and shows what crosses.
import { paramTypes, typeText } from './abi/types.js';
import { valuesGiven } from './abi/given.js';
import { allToJson } from './abi/values.js';
import { runAdapter } from './host/adapter.js';
import { judge, sampleFor } from './host/checks.js';
import { judgeCase, loadCases, placeOf, prepare } from './host/conformance.js';
import { callAdapter } from './compiler/call.js';
import { bytesOf } from './host/definitions.js';
import { frameOf } from './host/expectation.js';
import { TRAPS } from './host/traps.js';
import { offerCompiler, planText } from './own.js';

const element = id => document.getElementById(id);
const json = value => JSON.stringify(value);

function made(tag, text, className = '') {
  const node = document.createElement(tag);
  node.textContent = text;
  node.className = className;
  return node;
}

// What can be run: a name, a module, and perhaps the values of a conformance case.
const runs = new Map();
const OWN = 'own';
let turns = 0; // how often there was something else to show

async function fetchJson(path) {
  const answer = await fetch(path);
  return answer.ok ? answer.json() : null;
}

async function fetchBytes(path) {
  const answer = await fetch(path);
  return answer.ok ? answer.arrayBuffer() : null;
}

function group(label, entries) {
  const options = document.createElement('optgroup');
  options.label = label;
  for (const entry of entries) {
    runs.set(entry.key, entry);
    options.append(new Option(entry.entry.name, entry.key));
  }
  if (entries.length) element('pick').append(options);
}

async function fill() {
  const examples = await fetchJson('out/modules.json') ?? [];
  const cases = await loadCases(fetchJson);
  group('Examples', examples.filter(entry => entry.plan.adapters.length).map(entry => ({ key: entry.name, entry })));
  group('Conformance cases', cases.map(entry => ({ key: `case ${entry.name}`, entry, given: prepare(entry) })));
}

const ENCODINGS = { utf8: 'UTF-8', utf16: 'UTF-16', compact: 'Latin-1 or UTF-16' };

function sideText(side, func) {
  const memory = side.memory ? `a memory of ${side.memory.memory64 ? 64 : 32} bits` : 'no memory';
  const marks = `${side.async ? ', async' : ''}${func.isAsync ? ', an async function type' : ''}`;
  return `Instance ${side.instance}, strings in ${ENCODINGS[side.encoding ?? 'utf8']}, ${memory}${marks}`;
}

function signature(adapter, func) {
  const params = func.params.map(param => `${param.name}: ${typeText(param.type)}`).join(', ');
  const results = func.results.map(typeText).join(', ');
  return `${adapter.name}: func(${params})${results ? ` -> ${func.results.length > 1 ? `(${results})` : results}` : ''}`;
}

function showEvents(events) {
  const rows = events.map((event, place) => {
    const row = made('tr', '', event.kind);
    const lane = event.who === 'caller' || event.who === 'callee' ? event.who : 'adapter';
    row.append(made('td', place + 1));
    for (const column of ['caller', 'adapter', 'callee']) {
      const cell = made('td', '', event.who);
      if (column === lane) {
        cell.append(made('b', event.kind), made('span', event.text));
        if (event.values) cell.append(made('div', event.values, 'values'));
        if (event.answer !== '') cell.append(made('div', event.answer, 'answer'));
      }
      row.append(cell);
    }
    const flags = made('td', '');
    for (const [instance, value] of Object.entries(event.flags)) {
      flags.append(made('div', `instance ${instance}: ${value}`, value === 0 ? 'zero' : ''));
    }
    row.append(flags);
    return row;
  });
  element('events').tBodies[0].replaceChildren(...rows);
}

function showModule(entry) {
  const { module } = entry;
  showImports(entry);
  element('size').textContent = `(${module.length / 2} bytes)`;
  element('hex').textContent = module;
  const link = element('save');
  URL.revokeObjectURL(link.href);
  link.href = URL.createObjectURL(new Blob([bytesOf(module)], { type: 'application/wasm' }));
  link.download = 'adapter.wasm';
}

// Of a module that the browser does not take the lines are known alone.
function importsOf({ module, imports }) {
  if (!WebAssembly.validate(bytesOf(module))) return imports.map(line => ['', '', '', line]);
  const entries = WebAssembly.Module.imports(new WebAssembly.Module(bytesOf(module)));
  return entries.map((entry, place) => [entry.module, entry.name, entry.kind, imports[place]]);
}

function showImports(entry) {
  element('imports').tBodies[0].replaceChildren(...importsOf(entry).map(texts => {
    const row = document.createElement('tr');
    row.append(...texts.map(text => made('td', text)));
    return row;
  }));
}

function showVerdict(run, entry) {
  const faults = [...judge(run), ...(entry.run ? judgeCase(entry, run) : [])];
  const verdict = element('verdict');
  const told = run.trap === null ? 'the values arrived unchanged' : `trap ${run.trap}, as it should`;
  verdict.className = faults.length ? 'bad' : 'good';
  verdict.textContent = faults.length ? 'not as it should be' : run.thrown && run.trap === null ? 'thrown on, as it should' : told;
  element('note').textContent = faults.join('\n');
}

function show(entry, place, given) {
  const run = runAdapter(entry, place, given);
  const ended = run.trap === null ? String(run.thrown) : `trap ${run.trap}: ${TRAPS[run.trap]}`;
  element('caller').querySelector('output').textContent = run.thrown ? ended : json(allToJson(run.lower.results, run.callerResults));
  const seen = run.calleeArguments ? json(allToJson(paramTypes(run.lift), run.calleeArguments)) : 'it was not called';
  element('callee').querySelector('output').textContent = seen;
  showEvents(run.events);
  showVerdict(run, entry);
}

// What the program tells of the same call, on a host of its own.
async function tellCall({ plan }, place, given) {
  const turn = turns;
  if (!program || !given.arguments) return;
  const { status, lines, told } = await callAdapter(program, plan, plan.adapters[place], given);
  if (turn === turns) element('called').textContent = status === 0 ? lines.join('\n') : `status ${status}: ${told}`;
}

// What a conformance case gives, or the values of the two forms.
function givenNow(chosen, place) {
  if (chosen.given) return chosen.given;
  const { plan } = chosen.entry;
  const { lower, lift } = frameOf(plan, plan.adapters[place]);
  const [first, second] = ['caller', 'callee'].map(id => element(id).querySelector('textarea').value);
  return { arguments: valuesGiven('arguments', paramTypes(lower), first), results: valuesGiven('results', lift.results, second) };
}

// Takes away what an earlier run showed, or is to show.
function clear() {
  turns++;
  for (const output of document.querySelectorAll('#caller output, #callee output, #called')) output.textContent = '';
  element('events').tBodies[0].replaceChildren();
  element('verdict').textContent = '';
  element('verdict').className = '';
  element('note').textContent = '';
}

function runNow() {
  const chosen = runs.get(element('pick').value);
  const place = Number(element('adapter').value);
  clear();
  try {
    const given = givenNow(chosen, place);
    tellCall(chosen.entry, place, given);
    show(chosen.entry, place, given);
  } catch (error) {
    const isNotTaken = error instanceof WebAssembly.CompileError;
    element('verdict').className = 'bad';
    element('verdict').textContent = 'it did not run';
    element('note').textContent = isNotTaken ? `This browser does not take the module. ${error.message}` : error.message;
  }
}

// The values of a side as JSON, or the core values of a conformance case where these stand for none.
function valuesText(types, values, cores) {
  if (values) return json(allToJson(types, values));
  return cores ? `core values ${cores.join(', ')}` : '';
}

function chooseAdapter() {
  const { entry: { plan }, given } = runs.get(element('pick').value);
  const adapter = plan.adapters[Number(element('adapter').value)];
  const { lower, lift } = frameOf(plan, adapter);
  const values = given ?? sampleFor(plan, adapter);
  element('signature').textContent = signature(adapter, lower);
  showForm('caller', sideText(adapter.lower, lower), valuesText(paramTypes(lower), values.arguments, values.cores));
  showForm('callee', sideText(adapter.lift, lift), valuesText(lift.results, values.results, values.calleeCores));
  element('run').hidden = !!given;
  runNow();
}

function showForm(id, about, text) {
  element(id).querySelector('.about').textContent = about;
  const field = element(id).querySelector('textarea');
  field.value = text;
  field.readOnly = element('pick').value.startsWith('case ');
}

function choose() {
  const name = decodeURIComponent(location.hash.slice(1));
  const key = [name, 'greet'].find(one => runs.has(one)) ?? runs.keys().next().value;
  element('pick').value = key;
  const { entry, given } = runs.get(key);
  if (key !== OWN) element('plan').value = planText(entry.plan);
  showModule(entry);
  element('adapter').replaceChildren(...entry.plan.adapters.map((adapter, place) => new Option(adapter.name, place)));
  element('adapter').value = given ? placeOf(entry) : 0;
  element('adapters').hidden = !!given || entry.plan.adapters.length < 2;
  element('call').hidden = entry.plan.adapters.length === 0;
  if (element('call').hidden) clear();
  else chooseAdapter();
}

// Shows a plan that was compiled in the page, with its module.
function showOwn(entry) {
  if (runs.has(OWN)) runs.get(OWN).entry = entry;
  else group('Your own', [{ key: OWN, entry }]);
  if (location.hash === `#${OWN}`) choose();
  else location.hash = OWN;
}

const program = await offerCompiler(fetchBytes, showOwn);
await fill();
if (runs.size) {
  element('pick').onchange = () => { location.hash = encodeURIComponent(element('pick').value); };
  element('adapter').onchange = chooseAdapter;
  element('run').onclick = runNow;
  window.onhashchange = choose;
  choose();
} else {
  element('verdict').textContent = 'There is no module: web/build makes those of the examples.';
}
element('loading').hidden = true;
