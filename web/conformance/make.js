// Makes the files of web/conformance/cases: node make.js SEED EXAMPLES DRAWN, where the latter two are files of web/modules.py. What is
// expected is worked out from the plans and the values by the model of the canonical ABI in web/abi, and no adapter is run.
import { readFileSync, rmSync, mkdirSync, writeFileSync } from 'node:fs';
import { lowerFlat, lowerValues, pointerCore } from '../abi/flatten.js';
import { area, flatCount, flatTypes, MOST_FLAT_ASYNC_PARAMS, MOST_FLAT_PARAMS, MOST_FLAT_RESULTS } from '../abi/layout.js';
import { holds, paramTypes } from '../abi/types.js';
import { allFromJson, allToJson, drawFrom, drawValue, sampleValue } from '../abi/values.js';
import { hasReturnArea } from '../host/adapter.js';
import { isLarge } from '../host/checks.js';
import { coreToJson } from '../host/conformance.js';
import { arrive, callsInOrder, frameOf, handOver, isAsync, isWithin } from '../host/expectation.js';
import { Side } from '../host/side.js';
import { EDGES } from './edges.js';

const FOLDER = new URL('cases/', import.meta.url);
const LONGEST_RUN = 12000; // characters
const LONGEST_MODULE = 24000;
const MOST = 900000; // characters in all

// A memory that no engine has to know.
class PlainMemory {
  constructor() { this.buffer = new ArrayBuffer(65536); }

  grow(pages) {
    const bytes = new Uint8Array(this.buffer.byteLength + 65536 * Number(pages));
    bytes.set(new Uint8Array(this.buffer));
    this.buffer = bytes.buffer;
  }
}

const hexOf = bytes => Array.from(bytes, byte => byte.toString(16).padStart(2, '0')).join('');

// Core values with the bytes that they point to: what stands in a fresh memory behind the first region's address.
function lowered(options, noise, lower) {
  const side = new Side('side', options, new PlainMemory(), noise);
  const first = side.next;
  const cores = lower(side).map(coreToJson);
  return side.next > first ? { cores, memory: { [first]: hexOf(side.bytes.slice(first, side.next)) } } : { cores };
}

function callerGives({ adapter, lower }, values, noise) {
  const most = adapter.lower.async ? MOST_FLAT_ASYNC_PARAMS : MOST_FLAT_PARAMS;
  return lowered(adapter.lower, noise, side => {
    const cores = lowerValues(side, paramTypes(lower), values, most);
    if (!hasReturnArea(adapter, lower.results, side.pointerSize)) return cores;
    const { size, alignment } = area(lower.results, side.pointerSize);
    return [...cores, pointerCore(side, side.allocate(size, alignment))];
  });
}

function calleeAnswers({ adapter, lift }, values, noise) {
  const most = adapter.lift.async ? MOST_FLAT_PARAMS : MOST_FLAT_RESULTS;
  const answers = lowered(adapter.lift, noise, side => lowerValues(side, lift.results, values, most));
  if (!adapter.lift.async) return answers;
  const pointerSize = adapter.lift.memory?.memory64 ? 8 : 4;
  const flat = lift.results.flatMap(type => flatTypes(type, pointerSize));
  return { types: flat.length > most ? [pointerSize === 8 ? 'i64' : 'i32'] : flat, ...answers };
}

// The core values that the callee sees, where none is a pointer.
function seenCores({ adapter, lift }, values) {
  const types = paramTypes(lift);
  const pointerSize = adapter.lift.memory?.memory64 ? 8 : 4;
  if (types.some(type => holds(type, ['string', 'list', 'map'])) || flatCount(types, pointerSize) > MOST_FLAT_PARAMS) return {};
  const side = new Side('callee', adapter.lift, new PlainMemory());
  return { cores: types.flatMap((type, place) => lowerFlat(side, type, values[place])).map(coreToJson) };
}

// The calls besides those by which values are moved.
function callsOf(frame) {
  const { adapter } = frame;
  const { prepared, started } = isAsync(frame) ? handOver(frame) : {};
  const words = { 'enter-sync-call': [0, adapter.lift.instance], 'prepare-call': prepared, 'start-call': started };
  const outside = callsInOrder(frame).filter(kind => !['call', 'return', 'async-start', 'async-return', 'task-return'].includes(kind));
  return outside.map(kind => [kind, ...words[kind] ?? []].join(' '));
}

const transferTexts = transfers => transfers.map(({ kind, handle, source, target }) => `${kind} ${handle} ${source} ${target}`);

/** A run that returns: what goes in, what comes out, and what is called meanwhile. */
function returningRun(name, frame, values, results, given, answers) {
  const { plan, adapter, lift, lower } = frame;
  const into = arrive(plan, paramTypes(lower), paramTypes(lift), values);
  const back = arrive(plan, lift.results, lower.results, results);
  return {
    name, adapter: adapter.name,
    gives: { values: allToJson(paramTypes(lower), values), ...given },
    sees: { values: allToJson(paramTypes(lift), into.arrived), ...seenCores(frame, into.arrived) },
    answers: { values: allToJson(lift.results, results), ...answers },
    gets: allToJson(lower.results, back.arrived),
    calls: callsOf(frame), transfers: transferTexts([...into.transfers, ...back.transfers]),
    end: 'returned',
  };
}

function valuesRun(name, frame, value, noise) {
  const values = paramTypes(frame.lower).map((type, place) => value(type, place + 1));
  const results = frame.lift.results.map((type, place) => value(type, place + 11));
  const given = callerGives(frame, values, noise);
  if (isWithin(frame.adapter)) {
    return { name, adapter: frame.adapter.name, gives: { values: allToJson(paramTypes(frame.lower), values), ...given }, end: 'trap 1' };
  }
  return returningRun(name, frame, values, results, given, calleeAnswers(frame, results, noise));
}

/** A run at an edge: that with plain values, with other core values and bytes. */
function edgeRun(frame, edge) {
  const { lift, lower } = frame;
  const sample = types => types.map((type, place) => sampleValue(type, place + 1));
  const values = edge.values ? allFromJson(paramTypes(lower), edge.values) : sample(paramTypes(lower));
  const results = sample(lift.results);
  const given = edge.cores ? { cores: edge.cores, ...(edge.memory && { memory: edge.memory }) } : callerGives(frame, values);
  const run = returningRun(edge.name, frame, values, results, given, calleeAnswers(frame, results));
  if (edge.trap === undefined) return run;
  const { name, adapter, gives, sees, answers } = run;
  const hasValues = !edge.cores || edge.values;
  return {
    name, adapter, gives: hasValues ? gives : given,
    ...(edge.mayNotLeave && { may_leave: false }), ...(edge.realloc && { realloc: edge.realloc }), ...(edge.throws && { throws: true }),
    ...(edge.isCalled && { sees, answers: edge.answers ?? answers }),
    end: `trap ${edge.trap}`,
  };
}

function runsOf(entry, draw, isDrawn) {
  const edges = EDGES.filter(edge => edge.example === entry.name);
  const runs = entry.plan.adapters.flatMap(adapter => {
    const frame = frameOf(entry.plan, adapter);
    const noise = entry.plan.tunables?.debug ? null : () => draw(4294967296) | 0;
    const of = place => entry.plan.adapters.length > 1 ? `, adapter ${place}` : '';
    const where = of(entry.plan.adapters.indexOf(adapter));
    const plain = isDrawn ? [] : [valuesRun(`plain values${where}`, frame, sampleValue, null)];
    const drawn = [valuesRun(`drawn values${where}`, frame, type => drawValue(type, draw), null)];
    const noisy = noise ? [valuesRun(`drawn values among noise${where}`, frame, type => drawValue(type, draw), noise)] : [];
    return [...plain, ...drawn, ...noisy, ...edges.map(edge => edgeRun(frame, edge))];
  });
  return runs.filter(run => JSON.stringify(run).length <= LONGEST_RUN);
}

// What the module needs of an engine beyond version 2.0 of the WebAssembly specification.
function needsOf(plan) {
  const memories = plan.adapters.flatMap(({ lift, lower }) => [lift.memory, lower.memory]).filter(memory => memory);
  const isCaught = adapter => !isWithin(adapter) && !isAsync(frameOf(plan, adapter));
  return [
    ...(new Set(memories.map(memory => JSON.stringify(plan.core_defs[memory.def]))).size > 1 ? ['multi-memory'] : []),
    ...(memories.some(memory => memory.memory64) ? ['memory64'] : []),
    ...(plan.tunables?.exceptions && plan.adapters.some(isCaught) ? ['exception-handling'] : []),
  ];
}

// One line for each part and each run.
function fileText({ name, plan, module, imports }, runs) {
  const parts = Object.entries({ name, needs: needsOf(plan), plan, module, imports }).map(([key, value]) => `"${key}": ${JSON.stringify(value)}`);
  return `{\n${parts.join(',\n')},\n"runs": [\n${runs.map(run => JSON.stringify(run)).join(',\n')}\n]\n}\n`;
}

function main(seed, examples, drawn) {
  const read = path => JSON.parse(readFileSync(path, 'utf8'));
  const draw = drawFrom(Number(seed));
  rmSync(FOLDER, { recursive: true, force: true });
  mkdirSync(FOLDER, { recursive: true });
  const names = [];
  let written = 0;
  let count = 0;
  for (const [entries, isDrawn] of [[read(examples), false], [read(drawn), true]]) {
    for (const entry of entries) {
      if (entry.plan.adapters.some(adapter => isLarge(entry.plan, adapter))) continue;
      const runs = runsOf(entry, draw, isDrawn);
      const text = fileText(entry, runs);
      if (runs.length === 0 || entry.module.length > LONGEST_MODULE || written + text.length > MOST) continue;
      writeFileSync(new URL(`${entry.name}.json`, FOLDER), text);
      names.push(entry.name);
      written += text.length;
      count += runs.length;
    }
  }
  writeFileSync(new URL('index.json', FOLDER), `[\n${names.map(name => JSON.stringify(name)).join(',\n')}\n]\n`);
  console.error(`conformance: ${count} runs of ${names.length} modules, ${written} characters`);
}

main(...process.argv.slice(2));
