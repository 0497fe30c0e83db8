// The conformance cases: modules with runs of which the files say what goes in, what comes out and how they end.
import { paramTypes } from '../abi/types.js';
import { allFromJson, allToJson } from '../abi/values.js';
import { runAdapter } from './adapter.js';
import { frameOf } from './expectation.js';
import { bytesOf } from './definitions.js';

const WORDS = { nan: NaN, inf: Infinity, '-inf': -Infinity, '-0': -0 };

/** Core values of JSON, as a WebAssembly function is given them. */
export function coresOf(types, cores) {
  return types.map((type, place) => type === 'i64' ? BigInt.asIntN(64, BigInt(cores[place])) : WORDS[cores[place]] ?? cores[place]);
}

/** A core value as JSON: an i64 as a text, and what is no number of JSON as a word. */
export function coreToJson(core) {
  if (typeof core === 'bigint') return String(core);
  return Object.keys(WORDS).find(word => Object.is(WORDS[word], core)) ?? core;
}

const imagesOf = memory => Object.entries(memory ?? {}).map(([address, bytes]) => ({ address: Number(address), bytes: bytesOf(bytes) }));

/** The cases of web/conformance, one for each run of each file; `read` gives the JSON of a path. */
export async function loadCases(read) {
  const index = await read('conformance/cases/index.json') ?? [];
  const files = await Promise.all(index.map(name => read(`conformance/cases/${name}.json`)));
  return files.flatMap(file => file.runs.map(run => ({ name: `${file.name}: ${run.name}`, ...modulePart(file), run })));
}

const modulePart = ({ plan, module, imports }) => ({ plan, module, imports });

export const placeOf = entry => entry.plan.adapters.findIndex(adapter => adapter.name === entry.run.adapter);

/** What a run is given: that of the file, of which the core values and bytes are the same as the values. */
export function prepare(entry) {
  const { plan, run } = entry;
  const adapter = plan.adapters[placeOf(entry)];
  const frame = frameOf(plan, adapter);
  const { gives, answers } = run;
  const lower = plan.core_types[adapter.lower.core_type];
  const lift = plan.core_types[adapter.lift.core_type];
  const trap = /^trap (\d+)$/.exec(run.end);
  return {
    arguments: gives.values && allFromJson(paramTypes(frame.lower), gives.values),
    cores: coresOf(lower.params, gives.cores),
    images: imagesOf(gives.memory),
    results: answers?.values && allFromJson(frame.lift.results, answers.values),
    calleeCores: answers && coresOf(answers.types ?? lift.results, answers.cores),
    calleeImages: imagesOf(answers?.memory),
    mayNotLeave: run.may_leave === false,
    realloc: run.realloc,
    throws: run.throws ? new Error('thrown by the callee') : undefined,
    trap: trap ? Number(trap[1]) : null,
  };
}

/** What differs in a run from what its file says. */
export function judgeCase(entry, run) {
  const { sees, gets, calls, transfers, end } = entry.run;
  const types = { sees: paramTypes(run.lift), gets: run.lower.results };
  const found = {
    end: run.trap !== null ? `trap ${run.trap}` : run.thrown ? String(run.thrown.stack ?? run.thrown) : 'returned',
    sees: run.calleeArguments && allToJson(types.sees, run.calleeArguments),
    gets: run.callerResults && allToJson(types.gets, run.callerResults),
    calls: calls && callsOf(run),
    transfers: transfers && run.transfers.map(({ kind, handle, source, target }) => `${kind} ${handle} ${source} ${target}`),
    cores: sees?.cores && run.calleeCores?.map(coreToJson),
  };
  const wanted = { end, sees: sees?.values, gets, calls, transfers, cores: sees?.cores };
  return Object.keys(wanted).flatMap(key => {
    const [one, other] = [wanted[key], found[key]].map(value => JSON.stringify(value));
    return one === other ? [] : [`${key}: ${other} and not ${one}`.slice(0, 2000)];
  });
}

// The calls of a run besides those by which values are moved, as the files tell them.
function callsOf(run) {
  const numbers = { 'enter-sync-call': run.enteredWith, 'prepare-call': run.preparedWith, 'start-call': run.startedWith };
  return run.events.flatMap(({ kind }) => {
    if (!['enter-sync-call', 'exit-sync-call', 'prepare-call', 'start-call', 'callee', 'post-return'].includes(kind)) return [];
    return [[kind, ...numbers[kind] ?? []].join(' ')];
  });
}

/** Runs a case, and tells what differs. */
export function checkCase(entry) {
  return judgeCase(entry, runAdapter(entry, placeOf(entry), prepare(entry)));
}
