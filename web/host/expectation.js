// What a run has to show, worked out from the plan and the values alone, and what a run shows otherwise.
import { flatTypes, MOST_FLAT_PARAMS, pointerSizeOf } from '../abi/layout.js';
import { functionsOf, holds, paramTypes, tupleOf, typesOf } from '../abi/types.js';
import { allToJson, carry } from '../abi/values.js';
import { transferred } from './transfers.js';

// A run, and what is known of it before it is one: the plan, the adapter, and the functions of its two sides.
export function frameOf(plan, adapter) {
  const functions = functionsOf(plan);
  return { plan, adapter, lift: functions[adapter.lift.ty], lower: functions[adapter.lower.ty] };
}

export const isAsync = run => run.lift.isAsync || run.lower.isAsync || !!run.adapter.lift.async || !!run.adapter.lower.async;
export const isWithin = adapter => adapter.lift.instance === adapter.lower.instance;
const hasConcurrency = run => !!run.plan.tunables?.concurrency;

/** The trap in which a run ends for want of anything else: that of an adapter within one instance, or of a caller that may not leave. */
export function plainTrap(plan, adapter, given) {
  if (isWithin(adapter)) return 1;
  return given.mayNotLeave ? 0 : null;
}

// Tables of futures, streams and error contexts are numbered by first mention among the plan's types.
function tableNumber(plan, type) {
  if (type.kind === 'own' || type.kind === 'borrow') return type.table;
  const keys = typesOf(plan).filter(one => one.kind === type.kind).map(one => JSON.stringify(one));
  return [...new Set(keys)].indexOf(JSON.stringify(type));
}

/** Values as they arrive on the other side, and the transfers of their handles, in order. */
export function arrive(plan, from, to, values) {
  const transfers = [];
  const arrived = from.map((type, place) => carry(type, to[place], values[place], (source, target, handle) => {
    transfers.push({ kind: source.kind, handle, source: tableNumber(plan, source), target: tableNumber(plan, target) });
    return transferred(handle);
  }));
  return { arrived, transfers };
}

function isTold(run) {
  const { adapter } = run;
  return (hasConcurrency(run) && !adapter.transparent) || paramTypes(run.lower).some(type => holds(type, ['borrow']));
}

/** The calls of a run that returns, but for those by which values are moved. */
export function callsInOrder(run) {
  const { adapter } = run;
  if (isAsync(run)) {
    const returns = adapter.lift.async ? ['task-return'] : [];
    return ['call', 'prepare-call', 'start-call', 'async-start', 'callee', ...returns, 'async-return', 'return'];
  }
  const told = isTold(run);
  const freed = adapter.lift.post_return ?? null;
  const entered = told ? ['enter-sync-call'] : [];
  const left = told ? ['exit-sync-call'] : [];
  return ['call', ...entered, 'callee', ...left, ...(freed === null ? [] : ['post-return']), 'return'];
}

const MOVES = ['realloc', 'transcode', 'transfer'];

/** What is wrong with a run that was to return; nothing where all is as it should be. */
export function judgeReturn(run) {
  if (run.thrown) return [`it ended by ${run.thrown.stack ?? run.thrown}`];
  const { plan, given } = run;
  const params = paramTypes(run.lift);
  const results = run.lower.results;
  const into = arrive(plan, paramTypes(run.lower), params, given.arguments);
  const back = arrive(plan, run.lift.results, results, given.results);
  return [
    ...differs('the callee\'s arguments', allToJson(params, into.arrived), allToJson(params, run.calleeArguments)),
    ...differs('the caller\'s results', allToJson(results, back.arrived), allToJson(results, run.callerResults)),
    ...differs('the transfers', [...into.transfers, ...back.transfers], run.transfers),
    ...differs('the calls', callsInOrder(run), run.events.map(event => event.kind).filter(kind => !MOVES.includes(kind))),
    ...differs('what the post-return is given', run.postReturnCores && run.resultCores.map(String), run.postReturnCores?.map(String)),
    ...(isAsync(run) ? judgeHandOver(run) : judgeSync(run)),
    ...run.strayWrites, ...judgeFlags(run), ...judgeSlots(run),
  ];
}

/** What is wrong with a run that was to end in a trap. */
export function judgeTrap(run, trap) {
  return differs('the trap', trap, run.trap ?? (run.thrown ? String(run.thrown) : 'none'));
}

function differs(what, wanted, found) {
  const [one, other] = [wanted, found].map(value => JSON.stringify(value));
  return one === other ? [] : [`${what}: ${other} and not ${one}`.slice(0, 2000)];
}

function judgeSync(run) {
  return run.enteredWith ? differs('the numbers of enter-sync-call', [0, run.adapter.lift.instance], run.enteredWith) : [];
}

function judgeHandOver(run) {
  const { prepared, started } = handOver(run);
  return [
    ...differs('the numbers of prepare-call', prepared, run.preparedWith),
    ...differs('the numbers of start-call', started, run.startedWith),
    ...differs('what the adapter returns', run.startAnswer.map(String), run.answer.map(String)),
  ];
}

/** The numbers that prepare-call and start-call are given. */
export function handOver({ plan, adapter, lift, lower }) {
  const encoding = ['utf8', 'utf16', 'compact'].indexOf(adapter.lift.encoding ?? 'utf8');
  const core = plan.core_types[adapter.lift.core_type];
  const instances = [adapter.lower.instance, adapter.lift.instance];
  return {
    prepared: [...instances, tupleNumber(plan, lift.results), lift.isAsync ? 1 : 0, encoding, resultsNumber(adapter, lower)],
    started: [core.params.length, core.results.length, (adapter.lift.async ? 1 : 0) + (adapter.lower.async ? 2 : 0)],
  };
}

function resultsNumber(adapter, lower) {
  if (adapter.lower.async) return lower.results.length ? 4294967294 : 4294967295;
  const counts = lower.results.map(type => flatTypes(type, pointerSizeOf(adapter.lower)).length);
  return counts.some(count => count > MOST_FLAT_PARAMS) ? 2147483647 : counts.reduce((sum, count) => sum + count, 0);
}

// Tuples are numbered by first mention: among the types, and then of each function those of its parameters and of its results.
function tupleNumber(plan, results) {
  const tuples = [
    ...typesOf(plan).filter(type => type.kind === 'tuple'),
    ...functionsOf(plan).flatMap(func => [tupleOf(paramTypes(func)), tupleOf(func.results)]),
  ];
  const keys = [...new Set(tuples.map(tuple => JSON.stringify(tuple)))];
  return keys.indexOf(JSON.stringify(tupleOf(results)));
}

// While values are moved, the flag of the instance that they go to is 0; all others are as at first.
function judgeFlags(run) {
  const { adapter, events } = run;
  const called = events.findIndex(event => event.kind === 'callee');
  return events.flatMap((event, place) => {
    const moved = MOVES.includes(event.kind) ? (place < called ? adapter.lift.instance : adapter.lower.instance) : null;
    const wanted = Object.fromEntries(Object.keys(event.flags).map(instance => [instance, Number(instance) === moved ? 0 : 1]));
    return differs(`the flags at ${event.kind} (call ${place})`, wanted, event.flags);
  });
}

// With concurrency a realloc finds the slots at 0, and the post-return finds them as the callee left them.
function judgeSlots(run) {
  const told = !isAsync(run) && isTold(run);
  const left = told ? [11, 12] : [31, 32];
  return run.events.flatMap(event => {
    if (event.kind === 'realloc') return hasConcurrency(run) ? differs('the slots at realloc', [0, 0], event.slots) : [];
    if (event.kind === 'callee') return differs('the slots at the callee', told ? [21, 22] : [11, 12], event.slots);
    if (event.kind === 'post-return') return differs('the slots at the post-return', hasConcurrency(run) ? [31, 32] : left, event.slots);
    return event.kind === 'return' ? differs('the slots at the end', left, event.slots) : [];
  });
}
