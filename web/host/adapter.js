// Runs one adapter of a module: the caller's values go in, the callee's come out, and all that crosses is recorded.
import { liftValues, loadValues, lowerValues, pointerCore, pointerNumber } from '../abi/flatten.js';
import { area, flatCount, MOST_FLAT_ASYNC_PARAMS, MOST_FLAT_PARAMS, MOST_FLAT_RESULTS } from '../abi/layout.js';
import { functionsOf, paramTypes } from '../abi/types.js';
import { allToJson } from '../abi/values.js';
import { bytesOf, definitionKey } from './definitions.js';
import { bindImports } from './imports.js';
import { makeMemory, memoryFor } from './memories.js';
import { Side } from './side.js';
import { listed } from './tasks.js';

/**
 * Runs the adapter at a place of the plan's list. What is given:
 *   arguments, results             the caller's arguments, and the callee's results, as values
 *   cores, images                  or the caller's core values, and what stands in its memory
 *   calleeCores, calleeImages      the same for the callee's results
 *   throws                         what the callee throws in place of an answer
 *   mayNotLeave                    whether the caller's flag is 0
 *   realloc                        'misaligned' or 'outside', for answers that are not honest
 *   noise                          gives 32 bits at random, for the bits that no reader may look at
 */
export function runAdapter({ plan, module, imports }, place, given) {
  const run = startRun(plan, plan.adapters[place], given);
  const compiled = new WebAssembly.Module(bytesOf(module));
  const instance = new WebAssembly.Instance(compiled, bindImports(run, compiled, imports));
  try {
    call(run, instance.exports[run.adapter.name]);
  } catch (error) {
    run.thrown = error;
    run.record('end', 'adapter', run.trap === null ? `thrown: ${error.message}` : `trap ${run.trap}`);
  }
  return run;
}

function startRun(plan, adapter, given) {
  const functions = functionsOf(plan);
  const run = {
    plan, adapter, given,
    lift: functions[adapter.lift.ty], lower: functions[adapter.lower.ty],
    calleeKey: definitionKey(plan, adapter.func),
    memories: new Map(), flags: new Map(), tasks: [[11, 12]],
    events: [], transfers: [], strayWrites: [], thrown: null, trap: null,
  };
  const memory = options => options.memory ? memoryFor(run, definitionKey(plan, options.memory.def)) : makeMemory(null);
  run.callee = new Side('callee', adapter.lift, memory(adapter.lift), given.noise);
  run.caller = new Side('caller', adapter.lower, memory(adapter.lower), given.noise);
  run.sides = [run.callee, run.caller];
  run.text = cores => `(${cores.map(core => typeof core === 'function' ? 'function' : String(core)).join(', ')})`;
  run.record = (kind, who, text, answer) => {
    const event = {
      kind, who, text, answer: answer === undefined ? '' : String(answer), values: '',
      flags: Object.fromEntries([...run.flags].map(([instance, flag]) => [instance, flag.value])),
      slots: [...run.tasks[run.tasks.length - 1]],
    };
    run.events.push(event);
    return event;
  };
  run.stray = (phase, side) => strayWrite(phase, side, side.strayWrite());
  run.changed = (phase, side) => strayWrite(phase, side, side.firstWrite());
  return run;
}

function strayWrite(phase, side, address) {
  return address === null ? [] : [`while the ${phase} were moved, address ${address} of the ${side.name}'s memory was written`];
}

/** Whether a lower side's results go to a place that it names, behind its parameters. */
export function hasReturnArea(adapter, results, pointerSize) {
  return flatCount(results, pointerSize) > (adapter.lower.async ? 0 : MOST_FLAT_RESULTS);
}

function call(run, adapterFunction) {
  const { caller, callee, adapter, given } = run;
  const { results } = run.lower;
  if (given.images) caller.place(given.images);
  const hasArea = hasReturnArea(adapter, results, caller.pointerSize);
  const cores = given.cores ?? callerCores(run, hasArea);
  const returnArea = hasArea ? pointerNumber(cores[cores.length - 1]) : null;
  if (given.cores && hasArea) caller.grantAt(returnArea, area(results, caller.pointerSize).size);
  run.callerCores = cores;
  const called = run.record('call', 'caller', `${adapter.name} with core values ${run.text(cores)}`);
  if (given.arguments) called.values = JSON.stringify(allToJson(paramTypes(run.lower), given.arguments));
  caller.watch();
  callee.watch();
  const answer = listed(adapterFunction(...cores));
  run.answer = answer;
  run.strayWrites.push(...run.stray('results', caller), ...run.changed('results', callee));
  const reader = caller.reader;
  if (hasArea) run.callerResults = loadValues(reader, results, returnArea);
  else run.callerResults = adapter.lower.async ? [] : liftValues(reader, results, answer, MOST_FLAT_RESULTS);
  const returned = run.record('return', 'caller', `with core values ${run.text(answer)}`);
  if (results.length) returned.values = JSON.stringify(allToJson(results, run.callerResults));
}

function callerCores(run, hasArea) {
  const { caller, lower, adapter, given } = run;
  const most = adapter.lower.async ? MOST_FLAT_ASYNC_PARAMS : MOST_FLAT_PARAMS;
  const cores = lowerValues(caller, paramTypes(lower), given.arguments, most);
  if (!hasArea) return cores;
  const { size, alignment } = area(lower.results, caller.pointerSize);
  return [...cores, pointerCore(caller, caller.grant(size, alignment))];
}
