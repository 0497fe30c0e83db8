// Runs many adapters, and tells what differs from what their plans and values call for.
import { area } from '../abi/layout.js';
import { valuesGiven } from '../abi/given.js';
import { allToJson, drawFrom, drawValue, sampleValue } from '../abi/values.js';
import { functionsOf, paramTypes } from '../abi/types.js';
import { runAdapter } from './adapter.js';
import { frameOf, isAsync, isWithin, judgeReturn, judgeTrap, plainTrap } from './expectation.js';
import { checkCase } from './conformance.js';
import { bytesOf } from './definitions.js';

/** The plain values for an adapter: those of `value`, which takes a type and how many came before it. */
export function givenFor(plan, adapter, value) {
  const functions = functionsOf(plan);
  const params = functions[adapter.lower.ty].params;
  const { results } = functions[adapter.lift.ty];
  return {
    arguments: params.map((param, place) => value(param.type, place + 1)),
    results: results.map((type, place) => value(type, place + 11)),
  };
}

export const sampleFor = (plan, adapter) => givenFor(plan, adapter, sampleValue);

/** What is wrong with a run. */
export function judge(run) {
  const trap = run.given.trap ?? plainTrap(run.plan, run.adapter, run.given);
  if (run.given.throws && !run.plan.tunables?.exceptions) return run.thrown === run.given.throws ? [] : [`it ended by ${run.thrown}`];
  return trap === null || trap === undefined ? judgeReturn(run) : judgeTrap(run, trap);
}

// Values that are written as JSON are read as they were.
function judgeText(what, types, values) {
  const text = JSON.stringify(allToJson(types, values));
  const again = JSON.stringify(allToJson(types, valuesGiven(what, types, text)));
  return again === text ? [] : [`${what}: ${again} is read from ${text}`.slice(0, 2000)];
}

// A run with these values, and what is wrong with it.
function checked(entry, place, given) {
  const { lower, lift } = frameOf(entry.plan, entry.plan.adapters[place]);
  try {
    return [
      ...judgeText('arguments', paramTypes(lower), given.arguments),
      ...judgeText('results', lift.results, given.results),
      ...judge(runAdapter(entry, place, given)),
    ];
  } catch (error) {
    return [String(error.stack ?? error)];
  }
}

/** Runs the adapters of a module with values that `givens` makes of each. */
function checkModule(counts, entry, givens) {
  if (!WebAssembly.validate(bytesOf(entry.module))) {
    counts.untaken.push(entry.name);
    return;
  }
  entry.plan.adapters.forEach((adapter, place) => {
    for (const given of givens(entry.plan, adapter)) {
      counts.runs++;
      for (const fault of checked(entry, place, given)) counts.faults.push(`${entry.name}, adapter ${place}: ${fault}`);
    }
  });
}

export const newCounts = () => ({ runs: 0, faults: [], untaken: [] });

// How a caller's memory and core values may hold noise: nowhere with debug checks, which find it in the upper half of a number.
const noiseOf = (plan, draw) => plan.tunables?.debug ? null : () => draw(4294967296) | 0;

/** Each example with values that are easy to read, by a caller that may not leave, and with a callee that throws. */
export function checkExamples(modules) {
  const counts = newCounts();
  for (const entry of modules) {
    checkModule(counts, entry, (plan, adapter) => {
      const plain = sampleFor(plan, adapter);
      if (isAsync(frameOf(plan, adapter)) || isWithin(adapter)) return [plain];
      const thrown = new Error('thrown by the callee');
      return [plain, { ...plain, mayNotLeave: true }, { ...plain, throws: thrown, trap: plan.tunables?.exceptions ? 8 : null }];
    });
  }
  return counts;
}

const LARGE = 100000; // bytes

/** Whether values of the adapter may have a million parts, so that they are not made again and again. */
export function isLarge(plan, adapter) {
  const lower = functionsOf(plan)[adapter.lower.ty];
  return area([...paramTypes(lower), ...lower.results], 4).size > LARGE;
}

/** Each adapter with drawn values, so many times; those of every second time stand among noise. */
export function checkDrawn(modules, seed, turns) {
  const counts = newCounts();
  const draw = drawFrom(seed);
  for (const entry of modules) {
    checkModule(counts, entry, (plan, adapter) => Array.from({ length: isLarge(plan, adapter) ? 1 : turns }, (_, turn) => ({
      ...givenFor(plan, adapter, type => drawValue(type, draw)),
      noise: turn % 2 ? noiseOf(plan, draw) : null,
    })));
  }
  return counts;
}

/** Each conformance case. */
export function checkCases(cases) {
  const counts = newCounts();
  for (const entry of cases) {
    if (!WebAssembly.validate(bytesOf(entry.module))) {
      counts.untaken.push(entry.name);
      continue;
    }
    counts.runs++;
    counts.faults.push(...faultsOf(entry));
  }
  return counts;
}

function faultsOf(entry) {
  try {
    return checkCase(entry).map(fault => `${entry.name}: ${fault}`);
  } catch (error) {
    return [`${entry.name}: ${error.stack ?? error}`];
  }
}
