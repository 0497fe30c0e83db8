// Holds the program in the page against the program that was built for the machine: what it makes of plans, and how it ends; and what it tells of
// calls against what plan and values call for.
import { drawFrom, drawValue } from '../abi/values.js';
import { HANDLES, holds, paramTypes } from '../abi/types.js';
import { givenFor, isLarge } from '../host/checks.js';
import { arrive, frameOf, isAsync, isWithin } from '../host/expectation.js';
import { callAdapter, valuesText } from './call.js';
import { compile } from './compile.js';
import { runProgram } from './program.js';

// Where two texts part, with a little of both.
function differs(what, wanted, found) {
  if (wanted === found) return [];
  let place = 0;
  while (wanted?.[place] === found?.[place]) place++;
  const near = text => JSON.stringify(String(text).slice(Math.max(0, place - 20), place + 40));
  return [`${what} differs at ${place}: ${near(found)} and not ${near(wanted)}`];
}

async function faultsOf(counts, name, judge) {
  counts.runs++;
  const faults = await judge();
  counts.faults.push(...faults.map(fault => `${name}: ${fault}`));
}

/** Each plan of the entries comes to the module and the lines of imports that stand with it. */
export async function checkModules(program, entries) {
  const counts = { runs: 0, faults: [], untaken: [] };
  for (const { name, plan, module, imports } of entries) {
    await faultsOf(counts, `${name}, compiled here`, async () => {
      const made = await compile(program, JSON.stringify(plan));
      if (made.status !== 0) return [`status ${made.status}: ${made.told}`];
      return [...differs('the module', module, made.module), ...differs('an import', imports.join('\n'), made.imports.join('\n'))];
    });
  }
  return counts;
}

/** Each run, of words and an input, has the status and writes the texts that stand with it. */
export async function checkEndings(program, entries) {
  const counts = { runs: 0, faults: [], untaken: [] };
  for (const { words, input, status, output, told } of entries) {
    await faultsOf(counts, `factc ${words.join(' ')} on ${input.slice(0, 60)}`, async () => {
      const ended = await runProgram(program, words, input);
      if (ended.status !== status) return [`status ${ended.error ?? ended.status}, and not ${status}`];
      return [...differs('standard output', output, ended.output), ...differs('standard error', told, ended.told)];
    });
  }
  return counts;
}

const OVER_LIMIT = 15;

// What is wrong with what the program tells of a call. The numbers of handles are the host's own.
async function faultsOfCall(program, plan, adapter, given) {
  const { lower, lift } = frameOf(plan, adapter);
  const { status, lines, told } = await callAdapter(program, plan, adapter, given);
  if (status === OVER_LIMIT) return [];
  if (status !== 0) return [`status ${status}: ${told}`];
  const params = arrive(plan, paramTypes(lower), paramTypes(lift), given.arguments).arrived;
  const results = arrive(plan, lift.results, lower.results, given.results).arrived;
  return [
    ...differs('what the callee is given', `params ${valuesText(paramTypes(lift), params)}`, lines[0]),
    ...differs('what the caller gets', `results ${valuesText(lower.results, results)}`, lines[1]),
  ];
}

function isCallable(plan, adapter) {
  const frame = frameOf(plan, adapter);
  const types = [...paramTypes(frame.lower), ...frame.lift.results];
  return !isAsync(frame) && !isWithin(adapter) && !isLarge(plan, adapter) && !types.some(type => holds(type, HANDLES));
}

/** Each sync adapter without handles, with drawn values. */
export async function checkCalls(program, entries, seed) {
  const counts = { runs: 0, faults: [], untaken: [] };
  const draw = drawFrom(seed);
  for (const { name, plan } of entries) {
    for (const adapter of plan.adapters.filter(one => isCallable(plan, one))) {
      const given = givenFor(plan, adapter, type => drawValue(type, draw));
      await faultsOf(counts, `${name}, ${adapter.name} called here`, () => faultsOfCall(program, plan, adapter, given));
    }
  }
  return counts;
}
