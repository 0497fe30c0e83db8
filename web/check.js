// Runs all that is there: examples, drawn plans and conformance cases, also as the page compiles them, and tells what differs.
import { checkCalls, checkEndings, checkModules } from './compiler/checks.js';
import { loadCompiler } from './compiler/compile.js';
import { checkCases, checkDrawn, checkExamples, newCounts } from './host/checks.js';
import { loadCases } from './host/conformance.js';

const SOME = 20;

// Checks some entries after others, and tells after each of these that it goes on.
async function inParts(entries, check, tell) {
  const counts = newCounts();
  for (let start = 0; start < entries.length; start += SOME) {
    const { runs, faults, untaken } = await check(entries.slice(start, start + SOME), start);
    counts.runs += runs;
    counts.faults.push(...faults);
    counts.untaken.push(...untaken);
    await tell();
  }
  return counts;
}

function lineOf(what, { runs, faults, untaken }) {
  const left = untaken.length ? `; ${untaken.length} were left out, since this engine does not take their modules` : '';
  return `${what}: ${runs} runs, ${faults.length} of them not as they should be${left}`;
}

// The program that compiles here: null where there is none, and told where the engine does not take it.
async function programHere(readBytes, report) {
  try {
    return await loadCompiler(readBytes);
  } catch (error) {
    report.lines.push(`the program was left out, since this engine does not take it: ${error.message}`);
    report.untaken++;
    return null;
  }
}

// The groups of what the program does in the page, where it is there.
function groupsOf(program, { examples, drawn, endings }, seed) {
  if (!program) return [];
  const modules = entries => checkModules(program, entries);
  const calls = (entries, start) => checkCalls(program, entries, 1000 * seed + start);
  return [
    ['examples, compiled here', examples, modules],
    ['drawn plans, compiled here', drawn, modules],
    ['examples, called on the program\'s host', examples, calls],
    ['drawn plans, called on it', drawn, calls],
    ['ends of the program', endings, entries => checkEndings(program, entries)],
  ];
}

/**
 * A line for each group of runs, and what differs. `read` gives the JSON of a path, `readBytes` its bytes, or null where there is none; `tell` is
 * called again and again meanwhile.
 */
export async function checkAll(read, readBytes, seed, tell) {
  await tell();
  const report = { lines: [], faults: [], untaken: 0, runs: 0 };
  const program = await programHere(readBytes, report);
  const [examples, drawn, cases] = [await read('out/modules.json'), await read('out/drawn.json'), await loadCases(read)];
  const withValues = turns => (entries, start) => checkDrawn(entries, 1000 * seed + start, turns);
  const groups = [
    ['examples', examples, checkExamples],
    ['examples with drawn values', examples, withValues(10)],
    ['drawn plans', drawn, withValues(5)],
    ['conformance cases', cases, checkCases],
    ...groupsOf(program, { examples, drawn, endings: await read('out/endings.json') }, seed),
  ];
  for (const [what, entries, check] of groups) {
    if (!entries?.length) continue;
    const counts = await inParts(entries, check, tell);
    report.lines.push(lineOf(what, counts));
    report.faults.push(...counts.faults);
    report.untaken += counts.untaken.length;
    report.runs += counts.runs;
  }
  return report;
}
