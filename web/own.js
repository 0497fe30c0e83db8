// The form for a plan of the user's own, of which the program makes a module in the page.
import { compile, loadCompiler } from './compiler/compile.js';

const element = id => document.getElementById(id);

/** A plan as a text, each entry of its lists on a line. */
export function planText(plan) {
  const json = value => JSON.stringify(value);
  const lines = Object.entries(plan).map(([key, value]) => {
    if (!Array.isArray(value) || !value.length) return `  ${json(key)}: ${json(value)}`;
    return `  ${json(key)}: [\n${value.map(entry => `    ${json(entry)}`).join(',\n')}\n  ]`;
  });
  return `{\n${lines.join(',\n')}\n}`;
}

function tell(text, className) {
  element('ended').textContent = text;
  element('ended').className = className;
}

async function compileNow(program, show) {
  const text = element('plan').value;
  tell('', '');
  const began = performance.now();
  const made = await compile(program, text, { debug: element('debug').checked, fuel: element('fuel').value.trim() });
  const took = Math.round(performance.now() - began);
  if (made.status !== 0) {
    tell(made.status === null ? made.told : `status ${made.status}: ${made.told}`, 'bad');
    return;
  }
  const plan = JSON.parse(text);
  const runnable = plan.adapters.length ? '' : '; the plan has no adapter to run';
  tell(`status 0: a module of ${made.module.length / 2} bytes, after ${took} ms${runnable}`, 'good');
  show({ name: 'adapter', plan, module: made.module, imports: made.imports });
}

/**
 * Lets the form compile, and returns the program, or null where there is none, or none that the browser takes; then the form says so. `readBytes`
 * gives the bytes of a path, or null where there are none; `show` takes a plan with its module.
 */
export async function offerCompiler(readBytes, show) {
  let program = null;
  try {
    program = await loadCompiler(readBytes);
    if (!program) tell('There is no program here: web/compiler/build makes it.', 'bad');
  } catch (error) {
    tell(`This browser does not take the program, which needs a memory of 64 bits. ${error.message}`, 'bad');
  }
  element('compile').onclick = () => compileNow(program, show);
  element('own').open = !program;
  for (const id of ['compile', 'fuel', 'debug']) element(id).disabled = !program;
  return program;
}
