// Plans become modules in the page, and the program tells what adapters make of values.
import { programOf, runProgram } from './program.js';

/** The program, or null where `build` has not made it. `readBytes` gives the bytes of a path, or null where there are none. */
export async function loadCompiler(readBytes) {
  const bytes = await readBytes('out/factc.wasm');
  return bytes && programOf(bytes);
}

/** The words that ask for a module and the lines of its imports. */
export function wordsFor({ debug = false, fuel = '' }) {
  return ['--imports', ...(debug ? ['--debug'] : []), ...(fuel === '' ? [] : ['--fuel', fuel])];
}

/**
 * What a plan, a text, comes to. Where the status is 0 it has `module`, in hex, and `imports`, the lines that tell what each of its imports is;
 * else `told`, the line that the program tells, or the engine's words where it ended the run.
 */
export async function compile(program, text, options = {}) {
  const { status, output, told, error } = await runProgram(program, wordsFor(options), text);
  if (status !== 0) return { status, told: error ?? told.trimEnd() };
  const [module, ...imports] = output.trimEnd().split('\n');
  return { status, module, imports };
}
