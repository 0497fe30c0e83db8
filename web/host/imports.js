// The imports of an adapter module, bound by the lines that `factc --imports` prints, one for each import in the order of the module.
import { calleeImport, postReturnImport } from './callee.js';
import { definitionOf, sideWith } from './definitions.js';
import { flagsImport } from './flags.js';
import { memoryFor } from './memories.js';
import { reallocImport } from './realloc.js';
import { contextImport, enterImport, exitImport, prepareImport, startImport } from './tasks.js';
import { transcodeImport } from './transcoders.js';
import { isTransfer, transferImport } from './transfers.js';
import { trapImport } from './traps.js';

/** The import object of a module for a run. */
export function bindImports(run, module, lines) {
  const wanted = WebAssembly.Module.imports(module);
  if (wanted.length !== lines.length) throw new Error(`the module has ${wanted.length} imports, and there are ${lines.length} lines`);
  const imports = {};
  wanted.forEach((entry, place) => {
    imports[entry.module] ??= {};
    imports[entry.module][entry.name] = importOf(run, entry, lines[place].split(' '));
  });
  return imports;
}

function importOf(run, entry, words) {
  if (words[0] === 'core-def') return definitionImport(run, entry, words);
  if (isTransfer(words[0])) return transferImport(run, words[0]);
  switch (words[0]) {
    case 'trap': return trapImport(run, Number(words[1]));
    case 'transcode': return transcoderBetween(run, words);
    case 'enter-sync-call': return enterImport(run);
    case 'exit-sync-call': return exitImport(run);
    case 'unsafe-intrinsic': return contextImport(run, words[1]);
    case 'prepare-call': return prepareImport(run);
    case 'start-call': return startImport(run);
    default: throw new Error(`no import is known by ${words.join(' ')}`);
  }
}

// What the adapter that is run does not use is of another adapter of the module.
function ofAnotherAdapter(what) {
  return () => { throw new Error(`${what} is called, which this adapter does not use`); };
}

function transcoderBetween(run, words) {
  const source = definitionOf(words, 3);
  const target = definitionOf(words, 4 + source.count);
  const [from, to] = [source, target].map(({ key }) => sideWith(run, 'memory', key));
  return from && to ? transcodeImport(run, words[1], from, to) : ofAnotherAdapter(words.join(' '));
}

function definitionImport(run, entry, words) {
  if (words[1] === 'instance-flags') return flagsImport(run, Number(words[2]));
  const { key } = definitionOf(words, 1);
  const other = ofAnotherAdapter(`${entry.module} ${entry.name}`);
  switch (entry.module) {
    case 'memory': return memoryFor(run, key);
    case 'realloc': {
      const side = sideWith(run, 'realloc', key);
      return side ? reallocImport(run, side) : other;
    }
    case 'callee': return run.calleeKey === key ? calleeImport(run) : other;
    case 'post_return': return postReturnImport(run);
    default: return other; // a callback, which no adapter calls
  }
}
