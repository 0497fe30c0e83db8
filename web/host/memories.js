// The memories that adapters import: of 32 or 64 bits, growable, not shared, of pages of 65,536 bytes or of one.
import { definitionKey } from './definitions.js';

// A memory with pages of one byte, which the JavaScript interface can't make by itself: it comes out of a module of its own, with
// 65,536 of them.
function ofBytePages(isWide) {
  const flags = isWide ? 12 : 8;
  const module = [0, 97, 115, 109, 1, 0, 0, 0, 5, 6, 1, flags, 0x80, 0x80, 4, 0, 7, 5, 1, 1, 109, 2, 0];
  return new WebAssembly.Instance(new WebAssembly.Module(Uint8Array.from(module))).exports.m;
}

/** The memory of an entry `memory` of a plan's side, or for a side without one a memory that no adapter sees. */
export function makeMemory(entry) {
  if (entry?.page_size_log2 === 0) return ofBytePages(entry.memory64);
  return entry?.memory64 ? new WebAssembly.Memory({ initial: 1n, address: 'i64' }) : new WebAssembly.Memory({ initial: 1 });
}

/** The import memory.mK: one memory for each definition. */
export function memoryFor(run, key) {
  if (!run.memories.has(key)) {
    const sides = run.plan.adapters.flatMap(adapter => [adapter.lift, adapter.lower]);
    const options = sides.find(side => side.memory && definitionKey(run.plan, side.memory.def) === key);
    run.memories.set(key, makeMemory(options.memory));
  }
  return run.memories.get(key);
}
