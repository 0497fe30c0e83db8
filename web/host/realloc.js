// The realloc of a side, which the adapter asks for regions that values are put into.
import { pointerCore, pointerNumber } from '../abi/flatten.js';

/** The import realloc.fK. */
export function reallocImport(run, side) {
  return (...cores) => {
    const address = answerOf(run, side, cores.map(pointerNumber));
    run.record('realloc', side.name, `(${cores.join(', ')})`, address);
    return pointerCore(side, address);
  };
}

// An honest answer, or one that an adapter has to find out.
function answerOf(run, side, numbers) {
  const address = side.realloc(...numbers);
  if (run.given.realloc === 'misaligned') return address + 1;
  if (run.given.realloc === 'outside') return side.bytes.length;
  return address;
}
