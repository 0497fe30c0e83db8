// The traps of adapters, by their numbers.

export const TRAPS = [
  'the caller may not leave its component', 'the instance may not be entered, since it is the caller\'s own',
  'parameters or results do not lie within their memory', 'a text does not lie within its memory, or is too long',
  'a list does not lie within its memory, or is too long', 'a pointer is not aligned', 'a number is no Unicode scalar value',
  'a number is none of the cases of a variant', 'what was thrown was not caught', 'debug: an address is not aligned',
  'debug: the upper half of a number is not 0', 'debug: a text was not transcoded to its end', 'debug: a text has another length',
];

// A module whose one function is unreachable. What JavaScript throws would be caught by an adapter of a plan with exceptions; a trap
// of the engine is not.
const UNREACHABLE = [
  0, 97, 115, 109, 1, 0, 0, 0, 1, 4, 1, 0x60, 0, 0, 3, 2, 1, 0, 7, 8, 1, 4, 115, 116, 111, 112, 0, 0, 10, 5, 1, 3, 0, 0, 0x0b,
];
const { stop } = new WebAssembly.Instance(new WebAssembly.Module(Uint8Array.from(UNREACHABLE))).exports;

/** The import runtime.trapK: it does not return. The first one that is called is the trap that the run ends in. */
export function trapImport(run, number) {
  return () => {
    run.record('trap', 'runtime', `trap${number}: ${TRAPS[number]}`);
    run.trap ??= number;
    stop();
  };
}
