// Runs of examples at the edges: core values and bytes of a memory that stand for no value or only just for one, a realloc that is not
// honest, a caller that may not leave, and what is thrown. Each memory has one page of 65,536 bytes. Without a trap the run returns; what
// is not told of a run is as in the run with plain values.
//
//   cores, memory      the caller's core values, and bytes of its memory by their addresses; `values` is what they stand for
//   answers            the same of the callee
//   trap               the number of the trap, by the rules of the canonical ABI
//   isCalled           whether the callee is called before it

const list = [
  { example: 'list', name: 'a list whose pointer is not aligned', cores: [66, 1], trap: 5 },
  { example: 'list', name: 'an empty list whose pointer is not aligned', cores: [66, 0], trap: 5 },
  { example: 'list', name: 'a list that ends one element past the memory', cores: [65532, 2], trap: 4 },
  { example: 'list', name: 'a list that begins behind the memory', cores: [65536, 1], trap: 4 },
  { example: 'list', name: 'a list whose end is 2 to the power of 32', cores: [-4, 1], trap: 4 },
  { example: 'list', name: 'a list of 2 to the power of 32 bytes', cores: [0, 0x40000000], trap: 4 },
  { example: 'list', name: 'a list of 2 to the power of 32 bytes and 4', cores: [0, 0x40000001], trap: 4 },
  { example: 'list', name: 'a list at the end of the memory', cores: [65532, 1], memory: { 65532: '04030201' }, values: [[0x01020304]] },
  { example: 'list', name: 'an empty list at the end of the memory', cores: [65536, 0], values: [[]] },
  { example: 'memory64', name: 'a list whose bytes wrap to 0', cores: ['0', '4611686018427387904'], trap: 4 },
  { example: 'memory64', name: 'a list whose end wraps to 0', cores: ['-4', '1'], trap: 4 },
  { example: 'memory64', name: 'a list whose pointer has bit 32 set', cores: ['4294967296', '1'], trap: 4 },
  { example: 'map', name: 'a map whose pointer is not aligned', cores: [68, 0], trap: 5 },
  { example: 'map', name: 'a map that ends past the memory', cores: [65528, 1], trap: 4 },
  { example: 'map', name: 'a map of 2 to the power of 32 bytes', cores: [0, 0x10000000], trap: 4 },
  {
    example: 'list-of-lists', name: 'a list within a list whose pointer is not aligned', trap: 5,
    cores: ['1024', '1'], memory: { 1024: '0c040000000000000000000000000000' },
  },
  {
    example: 'list-of-lists', name: 'a list within a list that ends past the memory', trap: 4,
    cores: ['1024', '1'], memory: { 1024: 'f8ff0000000000000100000000000000' },
  },
  { example: 'list', name: 'a realloc that answers an unaligned address', realloc: 'misaligned', trap: 5 },
  { example: 'list', name: 'a realloc that answers a region outside of the memory', realloc: 'outside', trap: 4 },
];

const texts = [
  { example: 'text-utf8-to-utf8', name: 'a text that ends past the memory', cores: [65535, 2], trap: 3 },
  { example: 'text-utf8-to-utf8', name: 'a text of 2 to the power of 31 bytes', cores: [0, -2147483648], trap: 3 },
  { example: 'text-utf8-to-utf8', name: 'a text at the end of the memory', cores: [65535, 1], memory: { 65535: '41' }, values: ['A'] },
  { example: 'text-utf8-to-utf8', name: 'an empty text at the end of the memory', cores: [65536, 0], values: [''] },
  { example: 'text-utf8-to-utf16', name: 'a text that would take 2 to the power of 31 bytes', cores: [0, 0x40000000], trap: 3 },
  { example: 'text-utf16-to-utf16', name: 'a text whose pointer is not aligned', cores: [65, 1], trap: 5 },
  { example: 'text-utf16-to-utf16', name: 'an empty text whose pointer is not aligned', cores: [65, 0], trap: 5 },
  { example: 'text-utf16-to-utf16', name: 'a text that ends past the memory', cores: [65534, 2], trap: 3 },
  { example: 'text-utf16-to-utf8', name: 'a text whose pointer is not aligned', cores: [65535, 0], trap: 5 },
  { example: 'text-compact-to-utf8', name: 'a text of Latin-1 whose pointer is not aligned', cores: [65533, 1], trap: 5 },
  { example: 'text-compact-to-utf8', name: 'a text of UTF-16 that ends past the memory', cores: [65534, -2147483646], trap: 3 },
  { example: 'text-compact-to-utf8', name: 'a text of Latin-1 that ends past the memory', cores: [65534, 3], trap: 3 },
  { example: 'text-utf8-to-utf8', name: 'a realloc that answers a region outside of the memory', realloc: 'outside', trap: 3 },
  { example: 'text-utf8-to-utf16', name: 'a realloc that answers an unaligned address', realloc: 'misaligned', trap: 5 },
  {
    example: 'text', name: 'a result whose pointer is not aligned', isCalled: true, trap: 5,
    answers: { cores: [1024], memory: { 1024: '0304000001000000' } },
  },
  {
    example: 'text', name: 'a result that ends past the memory', isCalled: true, trap: 3,
    answers: { cores: [1024], memory: { 1024: 'feff000002000000' } },
  },
];

const numbers = [
  { example: 'char', name: 'the first surrogate', cores: [0xd800], trap: 6 },
  { example: 'char', name: 'the last surrogate', cores: [0xdfff], trap: 6 },
  { example: 'char', name: 'one past the last scalar value', cores: [0x110000], trap: 6 },
  { example: 'char', name: 'a char with bit 31 set', cores: [-2147483648], trap: 6 },
  { example: 'char', name: 'a result that is a surrogate', answers: { cores: [0xd800] }, isCalled: true, trap: 6 },
  { example: 'char', name: 'the last scalar value', cores: [0x10ffff], values: ['\u{10FFFF}'] },
  { example: 'async-lift', name: 'a surrogate', cores: [0xd800, 1024], trap: 6 },
  { example: 'enum', name: 'one past the last case', cores: [3], trap: 7 },
  { example: 'enum', name: 'a case with bit 31 set', cores: [-2147483648], trap: 7 },
  { example: 'variant', name: 'one past the last case', cores: [2, 0], trap: 7 },
  { example: 'option', name: 'one past the last case', cores: [2, 0], trap: 7 },
  {
    example: 'variants-by-pointer', name: 'a result of one past the last case', isCalled: true, trap: 7,
    answers: { cores: [1024], memory: { 1024: '030000000000000000000000000000000000000000000000' } },
  },
];

const areas = [
  { example: 'seventeen-params', name: 'parameters that are not aligned', cores: [66], trap: 5 },
  { example: 'seventeen-params', name: 'parameters that end past the memory', cores: [65472], trap: 2 },
  { example: 'seventeen-params', name: 'parameters at the end of the memory', cores: [65468], values: Array(17).fill(0) },
  { example: 'seventeen-params', name: 'a realloc that answers an unaligned address', realloc: 'misaligned', trap: 5 },
  { example: 'seventeen-params', name: 'a realloc that answers a region outside of the memory', realloc: 'outside', trap: 2 },
  { example: 'results-by-pointer', name: 'a place for the results that is not aligned', cores: [7, 66], values: [7], isCalled: true, trap: 5 },
  { example: 'results-by-pointer', name: 'a place for the results behind the memory', cores: [7, 65536], values: [7], isCalled: true, trap: 2 },
  { example: 'results-by-pointer', name: 'results that are not aligned', answers: { cores: [66] }, isCalled: true, trap: 5 },
  { example: 'results-by-pointer', name: 'results that end past the memory', answers: { cores: [65532] }, isCalled: true, trap: 2 },
];

const calls = [
  { example: 'one-u32', name: 'a caller that may not leave', mayNotLeave: true, trap: 0 },
  { example: 'list', name: 'a caller that may not leave', mayNotLeave: true, trap: 0 },
  { example: 'exceptions', name: 'a callee that throws', throws: true, isCalled: true, trap: 8 },
];

export const EDGES = [...list, ...texts, ...numbers, ...areas, ...calls];
