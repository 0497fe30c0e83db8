// Values into memory, by the canonical ABI's section "Storing". A side gives regions for strings and lists by its `allocate`. Where it has
// `noise`, a call that gives 32 bits at random, the bits that no reader may look at are noise: bytes between fields, the bits of flags
// above the last label, and all but one bit of a bool that is true.
import { alignment, area, discriminantSize, flagsSize, isPointerPair, payloadOffset, size } from './layout.js';
import { bitsOf, SCALARS, writeNumber } from './scalars.js';
import { encode, isLatin1, UTF16_TAG } from './text.js';

export function store(side, type, value, address) {
  const { view, pointerSize } = side;
  if (type.kind === 'bool') return view.setUint8(address, noisyBool(side, value) & 255);
  if (type.kind in SCALARS) return SCALARS[type.kind].set(view, address, value);
  if (type.kind === 'flags') return writeNumber(view, address, flagsSize(type), noisyFlags(side, type, value));
  if (type.kind === 'fixed-list') return storeElements(side, type.element, value, address);
  if (isPointerPair(type)) {
    const [pointer, length] = storePair(side, type, value);
    writePointer(side, address, pointer);
    return writePointer(side, address + pointerSize, length);
  }
  if (type.fields) return storeArea(side, type.fields.map(field => field.type), fieldsOf(type, value), address);
  const { place, part, payload } = caseOf(type, value);
  writeNumber(view, address, discriminantSize(type), place);
  if (part !== null) store(side, part, payload, address + payloadOffset(type, pointerSize));
}

/** Values of these types, one behind the other. */
export function storeArea(side, types, values, address) {
  const { offsets } = area(types, side.pointerSize);
  types.forEach((type, place) => store(side, type, values[place], address + offsets[place]));
}

/** The pointer and the length of a string, a list or a map in a region of its own. */
export function storePair(side, type, value) {
  return type.kind === 'string' ? storeString(side, value) : storeList(side, type, value);
}

function writePointer({ view, pointerSize }, address, number) {
  if (pointerSize === 8) view.setBigUint64(address, BigInt(number), true);
  else view.setUint32(address, number, true);
}

export function noisyBool(side, value) {
  return value ? side.noise ? side.noise() | 1 : 1 : 0;
}

export function noisyFlags(side, type, names) {
  const count = type.labels.length;
  const noise = side.noise && count < 32 ? side.noise() << count : 0;
  return (bitsOf(type.labels, names) | noise) >>> 0;
}

export function fieldsOf(type, value) {
  return type.kind === 'tuple' ? value : type.fields.map(field => value[field.name]);
}

export function caseOf(type, value) {
  const [name, payload] = type.kind === 'enum' ? [value, null] : Object.entries(value)[0];
  const place = type.cases.findIndex(part => part.name === name);
  if (place < 0) throw new Error(`no case ${name}`);
  return { place, part: type.cases[place].type, payload };
}

function storeString(side, text) {
  const isTagged = side.encoding === 'compact' && !isLatin1(text);
  const encoding = side.encoding !== 'compact' ? side.encoding : isTagged ? 'utf16' : 'latin1';
  const bytes = encode(encoding, text);
  const pointer = side.allocate(bytes.length, side.encoding === 'utf8' ? 1 : 2);
  side.bytes.set(bytes, pointer);
  return [pointer, (encoding === 'utf16' ? bytes.length / 2 : bytes.length) + (isTagged ? UTF16_TAG : 0)];
}

function storeList(side, type, values) {
  const { element } = type;
  const step = size(element, side.pointerSize);
  const pointer = side.allocate(step * values.length, alignment(element, side.pointerSize));
  storeElements(side, element, values, pointer);
  return [pointer, values.length];
}

function storeElements(side, element, values, address) {
  const step = size(element, side.pointerSize);
  values.forEach((value, place) => store(side, element, value, address + place * step));
}
