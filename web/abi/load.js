// Values from memory, by the canonical ABI's section "Loading".
//
// A side has its memory's `view` and `bytes`, its `pointerSize` and its `encoding`. Where it is `strict`, what lies there has to be what
// the section "Storing" would have put there, in regions that its `region` knows; else an error tells what is wrong.
//
// Values are those of JavaScript: 64-bit integers BigInts; chars and strings strings; records objects; tuples and lists arrays, and so
// are maps, of pairs; flags arrays of labels; of an enum the name, and of a variant, an option or a result an object of one key, the
// case's name, with its payload, or null without one.
import { alignment, alignTo, area, discriminantSize, flagsSize, isPointerPair, payloadOffset, size } from './layout.js';
import { labelsOf, readNumber, SCALARS } from './scalars.js';
import { decode, isLatin1, unitSize, UTF16_TAG } from './text.js';

export function load(side, type, address) {
  const { view, pointerSize } = side;
  if (type.kind in SCALARS) return loadScalar(side, type, address);
  if (isPointerPair(type)) return loadPair(side, type, readPointer(side, address), readPointer(side, address + pointerSize));
  if (type.kind === 'flags') return flagsOf(side, type, readNumber(view, address, flagsSize(type)));
  if (type.kind === 'fixed-list') return loadElements(side, type.element, address, type.length);
  if (type.fields) {
    const values = loadArea(side, type.fields.map(field => field.type), address);
    return ofFields(type, values);
  }
  const place = readNumber(view, address, discriminantSize(type));
  return ofCase(type, place, part => load(side, part, address + payloadOffset(type, pointerSize)));
}

/** Values of these types, one behind the other. */
export function loadArea(side, types, address) {
  const { offsets } = area(types, side.pointerSize);
  return types.map((type, place) => load(side, type, address + offsets[place]));
}

export function loadPair(side, type, pointer, length) {
  return type.kind === 'string' ? loadString(side, pointer, length) : loadList(side, type, pointer, length);
}

function loadScalar(side, type, address) {
  if (side.strict && type.kind === 'bool' && side.view.getUint8(address) > 1) throw new Error('a bool that is neither 0 nor 1');
  return SCALARS[type.kind].get(side.view, address);
}

function readPointer({ view, pointerSize }, address) {
  return pointerSize === 8 ? Number(view.getBigUint64(address, true)) : view.getUint32(address, true);
}

export function flagsOf(side, type, bits) {
  const count = type.labels.length;
  if (side.strict && count < 32 && bits >>> count !== 0) throw new Error('flags with bits that no label has');
  return labelsOf(type.labels, bits);
}

export function ofFields(type, values) {
  if (type.kind === 'tuple') return values;
  return Object.fromEntries(type.fields.map((field, place) => [field.name, values[place]]));
}

export function ofCase(type, place, payload) {
  if (place >= type.cases.length) throw new Error(`a discriminant of ${place}, of ${type.cases.length} cases`);
  const { name, type: part } = type.cases[place];
  if (type.kind === 'enum') return name;
  return { [name]: part === null ? null : payload(part) };
}

function loadString(side, pointer, length) {
  const isTagged = side.encoding === 'compact' && length >= UTF16_TAG;
  const encoding = side.encoding !== 'compact' ? side.encoding : isTagged ? 'utf16' : 'latin1';
  const units = isTagged ? length - UTF16_TAG : length;
  const bytes = region(side, pointer, units * unitSize(encoding), side.encoding === 'utf8' ? 1 : 2);
  const text = decode(encoding, bytes);
  if (side.strict && isTagged && isLatin1(text)) throw new Error('a compact text of UTF-16 that is Latin-1');
  return text;
}

function loadList(side, type, pointer, length) {
  const { element } = type;
  region(side, pointer, length * size(element, side.pointerSize), alignment(element, side.pointerSize));
  return loadElements(side, element, pointer, length);
}

function loadElements(side, element, address, count) {
  const step = size(element, side.pointerSize);
  return Array.from({ length: count }, (_, place) => load(side, element, address + place * step));
}

/** A copy of the bytes of a region that has to be aligned and within the memory, and of a strict side in one that it knows. */
export function region(side, pointer, bytes, aligned) {
  if (pointer !== alignTo(pointer, aligned)) throw new Error(`a pointer ${pointer} that is not aligned to ${aligned}`);
  if (pointer + bytes > side.bytes.length) throw new Error(`${bytes} bytes at ${pointer}, of ${side.bytes.length}`);
  if (side.strict && !side.knows(pointer, bytes)) throw new Error(`${bytes} bytes at ${pointer} that realloc did not give`);
  return side.bytes.slice(pointer, pointer + bytes);
}
