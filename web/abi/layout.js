// Alignment, size and flat types of values, by the canonical ABI's sections "Alignment", "Element Size" and "Flattening". The pointer
// size is 4 or 8 bytes, by the memory's width.
import { isHandle } from './types.js';

export const MOST_FLAT_PARAMS = 16;
export const MOST_FLAT_ASYNC_PARAMS = 4;
export const MOST_FLAT_RESULTS = 1;

// Types may be large, and are asked for again and again: what is found is kept.
function kept(find) {
  const found = { 4: new WeakMap(), 8: new WeakMap() };
  return (type, pointerSize) => {
    const answers = found[pointerSize];
    if (!answers.has(type)) answers.set(type, find(type, pointerSize));
    return answers.get(type);
  };
}

const BYTES = { bool: 1, s8: 1, u8: 1, s16: 2, u16: 2, s32: 4, u32: 4, f32: 4, char: 4, s64: 8, u64: 8, f64: 8 };
const CORE = { s64: 'i64', u64: 'i64', f32: 'f32', f64: 'f64' };

export const isPointerPair = type => ['string', 'list', 'map'].includes(type.kind);
/** The pointer size of a side of an adapter, by its memory. */
export const pointerSizeOf = side => side.memory?.memory64 ? 8 : 4;

export const pointerType = pointerSize => pointerSize === 8 ? 'i64' : 'i32';
export const alignTo = (address, to) => Math.ceil(address / to) * to;

export function discriminantSize(type) {
  const count = type.cases.length;
  return count <= 256 ? 1 : count <= 65536 ? 2 : 4;
}

export function flagsSize(type) {
  const count = type.labels.length;
  return count <= 8 ? 1 : count <= 16 ? 2 : 4;
}

const payloads = type => type.cases.map(part => part.type).filter(part => part !== null);

export const alignment = kept((type, pointerSize) => {
  if (isPointerPair(type)) return pointerSize;
  if (isHandle(type)) return 4;
  if (type.kind === 'flags') return flagsSize(type);
  if (type.kind === 'fixed-list') return alignment(type.element, pointerSize);
  if (type.fields) return Math.max(1, ...type.fields.map(field => alignment(field.type, pointerSize)));
  if (type.cases) return Math.max(discriminantSize(type), payloadAlignment(type, pointerSize));
  return BYTES[type.kind];
});

const payloadAlignment = (type, pointerSize) => payloads(type).reduce((most, part) => Math.max(most, alignment(part, pointerSize)), 1);

/** Where a variant's payload stands behind its discriminant. */
export const payloadOffset = kept((type, pointerSize) => alignTo(discriminantSize(type), payloadAlignment(type, pointerSize)));

export const size = kept((type, pointerSize) => {
  if (isPointerPair(type)) return 2 * pointerSize;
  if (type.kind === 'fixed-list') return type.length * size(type.element, pointerSize);
  if (type.fields) return area(type.fields.map(field => field.type), pointerSize).size;
  if (type.cases) {
    const most = payloads(type).reduce((bytes, part) => Math.max(bytes, size(part, pointerSize)), 0);
    return alignTo(payloadOffset(type, pointerSize) + most, alignment(type, pointerSize));
  }
  return alignment(type, pointerSize);
});

/** What values of these types take, one behind the other: size, alignment, and the offset of each. */
export function area(types, pointerSize) {
  const offsets = [];
  let end = 0;
  let most = 1;
  for (const type of types) {
    const place = alignTo(end, alignment(type, pointerSize));
    offsets.push(place);
    end = place + size(type, pointerSize);
    most = Math.max(most, alignment(type, pointerSize));
  }
  return { size: alignTo(end, most), alignment: most, offsets };
}

// No value of more than 16 core values is ever flat, so that more of them are told by 17.
const BOUND = 17;

/** The core types of a value, or the first 17 of them. */
export const flatTypes = kept((type, pointerSize) => {
  const pointer = pointerType(pointerSize);
  if (isPointerPair(type)) return [pointer, pointer];
  if (type.kind === 'fixed-list') {
    const element = flatTypes(type.element, pointerSize);
    return Array.from({ length: Math.min(type.length, BOUND) }, () => element).flat().slice(0, BOUND);
  }
  if (type.fields) return type.fields.flatMap(field => flatTypes(field.type, pointerSize)).slice(0, BOUND);
  if (type.cases) return ['i32', ...joinedPayload(type, pointerSize)].slice(0, BOUND);
  return [CORE[type.kind] ?? 'i32'];
});

function joinedPayload(type, pointerSize) {
  const slots = [];
  for (const part of payloads(type)) {
    flatTypes(part, pointerSize).forEach((core, place) => {
      slots[place] = place in slots ? join(slots[place], core) : core;
    });
  }
  return slots;
}

function join(one, other) {
  if (one === other) return one;
  return [one, other].sort().join() === 'f32,i32' ? 'i32' : 'i64';
}

/** How many core values these types take together; each counts for 17 at most. */
export function flatCount(types, pointerSize) {
  return types.reduce((count, type) => count + flatTypes(type, pointerSize).length, 0);
}
