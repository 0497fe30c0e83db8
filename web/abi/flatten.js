// Values as core values, by the canonical ABI's sections "Flattening", "Flat Lifting" and "Flat Lowering".
import { area, flatCount, flatTypes, isPointerPair } from './layout.js';
import { flagsOf, loadArea, loadPair, ofCase, ofFields, region } from './load.js';
import { fromSlot, intoSlot, SCALARS } from './scalars.js';
import { caseOf, fieldsOf, noisyBool, noisyFlags, storeArea, storePair } from './store.js';

const BITS = { s8: 8, u8: 8, s16: 16, u16: 16 };

export const pointerCore = ({ pointerSize }, number) => pointerSize === 8 ? BigInt(number) : number | 0;
export const pointerNumber = core => typeof core === 'bigint' ? Number(BigInt.asUintN(64, core)) : core >>> 0;

/** The core values of a value. */
export function lowerFlat(side, type, value) {
  if (type.kind in SCALARS) return [lowerScalar(side, type, value)];
  if (isPointerPair(type)) return storePair(side, type, value).map(number => pointerCore(side, number));
  if (type.kind === 'flags') return [noisyFlags(side, type, value) | 0];
  if (type.kind === 'fixed-list') return value.flatMap(part => lowerFlat(side, type.element, part));
  if (type.fields) {
    const parts = fieldsOf(type, value);
    return type.fields.flatMap((field, place) => lowerFlat(side, field.type, parts[place]));
  }
  return lowerCase(side, type, value);
}

function lowerScalar(side, type, value) {
  if (type.kind === 'bool') return noisyBool(side, value);
  const core = SCALARS[type.kind].toCore(value);
  const bits = BITS[type.kind];
  return side.noise && bits ? core & (1 << bits) - 1 | side.noise() << bits : core;
}

function lowerCase(side, type, value) {
  const { place, part, payload } = caseOf(type, value);
  const cores = part === null ? [] : lowerFlat(side, part, payload);
  const from = part === null ? [] : flatTypes(part, side.pointerSize);
  const slots = flatTypes(type, side.pointerSize).slice(1);
  return [place, ...slots.map((to, slot) => slot < cores.length ? noisySlot(side, intoSlot(cores[slot], from[slot], to), from[slot], to)
    : unused(side, to))];
}

function unused(side, to) {
  const noise = side.noise ? side.noise() : 0;
  return to === 'i64' ? BigInt.asIntN(64, BigInt(noise) * 0x100000001n) : to === 'i32' ? noise : noise % 1000;
}

function noisySlot(side, slot, from, to) {
  const isNarrow = to === 'i64' && (from === 'i32' || from === 'f32');
  return side.noise && isNarrow ? BigInt.asIntN(64, slot | BigInt(side.noise()) << 32n) : slot;
}

/** The value of the core values that `next` gives, one after another. */
export function liftFlat(side, type, next) {
  if (type.kind in SCALARS) return liftScalar(side, type, next());
  if (isPointerPair(type)) {
    const pointer = pointerNumber(next());
    return loadPair(side, type, pointer, pointerNumber(next()));
  }
  if (type.kind === 'flags') return flagsOf(side, type, next() >>> 0);
  if (type.kind === 'fixed-list') return Array.from({ length: type.length }, () => liftFlat(side, type.element, next));
  if (type.fields) return ofFields(type, type.fields.map(field => liftFlat(side, field.type, next)));
  return liftCase(side, type, next);
}

function liftScalar(side, type, core) {
  const value = SCALARS[type.kind].fromCore(core);
  if (side.strict && !Object.is(SCALARS[type.kind].toCore(value), core)) throw new Error(`the core value ${core} of a ${type.kind}`);
  return value;
}

function liftCase(side, type, next) {
  const place = next() >>> 0;
  const slots = flatTypes(type, side.pointerSize).slice(1).map(core => ({ core, value: next() }));
  let taken = 0;
  const value = ofCase(type, place, part => {
    const to = flatTypes(part, side.pointerSize);
    return liftFlat(side, part, () => {
      const { core, value: slot } = slots[taken];
      const payload = fromSlot(slot, core, to[taken]);
      const isNan = Number.isNaN(payload); // of which the bits may differ
      if (side.strict && !isNan && intoSlot(payload, to[taken], core) !== slot) throw new Error(`a slot with ${slot} of ${to[taken]}`);
      taken++;
      return payload;
    });
  });
  if (side.strict && slots.slice(taken).some(slot => Number(slot.value) !== 0)) throw new Error('a slot that is left over is not 0');
  return value;
}

/** The core values of the parameters or the results of a function: those of the values, or above `most` a pointer to them. */
export function lowerValues(side, types, values, most) {
  if (flatCount(types, side.pointerSize) <= most) return types.flatMap((type, place) => lowerFlat(side, type, values[place]));
  const { size, alignment } = area(types, side.pointerSize);
  const address = side.allocate(size, alignment);
  storeArea(side, types, values, address);
  return [pointerCore(side, address)];
}

/** The values back. */
export function liftValues(side, types, cores, most) {
  let taken = 0;
  if (flatCount(types, side.pointerSize) <= most) return types.map(type => liftFlat(side, type, () => cores[taken++]));
  return loadValues(side, types, pointerNumber(cores[0]));
}

/** Values that stand in an area, which is a region of its own. */
export function loadValues(side, types, address) {
  const { size, alignment } = area(types, side.pointerSize);
  region(side, address, size, alignment);
  return loadArea(side, types, address);
}
