// Numbers, bools, chars and handles: how each stands in memory and as one core value. A core value is a signed number, for i64 a signed
// BigInt. What lies outside a type's range is refused where a side reads strictly, and taken modulo 2 to the power of its bits elsewhere.

// The two methods of a DataView for a number.
function inMemory(number) {
  const get = DataView.prototype[`get${number}`];
  const set = DataView.prototype[`set${number}`];
  return {
    get: (view, address) => get.call(view, address, true),
    set: (view, address, value) => set.call(view, address, value, true),
  };
}

function integer(bits, isSigned) {
  const fit = isSigned ? core => BigInt.asIntN(bits, BigInt(core)) : core => BigInt.asUintN(bits, BigInt(core));
  return {
    ...inMemory(`${bits === 64 ? 'Big' : ''}${isSigned ? 'Int' : 'Uint'}${bits}`),
    fromCore: core => bits === 64 ? fit(core) : Number(fit(core)),
    toCore: value => bits === 64 ? BigInt.asIntN(64, value) : value | 0,
  };
}

function float(bits) {
  return { ...inMemory(`Float${bits}`), fromCore: core => core, toCore: value => value };
}

const u32 = integer(32, false);
const u8 = integer(8, false);

function charOf(number) {
  if (number > 0x10ffff || (number >= 0xd800 && number <= 0xdfff)) throw new Error(`${number} is no Unicode scalar value`);
  return String.fromCodePoint(number);
}

const char = {
  get: (view, address) => charOf(u32.get(view, address)),
  set: (view, address, value) => u32.set(view, address, value.codePointAt(0)),
  fromCore: core => charOf(u32.fromCore(core)),
  toCore: value => value.codePointAt(0),
};

const bool = {
  get: (view, address) => u8.get(view, address) !== 0,
  set: (view, address, value) => u8.set(view, address, value ? 1 : 0),
  fromCore: core => core !== 0,
  toCore: value => value ? 1 : 0,
};

export const SCALARS = {
  bool, char,
  s8: integer(8, true), u8, s16: integer(16, true), u16: integer(16, false),
  s32: integer(32, true), u32, s64: integer(64, true), u64: integer(64, false),
  f32: float(32), f64: float(64),
  own: u32, borrow: u32, future: u32, stream: u32, 'error-context': u32,
};

/** The unsigned number of 1, 2 or 4 bytes at an address: a discriminant, or the bits of flags. */
export const readNumber = (view, address, size) => size === 1 ? view.getUint8(address) : size === 2
  ? view.getUint16(address, true) : view.getUint32(address, true);

export const writeNumber = (view, address, size, number) => size === 1 ? view.setUint8(address, number) : size === 2
  ? view.setUint16(address, number, true) : view.setUint32(address, number, true);

export const labelsOf = (labels, bits) => labels.filter((_, place) => bits >>> place & 1);
export const bitsOf = (labels, names) => labels.reduce((bits, label, place) => names.includes(label) ? (bits | 1 << place) >>> 0 : bits, 0);

// The core value of a case's payload in the slot that it shares with other cases, and back.
const scratch = new DataView(new ArrayBuffer(8));

export function intoSlot(core, from, to) {
  if (from === to) return core;
  if (from === 'f32') {
    scratch.setFloat32(0, core);
    return to === 'i32' ? scratch.getInt32(0) : BigInt(scratch.getUint32(0));
  }
  if (from === 'i32') return BigInt(core >>> 0);
  scratch.setFloat64(0, core);
  return scratch.getBigInt64(0);
}

export function fromSlot(slot, from, to) {
  if (from === to) return slot;
  if (to === 'f64') {
    scratch.setBigInt64(0, slot);
    return scratch.getFloat64(0);
  }
  const bits = from === 'i64' ? Number(BigInt.asIntN(32, slot)) : slot;
  if (to === 'i32') return bits;
  scratch.setInt32(0, bits);
  return scratch.getFloat32(0);
}
