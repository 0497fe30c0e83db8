// Values apart from any memory: as JSON, as they are carried to a type that agrees, and some of each type.
//
// As JSON a 64-bit integer is a text of decimal digits; a float is a number, or one of the texts "nan", "inf", "-inf" and "-0". All else
// is as in load.js.
import { isHandle } from './types.js';
import { caseOf, fieldsOf } from './store.js';
import { ofFields } from './load.js';

const isWide = type => type.kind === 'u64' || type.kind === 's64';
export const isFloat = type => type.kind === 'f32' || type.kind === 'f64';
export const FLOATS = { nan: NaN, inf: Infinity, '-inf': -Infinity, '-0': -0 };

function mapped(type, value, change) {
  if (type.element) return value.map(part => change(type.element, part));
  if (type.fields) return ofFields(type, fieldsOf(type, value).map((part, place) => change(type.fields[place].type, part)));
  if (type.cases && type.kind !== 'enum') {
    const { part, payload } = caseOf(type, value);
    return { [Object.keys(value)[0]]: part === null ? null : change(part, payload) };
  }
  return value;
}

export function toJson(type, value) {
  if (isWide(type)) return String(value);
  if (isFloat(type)) return Object.keys(FLOATS).find(name => Object.is(FLOATS[name], value)) ?? value;
  return mapped(type, value, toJson);
}

// The nearest number of the type.
const inFloat = (type, value) => type.kind === 'f32' ? Math.fround(value) : value;

export function fromJson(type, value) {
  if (isWide(type)) return BigInt(value);
  if (isFloat(type)) return inFloat(type, FLOATS[value] ?? value);
  return mapped(type, value, fromJson);
}

export const allToJson = (types, values) => types.map((type, place) => toJson(type, values[place]));
export const allFromJson = (types, values) => types.map((type, place) => fromJson(type, values[place]));

/** What a value becomes in a type that agrees; `transfer` gives the new number of a handle, in the order of the destination. */
export function carry(from, to, value, transfer) {
  if (isHandle(from)) return transfer(from, to, value);
  if (from.element) return value.map(part => carry(from.element, to.element, part, transfer));
  if (from.kind === 'tuple') return value.map((part, place) => carry(from.fields[place].type, to.fields[place].type, part, transfer));
  if (from.fields) {
    const source = name => from.fields.find(field => field.name === name).type;
    return Object.fromEntries(to.fields.map(({ name, type }) => [name, carry(source(name), type, value[name], transfer)]));
  }
  if (from.cases && from.kind !== 'enum') {
    const [[name, payload]] = Object.entries(value);
    const part = type => type.cases.find(entry => entry.name === name).type;
    return { [name]: part(from) === null ? null : carry(part(from), part(to), payload, transfer) };
  }
  if (from.kind === 'flags') return to.labels.filter(label => value.includes(label));
  return value;
}

/** Numbers from 0 below a bound, drawn from a seed (mulberry32). */
export function drawFrom(seed) {
  let state = seed >>> 0;
  return bound => {
    state = (state + 0x6d2b79f5) >>> 0;
    let mixed = Math.imul(state ^ state >>> 15, state | 1);
    mixed ^= mixed + Math.imul(mixed ^ mixed >>> 7, mixed | 61);
    return Math.floor(((mixed ^ mixed >>> 14) >>> 0) / 4294967296 * bound);
  };
}

const NUMBERS = {
  u8: [0, 1, 127, 128, 255], s8: [0, -1, 127, -128], u16: [0, 255, 256, 65535], s16: [0, -1, 32767, -32768],
  u32: [0, 65536, 2147483648, 4294967295], s32: [0, -1, 2147483647, -2147483648],
  u64: [0n, 2n ** 32n, 2n ** 63n, 2n ** 64n - 1n], s64: [0n, -1n, -(2n ** 63n), 2n ** 63n - 1n],
  f32: [0, -0, 1.5, -3.25, Infinity, NaN], f64: [0, -0, 0.1, 1e300, -Infinity, NaN],
  char: ['a', '\0', '\uD7FF', '\uE000', '𝄞', '\u{10FFFF}'],
};
const SCALARS = ['a', 'é', 'ÿ', 'ж', '日', '𝄞', '\0', '\u{10FFFF}', '\uFFFD', '\uFEFF', '\u0080', 'Ā'];

function drawText(draw) {
  const few = draw(2) ? 3 : SCALARS.length;
  return Array.from({ length: draw(draw(4) ? 8 : 40) }, () => SCALARS[draw(few)]).join('');
}

/** A value of the type, drawn; the deeper it stands, the shorter its lists are. */
export function drawValue(type, draw, depth = 0) {
  const part = inner => drawValue(inner, draw, depth + 1);
  const { kind } = type;
  if (kind === 'bool') return draw(2) === 1;
  if (kind in NUMBERS) return NUMBERS[kind][draw(NUMBERS[kind].length)];
  if (kind === 'string') return drawText(draw);
  if (kind === 'flags') return type.labels.filter(() => draw(2));
  if (isHandle(type)) return 1 + draw(900);
  if (kind === 'fixed-list') return Array.from({ length: type.length }, () => part(type.element));
  if (type.element) return Array.from({ length: draw(depth > 2 ? 2 : 4) }, () => part(type.element));
  if (type.fields) return ofFields(type, type.fields.map(field => part(field.type)));
  const { name, type: payload } = type.cases[draw(type.cases.length)];
  return kind === 'enum' ? name : { [name]: payload === null ? null : part(payload) };
}

const WORDS = ['hello', 'naïve café', 'жук', '日本', '𝄞 clef', ''];

/** A value of the type that is easy to read; those of unlike numbers differ. */
export function sampleValue(type, number) {
  const part = (inner, place) => sampleValue(inner, number + place);
  const { kind } = type;
  switch (kind) {
    case 'bool': return number % 2 === 1;
    case 'u64': case 's64': return BigInt(1000 * number);
    case 'u8': case 's8': case 'u16': case 's16': case 'u32': case 's32': return number + 10;
    case 'f32': case 'f64': return number + 0.5;
    case 'char': return 'aé日𝄞'.match(/./gu)[number % 4];
    case 'string': return WORDS[number % WORDS.length];
    case 'flags': return type.labels.filter((_, place) => (place + number) % 2);
    case 'list': case 'map': return [0, 1, 2].map(place => part(type.element, place));
    case 'fixed-list': return Array.from({ length: type.length }, (_, place) => part(type.element, place % 100));
  }
  if (isHandle(type)) return number + 2;
  if (type.fields) return ofFields(type, type.fields.map((field, place) => part(field.type, place)));
  const place = kind === 'option' ? (number + 1) % 2 : number % type.cases.length;
  const { name, type: payload } = type.cases[place];
  return kind === 'enum' ? name : { [name]: payload === null ? null : part(payload, 1) };
}
