// Values that a user writes as JSON: they are read where they are of their types, and else it is told which part is not.
import { isHandle, typeText } from './types.js';
import { allFromJson, FLOATS, isFloat } from './values.js';

const MOST_TOLD = 60; // characters of what is not of its type
const isText = json => typeof json === 'string' && json.isWellFormed();
const isList = (json, length) => Array.isArray(json) && json.length === length;
const isRecord = json => typeof json === 'object' && json !== null && !Array.isArray(json);

// Numbers of 64 bits may be texts of digits, since not all of them are numbers of JavaScript.
function isInteger(kind, json) {
  const [sign, bits] = [kind[0], Number(kind.slice(1))];
  const isDigits = bits === 64 && typeof json === 'string' && /^-?\d+$/.test(json);
  if (!isDigits && !Number.isSafeInteger(json)) return false;
  const fit = sign === 's' ? BigInt.asIntN : BigInt.asUintN;
  return fit(bits, BigInt(json)) === BigInt(json);
}

function isLeaf(type, json) {
  const { kind } = type;
  if (kind === 'bool') return typeof json === 'boolean';
  if (kind === 'string') return isText(json);
  if (kind === 'char') return isText(json) && [...json].length === 1;
  if (kind === 'flags') return Array.isArray(json) && json.every(label => type.labels.includes(label));
  if (kind === 'enum') return type.cases.some(entry => entry.name === json);
  if (isFloat(type)) return typeof json === 'number' || (typeof json === 'string' && Object.hasOwn(FLOATS, json));
  return isInteger(isHandle(type) ? 'u32' : kind, json);
}

function partOfCase(type, json) {
  const [name, ...others] = isRecord(json) ? Object.keys(json) : [];
  const found = others.length ? undefined : type.cases.find(entry => entry.name === name);
  if (!found) return null;
  if (found.type === null) return json[name] === null ? [] : null;
  return [[name, found.type, json[name]]];
}

// The parts of a value, each with its key or its place, its type and its JSON; null where the JSON is no value of the type.
function partsOf(type, json) {
  if (type.element) {
    const isOne = type.kind === 'fixed-list' ? isList(json, type.length) : Array.isArray(json);
    return isOne ? json.map((part, place) => [place, type.element, part]) : null;
  }
  if (type.kind === 'tuple') return isList(json, type.fields.length) ? json.map((part, place) => [place, type.fields[place].type, part]) : null;
  if (type.fields) {
    const isOne = isRecord(json) && Object.keys(json).length === type.fields.length && type.fields.every(field => Object.hasOwn(json, field.name));
    return isOne ? type.fields.map(field => [field.name, field.type, json[field.name]]) : null;
  }
  if (type.cases && type.kind !== 'enum') return partOfCase(type, json);
  return isLeaf(type, json) ? [] : null;
}

// Where, and of what type, the first part is that is none; null where all are.
function misfit(path, type, json) {
  const parts = partsOf(type, json);
  if (!parts) return `${path}: ${JSON.stringify(json).slice(0, MOST_TOLD)} is no ${typeText(type)}`;
  for (const [step, part, inner] of parts) {
    const found = misfit(`${path}.${step}`, part, inner);
    if (found) return found;
  }
  return null;
}

/** The values of these types that a text has as JSON, written as in `conformance/README.md`. `what` begins the path of a part that is none. */
export function valuesGiven(what, types, text) {
  let json;
  try {
    json = JSON.parse(text);
  } catch (error) {
    throw new Error(`${what}: this is no JSON: ${error.message}`);
  }
  if (!isList(json, types.length)) throw new Error(`${what}: a list of length ${types.length} is wanted`);
  const found = types.map((type, place) => misfit(`${what}.${place}`, type, json[place])).find(fault => fault !== null);
  if (found) throw new Error(found);
  return allFromJson(types, json);
}
