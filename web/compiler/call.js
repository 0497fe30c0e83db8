// Calls of adapters by the program in the page, which has a host of its own for them: `factc --call`.
import { functionsOf, paramTypes } from '../abi/types.js';
import { runProgram } from './program.js';

const json = value => JSON.stringify(value);

function bitsOf(kind, number) {
  const view = new DataView(new ArrayBuffer(8));
  if (kind === 'f64') view.setFloat64(0, number);
  else view.setFloat32(4, number);
  return view.getBigUint64(0);
}

// Keys of an object stand in the order of their scalar values.
function byName({ name: one }, { name: other }) {
  const [ones, others] = [[...one], [...other]];
  const place = ones.findIndex((char, at) => char !== others[at]);
  if (place < 0) return ones.length - others.length;
  return place < others.length ? ones[place].codePointAt(0) - others[place].codePointAt(0) : 1;
}

/** A value as the program writes it: JSON, with floats by their bits and integers as they are, however large. */
export function valueText(type, value) {
  const part = (inner, one) => inner === null ? 'null' : valueText(inner, one);
  if (type.kind === 'f32' || type.kind === 'f64') return String(bitsOf(type.kind, value));
  if (typeof value === 'bigint') return String(value);
  if (type.element) return valuesText(value.map(() => type.element), value);
  if (type.kind === 'tuple') return valuesText(type.fields.map(field => field.type), value);
  if (type.fields) return `{${[...type.fields].sort(byName).map(field => `${json(field.name)}:${part(field.type, value[field.name])}`).join(',')}}`;
  if (!type.cases || type.kind === 'enum') return json(value);
  const [[name, payload]] = Object.entries(value);
  return `{${json(name)}:${part(type.cases.find(entry => entry.name === name).type, payload)}}`;
}

/** Values of these types, as a list. */
export const valuesText = (types, values) => `[${types.map((type, place) => valueText(type, values[place])).join(',')}]`;

/**
 * What the program tells of a call of an adapter, with the caller's arguments and the results that the callee answers: a status, and where it is
 * 0 the `lines` that say what the callee is given, what the caller gets and how many calls of imports there are; else `told`.
 */
export async function callAdapter(program, plan, adapter, given) {
  const functions = functionsOf(plan);
  const args = valuesText(paramTypes(functions[adapter.lower.ty]), given.arguments);
  const results = valuesText(functions[adapter.lift.ty].results, given.results);
  const input = `{"plan":${json(plan)},"args":${args},"results":${results}}`;
  const { status, output, told, error } = await runProgram(program, [`--call=${adapter.name}`], input);
  return status === 0 ? { status, lines: output.trimEnd().split('\n') } : { status, told: error ?? told.trimEnd() };
}
