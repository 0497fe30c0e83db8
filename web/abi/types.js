// The types of a plan as trees: a type holds its parts, where the plan names them by their places.
//
// A type is an object with its `kind`, and by kind
//   record, tuple                    fields: [{name, type}], of a tuple named '0', '1' and so on
//   variant, enum, option, result    cases: [{name, type}], where type is null without a payload
//   list, map                        element; that of a map is the tuple of key and value
//   fixed-list                       element, length
//   flags                            labels
//   own, borrow                      table
//   future, stream                   payload, which may be null, and instance
//   error-context                    instance

const WORDS = ['bool', 's8', 'u8', 's16', 'u16', 's32', 'u32', 's64', 'u64', 'f32', 'f64', 'char', 'string'];
const PRIMITIVES = new Map(WORDS.map(kind => [kind, { kind }]));

export const HANDLES = ['own', 'borrow', 'future', 'stream', 'error-context'];
export const isHandle = type => HANDLES.includes(type.kind);

/** The types of a plan, by their places in `types`. */
export function typesOf(plan) {
  const types = [];
  for (const entry of plan.types) {
    const [[kind, value]] = Object.entries(entry);
    types.push(typeOf(kind, value, reference => referred(types, reference)));
  }
  return types;
}

/** The functions of a plan, by their places in `funcs`. */
export function functionsOf(plan) {
  const types = typesOf(plan);
  return plan.funcs.map(entry => ({
    params: entry.params.map(([name, reference]) => ({ name, type: referred(types, reference) })),
    results: entry.results.map(reference => referred(types, reference)),
    isAsync: !!entry.async,
  }));
}

export const paramTypes = func => func.params.map(param => param.type);

function referred(types, reference) {
  if (reference === null) return null;
  return typeof reference === 'number' ? types[reference] : PRIMITIVES.get(reference);
}

function typeOf(kind, value, part) {
  const named = ([name, reference]) => ({ name, type: part(reference) });
  const none = name => ({ name, type: null });
  switch (kind) {
    case 'record': return { kind, fields: value.map(named) };
    case 'tuple': return tupleOf(value.map(part));
    case 'variant': return { kind, cases: value.map(named) };
    case 'enum': return { kind, cases: value.map(none) };
    case 'option': return { kind, cases: [none('none'), named(['some', value])] };
    case 'result': return { kind, cases: [named(['ok', value[0]]), named(['error', value[1]])] };
    case 'list': return { kind, element: part(value) };
    case 'map': return { kind, element: tupleOf(value.map(part)) };
    case 'fixed-list': return { kind, element: part(value[0]), length: value[1] };
    case 'flags': return { kind, labels: value };
    case 'own': case 'borrow': return { kind, table: value };
    case 'future': case 'stream': return { kind, payload: part(value[0]), instance: value[1] };
    default: return { kind, instance: value }; // error-context
  }
}

/** The tuple of these types. */
export function tupleOf(types) {
  return { kind: 'tuple', fields: types.map((type, place) => ({ name: String(place), type })) };
}

/** Whether a value of the type holds one of these kinds. */
export function holds(type, kinds) {
  if (type === null) return false;
  if (kinds.includes(type.kind)) return true;
  const parts = type.fields ?? type.cases ?? (type.element ? [{ type: type.element }] : []);
  return parts.some(part => holds(part.type, kinds));
}

/** A type as it is written in an interface. Of long lists the front is told. */
export function typeText(type) {
  if (type === null) return '_';
  const few = (parts, text) => parts.slice(0, 8).map(text).join(', ') + (parts.length > 8 ? ', ..' : '');
  const fieldText = ({ name, type: part }) => `${name}: ${typeText(part)}`;
  const caseText = ({ name, type: part }) => part === null ? name : `${name}(${typeText(part)})`;
  switch (type.kind) {
    case 'record': return `record { ${few(type.fields, fieldText)} }`;
    case 'tuple': return `tuple<${few(type.fields, field => typeText(field.type))}>`;
    case 'variant': case 'enum': return `${type.kind} { ${few(type.cases, caseText)} }`;
    case 'option': return `option<${typeText(type.cases[1].type)}>`;
    case 'result': return `result<${few(type.cases, part => typeText(part.type))}>`;
    case 'list': return `list<${typeText(type.element)}>`;
    case 'map': return `map<${few(type.element.fields, field => typeText(field.type))}>`;
    case 'fixed-list': return `list<${typeText(type.element)}, ${type.length}>`;
    case 'flags': return `flags { ${few(type.labels, label => label)} }`;
    case 'own': case 'borrow': return `${type.kind}<table ${type.table}>`;
    case 'future': case 'stream': return type.payload === null ? type.kind : `${type.kind}<${typeText(type.payload)}>`;
    default: return type.kind;
  }
}
