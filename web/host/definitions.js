// Core definitions, by which a plan and the lines of `factc --imports` name exports of core instances and trampolines.

export const bytesOf = hex => Uint8Array.from({ length: hex.length / 2 }, (_, place) => parseInt(hex.slice(2 * place, 2 * place + 2), 16));

/** The text that a core definition of a plan is known by, which two entries of one definition share. */
export const definitionKey = (plan, place) => JSON.stringify(plan.core_defs[place]);

/** The words `export N H` or `trampoline N` from a place of a line on, as such a text, and how many they are. */
export function definitionOf(words, place) {
  if (words[place] === 'trampoline') return { key: JSON.stringify({ trampoline: Number(words[place + 1]) }), count: 2 };
  const name = new TextDecoder().decode(bytesOf(words[place + 2] ?? ''));
  return { key: JSON.stringify({ export: [Number(words[place + 1]), name] }), count: 3 };
}

/** The side of the adapter that is run which names this definition as its memory or its realloc. */
export function sideWith(run, option, key) {
  return run.sides.find(({ options }) => {
    const place = option === 'memory' ? options.memory?.def : options[option];
    return place !== undefined && place !== null && definitionKey(run.plan, place) === key;
  });
}
