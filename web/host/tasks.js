// What the runtime keeps of calls that may wait: which task runs, with its two context slots, and async calls between their two parts.

/** async.enter-sync-call and exit-sync-call: the callee runs as a task of its own, with slots of its own. */
export function enterImport(run) {
  return (isAsync, instance) => {
    run.enteredWith = [isAsync, instance].map(number => number >>> 0);
    run.record('enter-sync-call', 'runtime', `async ${isAsync}, instance ${instance >>> 0}`);
    run.tasks.push([21, 22]);
  };
}

export function exitImport(run) {
  return () => {
    run.record('exit-sync-call', 'runtime', '');
    run.tasks.pop();
  };
}

/** context.get0, get1, set0 and set1. */
export function contextImport(run, word) {
  const slot = Number(word[3]);
  const slots = () => run.tasks[run.tasks.length - 1];
  if (word.startsWith('get')) return () => slots()[slot];
  return value => { slots()[slot] = value; };
}

/** sync.[prepare-call]NAME: what it is given is kept for the start-call. */
export function prepareImport(run) {
  return (start, giveBack, lower, lift, tuple, isAsync, encoding, results, ...cores) => {
    run.prepared = { start, giveBack, cores, results: results >>> 0 };
    const numbers = [lower, lift, tuple, isAsync, encoding, results].map(number => number >>> 0);
    run.preparedWith = numbers;
    run.record('prepare-call', 'runtime', `instances ${numbers[0]} and ${numbers[1]}, tuple ${numbers[2]}, async ${numbers[3]}, `
      + `encoding ${numbers[4]}, results ${numbers[5]}, core values ${run.text(cores)}`);
  };
}

const BY_POINTER = 4294967294;
const RETURNED = 2; // the state of a subtask that has returned

/** async.[start-call]NAME: starts the callee at once, and lets it return. */
export function startImport(run) {
  return (callee, params, results, bits) => {
    run.startedWith = [params, results, bits].map(number => number >>> 0);
    run.record('start-call', 'runtime', `${params} core parameters, ${results} core results, bits ${bits}`);
    const { start, giveBack, cores, results: number } = run.prepared;
    const isLowerAsync = (bits & 2) !== 0;
    const isBehind = isLowerAsync ? number === BY_POINTER : number > 1;
    const own = isBehind ? cores.slice(0, -1) : cores;
    const started = run.record('async-start', 'adapter', `with core values ${run.text(own)}`);
    const given = listed(start(...own));
    started.answer = run.text(given);
    const answered = callee(...given);
    const values = [...((bits & 1) !== 0 ? run.taskResults : listed(answered)), ...(isBehind ? cores.slice(-1) : [])];
    const returned = run.record('async-return', 'adapter', `with core values ${run.text(values)}`);
    const got = giveBack(...values);
    returned.answer = run.text(listed(got));
    const answer = isLowerAsync ? RETURNED : got;
    run.startAnswer = listed(answer);
    return answer;
  };
}

export const listed = answer => answer === undefined ? [] : Array.isArray(answer) ? answer : [answer];
