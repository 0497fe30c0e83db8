// The function that is lifted, and its post-return.
import { liftValues, lowerValues } from '../abi/flatten.js';
import { paramTypes } from '../abi/types.js';
import { allToJson } from '../abi/values.js';
import { MOST_FLAT_PARAMS, MOST_FLAT_RESULTS } from '../abi/layout.js';

/** The import callee.NAME: it looks at its parameters, and gives its results. */
export function calleeImport(run) {
  const { callee } = run;
  return (...cores) => {
    const event = run.record('callee', 'callee', `with core values ${run.text(cores)}`);
    run.strayWrites.push(...run.stray('parameters', callee), ...run.changed('parameters', run.caller));
    run.calleeCores = cores;
    run.calleeArguments = liftValues(callee.reader, paramTypes(run.lift), cores, MOST_FLAT_PARAMS);
    event.values = JSON.stringify(allToJson(paramTypes(run.lift), run.calleeArguments));
    if (run.given.throws) throw run.given.throws;
    const results = give(run);
    event.answer = results === undefined ? '' : String(results);
    run.tasks[run.tasks.length - 1].splice(0, 2, 31, 32);
    callee.watch();
    run.caller.watch();
    return results;
  };
}

function give(run) {
  const { callee, adapter, lift, given } = run;
  if (given.calleeImages) callee.place(given.calleeImages);
  const most = adapter.lift.async ? MOST_FLAT_PARAMS : MOST_FLAT_RESULTS;
  const cores = given.calleeCores ?? lowerValues(callee, lift.results, given.results, most);
  if (adapter.lift.async) {
    run.taskResults = cores;
    run.record('task-return', 'callee', `with core values ${run.text(cores)}`).values = JSON.stringify(allToJson(lift.results, given.results));
    const hasCallback = adapter.lift.callback !== null && adapter.lift.callback !== undefined;
    return hasCallback ? 0 : undefined;
  }
  run.resultCores = cores;
  return cores[0];
}

/** The import post_return.NAME. */
export function postReturnImport(run) {
  return (...cores) => {
    run.postReturnCores = cores;
    run.record('post-return', 'callee', `with core values ${run.text(cores)}`);
  };
}
