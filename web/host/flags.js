// The flags of component instances, of which adapters read and write those of their two sides.

/** The import flags.instanceN: not 0 where the instance may leave. */
export function flagsImport(run, instance) {
  const mayNotLeave = run.given.mayNotLeave && instance === run.adapter.lower.instance;
  const flag = new WebAssembly.Global({ value: 'i32', mutable: true }, mayNotLeave ? 0 : 1);
  run.flags.set(instance, flag);
  return flag;
}
