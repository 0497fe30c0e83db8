// The transfers of handles: each gives a handle its number on the other side. Here that is the number and 1,000 more, so that a handle
// that went across is told from one that did not.

const TRANSFERRED = 1000;
export const transferred = handle => handle + TRANSFERRED >>> 0;

const KINDS = {
  'resource-transfer-own': 'own', 'resource-transfer-borrow': 'borrow', 'future-transfer': 'future', 'stream-transfer': 'stream',
  'error-context-transfer': 'error-context',
};

export const isTransfer = word => word in KINDS;

export function transferImport(run, word) {
  return (handle, source, target) => {
    const number = transferred(handle);
    run.transfers.push({ kind: KINDS[word], handle: handle >>> 0, source: source >>> 0, target: target >>> 0 });
    run.record('transfer', 'runtime', `${KINDS[word]} ${handle} of table ${source} to table ${target}`, number);
    return number;
  };
}
