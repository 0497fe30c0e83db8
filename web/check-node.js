// Runs all that is there by node, as check.html does in a browser: node check-node.js FOLDER SEED, where the folder has the files of
// modules.py, and `factc.wasm` where it is to be tried. It writes the report as JSON.
import { readFile } from 'node:fs/promises';
import { checkAll } from './check.js';

const [folder, seed] = process.argv.slice(2);

async function readBytes(path) {
  const place = path.startsWith('out/') ? `${folder}/${path.slice(4)}` : new URL(path, import.meta.url);
  try {
    return await readFile(place);
  } catch (error) {
    if (error.code === 'ENOENT') return null;
    throw error;
  }
}

const read = async path => JSON.parse(await readBytes(path));

console.log(JSON.stringify(await checkAll(read, readBytes, Number(seed ?? 1), async () => {})));
