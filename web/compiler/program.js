// The program `factc` in a page: `build` makes WebAssembly of it, and here it runs on words and an input of the page's own.

const OUTPUT = 1;
const TOLD = 2;

const bytesOf = text => new TextEncoder().encode(text);

/** The program, of the bytes of `factc.wasm`. An engine that has no memories of 64 bits refuses it. */
export const programOf = bytes => WebAssembly.compile(bytes);

/**
 * Runs the program once, in a memory of its own. It is given the words behind its name, and as its input a text. What comes of it: its
 * `status`, `output` and `told`, the texts that it wrote to standard output and to standard error, and where the engine ended the run, for want
 * of stack, say, `error`, the engine's words, with the status null.
 */
export async function runProgram(program, words, input) {
  const streams = new Streams(['factc', ...words].map(bytesOf), bytesOf(input));
  const { exports } = await WebAssembly.instantiate(program, { host: streams.imports() });
  streams.memory = exports.memory;
  const ended = { status: null, error: null };
  try {
    ended.status = exports.run();
  } catch (error) {
    ended.error = String(error);
  }
  return { ...ended, output: streams.text(OUTPUT), told: streams.text(TOLD) };
}

// The words and the streams of a run: the functions of the host that runtime.c names. Addresses, lengths and places are bigints.
class Streams {
  constructor(words, input) {
    this.words = words;
    this.left = input;
    this.written = { [OUTPUT]: [], [TOLD]: [] };
    this.memory = null; // the program's, once it is there
  }

  // The bytes of the program's memory; where that has grown, its buffer is another one.
  bytes(address, length) {
    return new Uint8Array(this.memory.buffer, Number(address), Number(length));
  }

  text(stream) {
    const decoder = new TextDecoder('utf-8', { fatal: true, ignoreBOM: true });
    return this.written[stream].map(piece => decoder.decode(piece, { stream: true })).join('') + decoder.decode();
  }

  imports() {
    return {
      read: (address, length) => {
        const piece = this.left.subarray(0, Number(length));
        this.bytes(address, piece.length).set(piece);
        this.left = this.left.subarray(piece.length);
        return BigInt(piece.length);
      },
      write: (stream, address, length) => {
        this.written[stream].push(this.bytes(address, length).slice());
        return length;
      },
      word_count: () => BigInt(this.words.length),
      word: (place, address, length) => {
        const word = this.words[Number(place)];
        if (!word) return -1n;
        if (word.length > Number(length)) return -2n;
        this.bytes(address, word.length).set(word);
        return BigInt(word.length);
      },
    };
  }
}
