// One side of an adapter: its memory with the regions in it, its encoding and its pointers. It gives regions one behind the other, and
// knows which of them the adapter asked for, so that a write anywhere else is seen.
import { alignTo, pointerSizeOf } from '../abi/layout.js';

const FIRST_REGION = 64;

export class Side {
  constructor(name, options, memory, noise = null) {
    this.name = name;
    this.options = options;
    this.memory = memory;
    this.noise = noise;
    this.encoding = options.encoding ?? 'utf8';
    this.pointerSize = pointerSizeOf(options);
    this.pageSize = options.memory?.page_size_log2 === 0 ? 1 : 65536;
    this.strict = false;
    this.next = FIRST_REGION;
    this.live = new Map(); // the bytes of a region by its address
    this.granted = []; // what the adapter may write or might have written before
    this.before = null;
    this.looks = {};
  }

  // A memory has another buffer once it has grown.
  get view() { return this.seen().view; }
  get bytes() { return this.seen().bytes; }

  seen() {
    const { buffer } = this.memory;
    if (buffer !== this.looks.buffer) Object.assign(this.looks, { buffer, view: new DataView(buffer), bytes: new Uint8Array(buffer) });
    return this.looks;
  }

  /** This side as a reader that takes what is canonical alone. */
  get reader() { return Object.create(this, { strict: { value: true } }); }

  /** A region of a side's own, filled with noise where the side makes some. */
  allocate(size, alignment) {
    const address = alignTo(this.next, alignment);
    this.next = address + size;
    const missing = Math.ceil((this.next - this.memory.buffer.byteLength) / this.pageSize);
    if (missing > 0) this.memory.grow(this.pointerSize === 8 ? BigInt(missing) : missing);
    if (this.noise) this.bytes.fill(this.noise(), address, address + size);
    this.live.set(address, size);
    return address;
  }

  /** A region that the adapter may write. */
  grant(size, alignment) {
    const address = this.allocate(size, alignment);
    this.granted.push([address, size]);
    return address;
  }

  /** A region at an address that was chosen before, which the adapter may write. */
  grantAt(address, size) {
    this.live.set(address, size);
    this.granted.push([address, size]);
  }

  /** The realloc that the adapter is given: it moves each region, and keeps its front. */
  realloc(old, oldSize, alignment, size) {
    if (![1, 2, 4, 8].includes(alignment)) throw new Error(`${this.name}: realloc is asked for an alignment of ${alignment}`);
    if ((old !== 0 || oldSize !== 0) && this.live.get(old) !== oldSize) {
      throw new Error(`${this.name}: realloc is asked to resize ${oldSize} bytes at ${old}, which it did not give`);
    }
    const address = this.grant(size, alignment);
    if (oldSize > 0) this.bytes.copyWithin(address, old, old + Math.min(oldSize, size));
    this.live.delete(old);
    return address;
  }

  /** Whether these bytes lie in one live region. */
  knows(address, size) {
    if (size === 0) return true;
    for (const [start, length] of this.live) if (start <= address && address + size <= start + length) return true;
    return false;
  }

  /** Puts bytes at places of the memory; regions come behind them. */
  place(images) {
    for (const { address, bytes } of images) {
      const start = alignTo(Math.max(this.next, address + bytes.length), 8);
      this.next = address;
      this.allocate(start - address, 1);
      this.bytes.set(bytes, address);
    }
  }

  /** Keeps the memory as it is, for `strayWrite`. */
  watch() { this.before = this.bytes.slice(); }

  /** The first address that was written since `watch`, or null. */
  firstWrite() {
    const { bytes, before } = this;
    const address = bytes.findIndex((byte, place) => byte !== before[place]);
    return address < 0 ? null : address;
  }

  /** The first address that was written since `watch` outside of what was granted, or null. */
  strayWrite() {
    const now = this.bytes;
    const isFree = new Uint8Array(now.length);
    for (const [address, size] of this.granted) isFree.fill(1, address, address + size);
    for (let address = 0; address < this.before.length; address++) {
      if (now[address] !== this.before[address] && isFree[address] === 0) return address;
    }
    for (let address = this.before.length; address < now.length; address++) {
      if (now[address] !== 0 && isFree[address] === 0) return address;
    }
    return null;
  }
}
