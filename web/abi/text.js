// Texts as the bytes of an encoding: utf8, utf16 (little-endian) or latin1. The compact encoding of a side is one of the latter two, as
// bit 31 of a text's length tells.

export const UTF16_TAG = 2 ** 31;

export const isLatin1 = text => [...text].every(scalar => scalar.codePointAt(0) < 256);
export const unitSize = encoding => encoding === 'utf16' ? 2 : 1;

export function encode(encoding, text) {
  if (encoding === 'utf8') return new TextEncoder().encode(text);
  if (encoding === 'latin1') return Uint8Array.from([...text], scalar => scalar.codePointAt(0));
  const bytes = new Uint8Array(2 * text.length);
  const view = new DataView(bytes.buffer);
  for (let place = 0; place < text.length; place++) view.setUint16(2 * place, text.charCodeAt(place), true);
  return bytes;
}

/** Throws where the bytes are no whole scalar values in the encoding. */
export function decode(encoding, bytes) {
  if (encoding === 'latin1') return Array.from(bytes, byte => String.fromCharCode(byte)).join('');
  const label = encoding === 'utf8' ? 'utf-8' : 'utf-16le';
  return new TextDecoder(label, { fatal: true, ignoreBOM: true }).decode(bytes);
}
