// The twelve transcoders. Each takes a source address, its length in code units and a destination address, then what its form tells:
//
//   copies, latin1-to-utf16                        no more, and answers nothing
//   utf8-to-utf16                                  no more, and answers the units written
//   utf16-to-compact-probably-utf16                no more, and answers the units written, with bit 31 set where they are UTF-16
//   utf16-to-utf8, latin1-to-utf8                  the room in bytes and whether it is the first pass; answers units read, bytes written
//   utf8-to-latin1, utf16-to-latin1                no more, and answers units read, bytes written, up to a scalar value past 255
//   utf8-to-compact-utf16, utf16-to-compact-utf16  the room in units and how many Latin-1 bytes stand at the destination, which become
//                                                  units in place; answers the units in all
import { pointerCore, pointerNumber } from '../abi/flatten.js';
import { decode, encode, isLatin1, unitSize, UTF16_TAG } from '../abi/text.js';

const all = (text, to) => ({ bytes: encode(to, text), answers: () => [] });

// What is taken, scalar value by scalar value, and how many units of the source that was.
function front(text, from, to, takes) {
  const parts = [];
  let read = 0;
  for (const scalar of text) {
    const bytes = encode(to, scalar);
    if (!takes(scalar, parts.length + bytes.length)) break;
    parts.push(...bytes);
    read += encode(from, scalar).length / unitSize(from);
  }
  return { bytes: Uint8Array.from(parts), answers: (source, target) => [pointerCore(source, read), pointerCore(target, parts.length)] };
}

const copies = encoding => ({ from: encoding, to: encoding, convert: text => all(text, encoding) });

const toUtf8 = from => ({
  from, to: 'utf8',
  convert: (text, [room]) => front(text, from, 'utf8', (_, end) => end <= pointerNumber(room)),
});

const toLatin1 = from => ({ from, to: 'latin1', convert: text => front(text, from, 'latin1', scalar => isLatin1(scalar)) });

const toCompactUtf16 = from => ({
  from, to: 'utf16',
  convert(text, [room, latin1], target, start) {
    const units = decode('latin1', target.bytes.slice(start, start + pointerNumber(latin1))) + text;
    if (units.length > pointerNumber(room)) throw new Error(`a transcoder is given room for ${room} units, not ${units.length}`);
    return { bytes: encode('utf16', units), answers: () => [pointerCore(target, units.length)] };
  },
});

const TRANSCODERS = {
  'utf8-to-utf8': copies('utf8'),
  'utf16-to-utf16': copies('utf16'),
  'latin1-to-latin1': copies('latin1'),
  'latin1-to-utf16': { from: 'latin1', to: 'utf16', convert: text => all(text, 'utf16') },
  'utf8-to-utf16': {
    from: 'utf8', to: 'utf16',
    convert: (text, _, target) => ({ bytes: encode('utf16', text), answers: () => [pointerCore(target, text.length)] }),
  },
  'utf16-to-utf8': toUtf8('utf16'),
  'latin1-to-utf8': toUtf8('latin1'),
  'utf8-to-latin1': toLatin1('utf8'),
  'utf16-to-latin1': toLatin1('utf16'),
  'utf8-to-compact-utf16': toCompactUtf16('utf8'),
  'utf16-to-compact-utf16': toCompactUtf16('utf16'),
  'utf16-to-compact-probably-utf16': {
    from: 'utf16', to: 'utf16',
    convert(text, _, target) {
      const bytes = encode(isLatin1(text) ? 'latin1' : 'utf16', text);
      return { bytes, answers: () => [pointerCore(target, isLatin1(text) ? text.length : text.length + UTF16_TAG)] };
    },
  },
};

/**
 * The import transcode: it reads the memory of one side, and writes that of the other. Where it may write lies in a region that realloc gave:
 * its room, where it is told one, else as many units as the source has.
 */
export function transcodeImport(run, operation, source, target) {
  const { from, to, convert } = TRANSCODERS[operation];
  return (pointer, length, address, ...more) => {
    const [start, units, place] = [pointer, length, address].map(pointerNumber);
    const end = start + units * unitSize(from);
    if (start % unitSize(from) !== 0) throw new Error(`${operation} is to read at ${start}, which is not aligned`);
    if (end > source.bytes.length) throw new Error(`${operation} is to read to ${end}, of ${source.bytes.length} bytes`);
    const room = (more.length ? pointerNumber(more[0]) : units) * unitSize(to);
    if (!target.knows(place, room)) throw new Error(`${operation} may write ${room} bytes at ${place}, in no region`);
    const text = decode(from, source.bytes.slice(start, end));
    const { bytes, answers } = convert(text, more, target, place);
    target.bytes.set(bytes, place);
    const answer = answers(source, target);
    const told = `${operation}(${[pointer, length, address, ...more].join(', ')})`;
    run.record('transcode', 'runtime', told, [JSON.stringify(text), ...answer].join(', '));
    return answer.length > 1 ? answer : answer[0];
  };
}
