// An archive of files as they are, without compressing: tokens don't shrink (PKWARE's APPNOTE.TXT 6.3.10, 4.3).

// by Unix, version 2.0: other names in UTF-8 are taken for ones of DOS, by unzip; and files that their owner may write
const MADE_BY = 0x0314;
const MODE = 0o100644 * 2 ** 16;
const TABLE = Uint32Array.from({ length: 256 }, (_, octet) => {
  let sum = octet;
  for (let bit = 0; bit < 8; bit += 1) sum = sum & 1 ? 0xedb88320 ^ (sum >>> 1) : sum >>> 1;
  return sum;
});

const checksum = (octets) => ~octets.reduce((sum, octet) => (sum >>> 8) ^ TABLE[(sum ^ octet) & 0xff], -1) >>> 0;

// Numbers in two or four octets each, the lowest first.
const record = (fields) =>
  Uint8Array.from(fields.flatMap(([count, number]) => Array.from({ length: count }, (_, at) => number >>> (8 * at))));

// The two numbers of a moment: the time in two seconds, the date from 1980 on.
function moment(date) {
  const time = (date.getHours() << 11) | (date.getMinutes() << 5) | (date.getSeconds() >> 1);
  return [time, ((date.getFullYear() - 1980) << 9) | ((date.getMonth() + 1) << 5) | date.getDate()];
}

// The parts of the archive of at most 65,535 files, each a path and its octets.
export function archive(files, date = new Date()) {
  const [time, day] = moment(date);
  const parts = [];
  const directory = [];
  let at = 0;
  for (const [path, octets] of files) {
    const name = new TextEncoder().encode(path);
    const size = octets.length;
    // version 2.0, a name in UTF-8, as it is
    const kind = [[2, 20], [2, 0x800], [2, 0], [2, time], [2, day], [4, checksum(octets)], [4, size], [4, size]];
    const both = [...kind, [2, name.length], [2, 0]];
    const head = record([[4, 0x04034b50], ...both]);
    parts.push(head, name, octets);
    directory.push(record([[4, 0x02014b50], [2, MADE_BY], ...both, [2, 0], [2, 0], [2, 0], [4, MODE], [4, at]]), name);
    at += head.length + name.length + size;
  }
  const count = files.length;
  const length = directory.reduce((sum, part) => sum + part.length, 0);
  const end = record([[4, 0x06054b50], [2, 0], [2, 0], [2, count], [2, count], [4, length], [4, at], [2, 0]]);
  return [...parts, ...directory, end];
}
