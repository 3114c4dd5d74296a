// Hashes files beside the page, so that the page goes on answering. It takes a file and an algorithm under a number,
// and posts under that number how many octets are done, and at the end the hash. A number alone ends what it stands
// for.
import { ALGORITHMS } from "./hash.js";

const PIECE = 4 * 1024 * 1024;
// The browser's own digest is ten times as fast, and takes a value as a whole: so large a one as memory lets, of which
// browsers tell in gibibytes.
const WHOLE = Math.min(512, 128 * (navigator.deviceMemory ?? 4)) * 1024 * 1024;
const ended = new Set();

// Room for all of a file; none where it is too large, or memory runs out.
function room(size) {
  try {
    return size <= WHOLE ? new Uint8Array(size) : null;
  } catch {
    return null;
  }
}

async function digest(algorithm, octets) {
  const { name, begin } = ALGORITHMS[algorithm];
  try {
    return new Uint8Array(await crypto.subtle.digest(name, octets));
  } catch {
    // the browser hasn't this algorithm, or no memory for it
    return begin().update(octets).digest();
  }
}

async function hashOne(number, file, algorithm) {
  const whole = room(file.size);
  const hash = ALGORITHMS[algorithm].begin();
  for (let at = 0; at < file.size; at += PIECE) {
    const piece = new Uint8Array(await file.slice(at, at + PIECE).arrayBuffer());
    if (whole) whole.set(piece, at);
    else hash.update(piece);
    if (ended.delete(number)) return;
    self.postMessage({ number, done: Math.min(at + PIECE, file.size) });
  }
  self.postMessage({ number, digest: whole ? await digest(algorithm, whole) : hash.digest() });
}

self.onmessage = async ({ data: { number, file, algorithm } }) => {
  if (!file) {
    ended.add(number);
    return;
  }
  try {
    await hashOne(number, file, algorithm);
  } catch {
    // the file can't be read, or changed meanwhile
    self.postMessage({ number, failed: true });
  }
};
