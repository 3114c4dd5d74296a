// The SHA-2 functions (FIPS 180-4) in pieces. The browser's own digest takes a value as a whole, and so no file that is
// larger than the memory.

const MASK = 2n ** 64n - 1n;
const WORD = 2 ** 32;

// The greatest number whose power of this degree isn't above the value, by Newton's steps from above.
function root(value, degree) {
  const power = BigInt(degree);
  let guess = 1n << BigInt(Math.ceil(value.toString(2).length / degree));
  for (;;) {
    const next = ((power - 1n) * guess + value / guess ** (power - 1n)) / power;
    if (next >= guess) return guess;
    guess = next;
  }
}

function primes(count) {
  const found = [];
  for (let number = 2; found.length < count; number += 1) {
    if (found.every((prime) => number % prime !== 0)) found.push(number);
  }
  return found;
}

// The standard's constants are the first 64 bits of the fractions of roots of primes (4.2.2, 4.2.3, 5.3).
const PRIMES = primes(80);
const fraction = (prime, degree) => root(BigInt(prime) << BigInt(64 * degree), degree) & MASK;
const fractions = (numbers, degree) => numbers.map((prime) => fraction(prime, degree));
const CUBES = fractions(PRIMES, 3);
const SQUARES = fractions(PRIMES.slice(0, 16), 2);
const upper = (words) => Int32Array.from(words, (word) => Number(word >> 32n) | 0);
const lower = (words) => Int32Array.from(words, (word) => Number(word & 0xffffffffn) | 0);
const UPPER = upper(CUBES);
const LOWER = lower(CUBES);

// The bits of so many octets, in eight octets, big-endian. No number below 2^53 is rounded on the way.
export function lengthInBits(octets) {
  const view = new DataView(new ArrayBuffer(8));
  view.setUint32(0, Math.floor(octets / 2 ** 29));
  view.setUint32(4, (octets % 2 ** 29) * 8);
  return new Uint8Array(view.buffer);
}

// What both kinds have: octets are kept until a block is whole.
class Pieces {
  constructor(block, length) {
    this.kept = new Uint8Array(block);
    this.keptCount = 0;
    this.count = 0;
    this.length = length;
  }

  update(octets) {
    const block = this.kept.length;
    this.count += octets.length;
    let at = 0;
    if (this.keptCount > 0) {
      at = Math.min(block - this.keptCount, octets.length);
      this.kept.set(octets.subarray(0, at), this.keptCount);
      this.keptCount += at;
      if (this.keptCount < block) return this;
      this.compress(this.kept, 0);
    }
    for (; at + block <= octets.length; at += block) this.compress(octets, at);
    this.kept.set(octets.subarray(at));
    this.keptCount = octets.length - at;
    return this;
  }

  // The hash; nothing can be added after it.
  digest() {
    const block = this.kept.length;
    const bits = lengthInBits(this.count);
    // a bit that is set, zeros, and the length, which has an eighth of a block
    const zeros = (2 * block - this.keptCount - 1 - block / 8) % block;
    const end = new Uint8Array(1 + zeros + block / 8);
    end[0] = 0x80;
    end.set(bits, end.length - bits.length);
    this.update(end);
    return this.result().subarray(0, this.length);
  }
}

class Words32 extends Pieces {
  constructor(initial, length) {
    super(64, length);
    this.state = Int32Array.from(initial);
    this.schedule = new Int32Array(64);
  }

  compress(octets, start) {
    const w = this.schedule;
    const state = this.state;
    for (let t = 0, at = start; t < 16; t += 1, at += 4) {
      w[t] = (octets[at] << 24) | (octets[at + 1] << 16) | (octets[at + 2] << 8) | octets[at + 3];
    }
    for (let t = 16; t < 64; t += 1) {
      const x = w[t - 15];
      const y = w[t - 2];
      const first = ((x >>> 7) | (x << 25)) ^ ((x >>> 18) | (x << 14)) ^ (x >>> 3);
      const second = ((y >>> 17) | (y << 15)) ^ ((y >>> 19) | (y << 13)) ^ (y >>> 10);
      w[t] = (w[t - 16] + first + w[t - 7] + second) | 0;
    }
    let [a, b, c, d, e, f, g, h] = state;
    for (let t = 0; t < 64; t += 1) {
      const first = ((e >>> 6) | (e << 26)) ^ ((e >>> 11) | (e << 21)) ^ ((e >>> 25) | (e << 7));
      const one = (h + first + ((e & f) ^ (~e & g)) + UPPER[t] + w[t]) | 0;
      const second = ((a >>> 2) | (a << 30)) ^ ((a >>> 13) | (a << 19)) ^ ((a >>> 22) | (a << 10));
      const two = (second + ((a & b) ^ (a & c) ^ (b & c))) | 0;
      h = g;
      g = f;
      f = e;
      e = (d + one) | 0;
      d = c;
      c = b;
      b = a;
      a = (one + two) | 0;
    }
    state[0] += a;
    state[1] += b;
    state[2] += c;
    state[3] += d;
    state[4] += e;
    state[5] += f;
    state[6] += g;
    state[7] += h;
  }

  result() {
    const view = new DataView(new ArrayBuffer(32));
    this.state.forEach((word, number) => view.setInt32(4 * number, word));
    return new Uint8Array(view.buffer);
  }
}

// Words of 64 bits, each in two halves: a sum of lower halves is exact as a number, and what exceeds 32 bits is
// carried.
class Words64 extends Pieces {
  constructor(initial, length) {
    super(128, length);
    this.high = upper(initial);
    this.low = lower(initial);
    this.scheduleHigh = new Int32Array(80);
    this.scheduleLow = new Int32Array(80);
  }

  extend() {
    const wh = this.scheduleHigh;
    const wl = this.scheduleLow;
    for (let t = 16; t < 80; t += 1) {
      const xh = wh[t - 15];
      const xl = wl[t - 15];
      const yh = wh[t - 2];
      const yl = wl[t - 2];
      const firstHigh = ((xh >>> 1) | (xl << 31)) ^ ((xh >>> 8) | (xl << 24)) ^ (xh >>> 7);
      const firstLow = ((xl >>> 1) | (xh << 31)) ^ ((xl >>> 8) | (xh << 24)) ^ ((xl >>> 7) | (xh << 25));
      const secondHigh = ((yh >>> 19) | (yl << 13)) ^ ((yl >>> 29) | (yh << 3)) ^ (yh >>> 6);
      const secondLow = ((yl >>> 19) | (yh << 13)) ^ ((yh >>> 29) | (yl << 3)) ^ ((yl >>> 6) | (yh << 26));
      const low = (wl[t - 16] >>> 0) + (firstLow >>> 0) + (wl[t - 7] >>> 0) + (secondLow >>> 0);
      wl[t] = low | 0;
      wh[t] = (wh[t - 16] + firstHigh + wh[t - 7] + secondHigh + ((low / WORD) | 0)) | 0;
    }
  }

  compress(octets, start) {
    const wh = this.scheduleHigh;
    const wl = this.scheduleLow;
    const view = new DataView(octets.buffer, octets.byteOffset + start, 128);
    for (let t = 0; t < 16; t += 1) {
      wh[t] = view.getInt32(8 * t);
      wl[t] = view.getInt32(8 * t + 4);
    }
    this.extend();
    let [ah, bh, ch, dh, eh, fh, gh, hh] = this.high;
    let [al, bl, cl, dl, el, fl, gl, hl] = this.low;
    for (let t = 0; t < 80; t += 1) {
      const firstHigh = ((eh >>> 14) | (el << 18)) ^ ((eh >>> 18) | (el << 14)) ^ ((el >>> 9) | (eh << 23));
      const firstLow = ((el >>> 14) | (eh << 18)) ^ ((el >>> 18) | (eh << 14)) ^ ((eh >>> 9) | (el << 23));
      const chosenHigh = (eh & fh) ^ (~eh & gh);
      const chosenLow = (el & fl) ^ (~el & gl);
      const oneLow = (hl >>> 0) + (firstLow >>> 0) + (chosenLow >>> 0) + (LOWER[t] >>> 0) + (wl[t] >>> 0);
      const oneHigh = (hh + firstHigh + chosenHigh + UPPER[t] + wh[t] + ((oneLow / WORD) | 0)) | 0;
      const secondHigh = ((ah >>> 28) | (al << 4)) ^ ((al >>> 2) | (ah << 30)) ^ ((al >>> 7) | (ah << 25));
      const secondLow = ((al >>> 28) | (ah << 4)) ^ ((ah >>> 2) | (al << 30)) ^ ((ah >>> 7) | (al << 25));
      const mostHigh = (ah & bh) ^ (ah & ch) ^ (bh & ch);
      const mostLow = (al & bl) ^ (al & cl) ^ (bl & cl);
      const twoLow = (secondLow >>> 0) + (mostLow >>> 0);
      const twoHigh = (secondHigh + mostHigh + ((twoLow / WORD) | 0)) | 0;
      hh = gh;
      hl = gl;
      gh = fh;
      gl = fl;
      fh = eh;
      fl = el;
      const e = (dl >>> 0) + (oneLow >>> 0);
      eh = (dh + oneHigh + ((e / WORD) | 0)) | 0;
      el = e | 0;
      dh = ch;
      dl = cl;
      ch = bh;
      cl = bl;
      bh = ah;
      bl = al;
      const a = (oneLow >>> 0) + (twoLow >>> 0);
      ah = (oneHigh + twoHigh + ((a / WORD) | 0)) | 0;
      al = a | 0;
    }
    [ah, bh, ch, dh, eh, fh, gh, hh].forEach((word, number) => {
      const low = (this.low[number] >>> 0) + ([al, bl, cl, dl, el, fl, gl, hl][number] >>> 0);
      this.low[number] = low | 0;
      this.high[number] = (this.high[number] + word + ((low / WORD) | 0)) | 0;
    });
  }

  result() {
    const view = new DataView(new ArrayBuffer(64));
    this.high.forEach((word, number) => view.setInt32(8 * number, word));
    this.low.forEach((word, number) => view.setInt32(8 * number + 4, word));
    return new Uint8Array(view.buffer);
  }
}

// By object identifier (RFC 5754 2): the name that people and `openssl` use, and what begins a hash.
export const ALGORITHMS = {
  "2.16.840.1.101.3.4.2.4": { name: "SHA-224", begin: () => new Words32(lower(SQUARES.slice(8)), 28) },
  "2.16.840.1.101.3.4.2.1": { name: "SHA-256", begin: () => new Words32(upper(SQUARES.slice(0, 8)), 32) },
  "2.16.840.1.101.3.4.2.2": { name: "SHA-384", begin: () => new Words64(SQUARES.slice(8), 48) },
  "2.16.840.1.101.3.4.2.3": { name: "SHA-512", begin: () => new Words64(SQUARES.slice(0, 8), 64) },
};

export const SHA256 = "2.16.840.1.101.3.4.2.1";

// what a policy mostly has, where nobody tells
export const BUILT_IN = [SHA256, "2.16.840.1.101.3.4.2.2", "2.16.840.1.101.3.4.2.3"];

// An algorithm by its object identifier, or by its name such as sha256.
export const identified = (word) =>
  Object.keys(ALGORITHMS).find((oid) => ALGORITHMS[oid].name.replace("-", "").toLowerCase() === word) ?? word;

export const hashed = (algorithm, octets) => ALGORITHMS[algorithm].begin().update(octets).digest();
