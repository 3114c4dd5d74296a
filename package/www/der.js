// Values under the Distinguished Encoding Rules (X.690): read from octets, and written. What is read is never believed:
// each length stays within what stands around it, and whatever else isn't as it should be is Malformed.

export class Malformed extends Error {}

export const TAGS = {
  boolean: 0x01,
  integer: 0x02,
  bits: 0x03,
  octets: 0x04,
  null: 0x05,
  oid: 0x06,
  utf8: 0x0c,
  time: 0x18,
  sequence: 0x30,
  set: 0x31,
};

const demand = (is, what) => {
  if (!is) throw new Malformed(what);
};

// One value: its identifier octet, its contents, and the whole of it.
export class Value {
  constructor(octets, at = 0) {
    demand(at + 2 <= octets.length, "no value");
    this.tag = octets[at];
    demand((this.tag & 0x1f) !== 0x1f, "a long tag");
    let length = octets[at + 1];
    let begin = at + 2;
    if (length >= 0x80) {
      const count = length - 0x80;
      demand(count >= 1 && count <= 4 && begin + count <= octets.length, "a length");
      length = 0;
      for (let digit = 0; digit < count; digit += 1) length = length * 256 + octets[begin + digit];
      begin += count;
    }
    demand(begin + length <= octets.length, "a value that isn't whole");
    this.contents = octets.subarray(begin, begin + length);
    this.whole = octets.subarray(at, begin + length);
  }

  // The value itself, if it has this tag.
  as(tag) {
    demand(this.tag === tag, `tag ${this.tag} instead of ${tag}`);
    return this;
  }

  get children() {
    const found = [];
    for (let at = 0; at < this.contents.length; at += found.at(-1).whole.length) {
      found.push(new Value(this.contents, at));
    }
    return found;
  }

  get integer() {
    demand(this.contents.length > 0, "an empty number");
    let number = BigInt(this.contents[0] >= 0x80 ? -1 : 0);
    for (const octet of this.contents) number = number * 256n + BigInt(octet);
    return number;
  }

  get oid() {
    const numbers = [];
    let number = 0n;
    for (const octet of this.contents) {
      number = number * 128n + BigInt(octet & 0x7f);
      if (octet < 0x80) {
        numbers.push(number);
        number = 0n;
      }
    }
    demand(numbers.length > 0 && this.contents.at(-1) < 0x80, "an object identifier");
    const [joined, ...others] = numbers;
    const first = joined < 80n ? joined / 40n : 2n;
    return [first, joined - 40n * first, ...others].join(".");
  }

  // A text of any of ASN.1's kinds that names are made of.
  get text() {
    const kinds = { 0x1e: "utf-16be", 0x14: "iso-8859-1" };
    return new TextDecoder(kinds[this.tag] ?? "utf-8").decode(this.contents);
  }

  // The octets of a BIT STRING of whole octets.
  get bits() {
    demand(this.contents.length > 0 && this.contents[0] === 0, "bits that are no octets");
    return this.contents.subarray(1);
  }

  // The microseconds since 1970 of a GeneralizedTime or a UTCTime (RFC 5280 4.1.2.5, RFC 3161 2.4.2).
  get moment() {
    const form = /^(\d{2}|\d{4})(\d{2})(\d{2})(\d{2})(\d{2})(\d{2})(?:\.(\d{1,6})\d*)?Z$/;
    const found = form.exec(this.text);
    demand(found && (this.tag === TAGS.time || this.tag === 0x17), "a time");
    const [, year, month, day, hour, minute, second, fraction = ""] = found;
    const century = year.length === 4 ? 0 : year < "50" ? 2000 : 1900;
    const milliseconds = Date.UTC(century + Number(year), month - 1, day, hour, minute, second);
    demand(Number.isFinite(milliseconds), "a time");
    return BigInt(milliseconds) * 1000n + BigInt(fraction.padEnd(6, "0"));
  }
}

// The one value that these octets are.
export function only(octets) {
  const value = new Value(octets);
  demand(value.whole.length === octets.length, "octets behind the value");
  return value;
}

export function joined(...parts) {
  const all = new Uint8Array(parts.reduce((sum, part) => sum + part.length, 0));
  let at = 0;
  for (const part of parts) {
    all.set(part, at);
    at += part.length;
  }
  return all;
}

export function equal(one, other) {
  return one.length === other.length && one.every((octet, at) => octet === other[at]);
}

export const hexadecimal = (octets) => Array.from(octets, (octet) => octet.toString(16).padStart(2, "0")).join("");

function digits(number, base) {
  const found = [];
  for (let rest = number; rest > 0n || found.length === 0; rest /= base) found.unshift(Number(rest % base));
  return found;
}

export function written(tag, ...parts) {
  const contents = joined(...parts);
  const length = contents.length < 128 ? [contents.length] : digits(BigInt(contents.length), 256n);
  const head = contents.length < 128 ? [tag, ...length] : [tag, 0x80 + length.length, ...length];
  return joined(Uint8Array.from(head), contents);
}

export const sequence = (...parts) => written(TAGS.sequence, ...parts);

// A number that isn't negative.
export function integer(number) {
  const octets = digits(number, 256n);
  return written(TAGS.integer, Uint8Array.from(octets[0] < 0x80 ? octets : [0, ...octets]));
}

const BASE64 = "[A-Za-z0-9+/=\\s]+";

const ofBase64 = (text) => Uint8Array.from(atob(text.replace(/\s/g, "")), (one) => one.charCodeAt(0));

// What a file has in PEM under a label (RFC 7468), or whatever it has, in base 64 alone too.
export function readPem(octets, label = "[A-Z0-9 ]+") {
  const text = new TextDecoder().decode(octets);
  const blocks = Array.from(text.matchAll(new RegExp(`-----BEGIN ${label}-----(${BASE64})-----END`, "g")));
  if (blocks.length) return blocks.map(([, block]) => ofBase64(block));
  return new RegExp(`^${BASE64}$`).test(text) ? [ofBase64(text)] : [];
}

// Whether a text is an object identifier: X.690 8.19 and X.660 say which numbers may come first.
export function isOid(text) {
  return /^(?:[01]\.(?:\d|[1-3]\d)|2\.(?:0|[1-9]\d*))(?:\.(?:0|[1-9]\d*))*$/.test(text);
}

export function oid(text) {
  const [first, second, ...others] = text.split(".").map(BigInt);
  const groups = [40n * first + second, ...others].flatMap((number) => {
    const found = digits(number, 128n);
    return found.map((group, at) => (at < found.length - 1 ? group + 0x80 : group));
  });
  return written(TAGS.oid, Uint8Array.from(groups));
}
