// Requests, replies and tokens of time-stamping (RFC 3161 2.4, RFC 5652 5, RFC 5816), as values of the page.
import { Malformed, TAGS, equal, integer, oid, only, readPem, sequence, written } from "./der.js";

const SIGNED_DATA = "1.2.840.113549.1.7.2";
const TST_INFO = "1.2.840.113549.1.9.16.1.4";

// A TimeStampReq: of a hash by an algorithm, with a nonce, and a policy if one is asked for.
export function writeRequest({ algorithm, hash, policy, nonce, isCertificateAsked }) {
  const imprint = sequence(sequence(oid(algorithm), written(TAGS.null)), written(TAGS.octets, hash));
  const asked = [policy ? [oid(policy)] : [], [integer(nonce)]].flat();
  const certificate = isCertificateAsked ? [written(TAGS.boolean, Uint8Array.of(0xff))] : [];
  return sequence(integer(1n), imprint, ...asked, ...certificate);
}

// 16 octets that nobody can foresee, as a number.
export function newNonce() {
  const octets = crypto.getRandomValues(new Uint8Array(16));
  return octets.reduce((number, octet) => number * 256n + BigInt(octet), 0n);
}

const readAlgorithm = (value) => value.as(TAGS.sequence).children[0].as(TAGS.oid).oid;

function readImprint(value) {
  const [algorithm, hash] = value.as(TAGS.sequence).children;
  return { algorithm: readAlgorithm(algorithm), hash: hash.as(TAGS.octets).contents };
}

// Microseconds; a part that isn't written is zero, and an accuracy that isn't there is null.
function readAccuracy(value) {
  const units = { 0x02: 1_000_000n, 0x80: 1000n, 0x81: 1n };
  return value.children.reduce((sum, part) => {
    if (!units[part.tag]) throw new Malformed("an accuracy");
    return sum + units[part.tag] * part.integer;
  }, 0n);
}

export function readInfo(octets) {
  const [version, policy, imprint, serial, time, ...others] = only(octets).as(TAGS.sequence).children;
  const optional = (tag) => others.find((value) => value.tag === tag);
  if (version.as(TAGS.integer).integer !== 1n) throw new Malformed("a version");
  const authority = optional(0xa0);
  const accuracy = optional(TAGS.sequence);
  return {
    policy: policy.as(TAGS.oid).oid,
    imprint: readImprint(imprint),
    serial: serial.as(TAGS.integer).integer,
    time: time.as(TAGS.time).moment,
    timeText: time.text,
    accuracy: accuracy ? readAccuracy(accuracy) : null,
    isOrdered: optional(TAGS.boolean) !== undefined,
    nonce: optional(TAGS.integer)?.integer ?? null,
    // a directoryName, which is all that the counter writes here
    authority: authority?.children[0]?.tag === 0xa4 ? readName(authority.children[0].children[0]) : null,
  };
}

const NAMES = {
  "2.5.4.3": "CN",
  "2.5.4.6": "C",
  "2.5.4.7": "L",
  "2.5.4.8": "ST",
  "2.5.4.10": "O",
  "2.5.4.11": "OU",
  "2.5.4.5": "serialNumber",
  "2.5.4.97": "organizationIdentifier",
  "1.2.840.113549.1.9.1": "emailAddress",
};

// A distinguished name as people write it.
export function readName(value) {
  const pairs = value.as(TAGS.sequence).children.flatMap((set) => set.as(TAGS.set).children);
  const parts = pairs.map((pair) => {
    const [kind, text] = pair.as(TAGS.sequence).children;
    return `${NAMES[kind.oid] ?? kind.oid} = ${text.text}`;
  });
  return parts.join(", ");
}

export function readCertificate(octets) {
  const [body, algorithm, signature] = only(octets).as(TAGS.sequence).children;
  const parts = body.as(TAGS.sequence).children;
  // the version is written unless it is 1
  const [serial, , issuer, validity, subject, key, ...others] = parts[0].tag === 0xa0 ? parts.slice(1) : parts;
  const [from, to] = validity.as(TAGS.sequence).children;
  return {
    octets,
    serial: serial.as(TAGS.integer).integer,
    issuer: issuer.as(TAGS.sequence).whole,
    issuerName: readName(issuer),
    subject: subject.as(TAGS.sequence).whole,
    subjectName: readName(subject),
    from: from.moment,
    to: to.moment,
    key: key.as(TAGS.sequence).whole,
    extensions: readExtensions(others.find((value) => value.tag === 0xa3)),
    signed: body.whole,
    signatureAlgorithm: readAlgorithm(algorithm),
    signature: signature.as(TAGS.bits).bits,
  };
}

// By object identifier: the value's octets, and whether one has to know it (RFC 5280 4.1).
function readExtensions(value) {
  const all = value ? value.children[0].as(TAGS.sequence).children : [];
  return Object.fromEntries(
    all.map((one) => {
      const [kind, ...others] = one.as(TAGS.sequence).children;
      return [kind.oid, { isCritical: others[0].tag === TAGS.boolean, contents: others.at(-1).contents }];
    }),
  );
}

function readSigner(value) {
  const [version, identifier, digestAlgorithm, ...others] = value.as(TAGS.sequence).children;
  version.as(TAGS.integer);
  const attributes = others[0].tag === 0xa0 ? others.shift() : null;
  if (!attributes) throw new Malformed("no signed attributes");
  const [signatureAlgorithm, signature] = others;
  const byKind = Object.fromEntries(
    attributes.children.map((attribute) => {
      const [kind, values] = attribute.as(TAGS.sequence).children;
      return [kind.as(TAGS.oid).oid, values.as(TAGS.set).children];
    }),
  );
  // or else by its key, under [0]
  const isNamed = identifier.tag !== 0x80;
  if (isNamed) identifier.as(TAGS.sequence);
  return {
    issuer: isNamed ? identifier.children[0].whole : null,
    serial: isNamed ? identifier.children[1].as(TAGS.integer).integer : null,
    issuerName: isNamed ? readName(identifier.children[0]) : null,
    digestAlgorithm: readAlgorithm(digestAlgorithm),
    // what is signed is the SET OF itself, under its own tag (RFC 5652 5.4)
    signed: written(TAGS.set, attributes.contents),
    attributes: byKind,
    signatureAlgorithm: readAlgorithm(signatureAlgorithm),
    signature: signature.as(TAGS.octets).contents,
  };
}

// A token, with its TSTInfo, its certificates and who signed it.
export function readToken(octets) {
  const [kind, wrapped] = only(octets).as(TAGS.sequence).children;
  if (kind.as(TAGS.oid).oid !== SIGNED_DATA) throw new Malformed("no signed data");
  const [version, algorithms, content, ...others] = only(wrapped.as(0xa0).contents).as(TAGS.sequence).children;
  version.as(TAGS.integer);
  const digests = algorithms.as(TAGS.set).children.map(readAlgorithm);
  const [contentKind, contentOctets] = content.as(TAGS.sequence).children;
  if (contentKind.as(TAGS.oid).oid !== TST_INFO) throw new Malformed("no TSTInfo");
  const tst = contentOctets.as(0xa0).children[0].as(TAGS.octets).contents;
  const certificates = others.find((value) => value.tag === 0xa0)?.children ?? [];
  const signers = others.find((value) => value.tag === TAGS.set)?.children ?? [];
  if (signers.length !== 1) throw new Malformed("not one signature");
  const signer = readSigner(signers[0]);
  if (!digests.includes(signer.digestAlgorithm)) throw new Malformed("a digest that isn't stated");
  return {
    octets,
    tst,
    info: readInfo(tst),
    certificates: certificates.filter((one) => one.tag === TAGS.sequence).map((one) => readCertificate(one.whole)),
    signer,
  };
}

// A TimeStampResp: the token, or which rule refused the request, as the counter tells it (`rule 06`).
export function readResponse(octets) {
  const [status, token] = only(octets).as(TAGS.sequence).children;
  const [number, ...others] = status.as(TAGS.sequence).children;
  const text = others.find((value) => value.tag === TAGS.sequence)?.children.map((line) => line.text).join(" ") ?? "";
  const isGranted = number.as(TAGS.integer).integer <= 1n;
  if (isGranted && !token) throw new Malformed("granted without a token");
  const rule = /^rule (\d\d)$/.exec(text)?.[1] ?? null;
  return { isGranted, text, rule, token: isGranted ? readToken(token.whole) : null };
}

// The token of a file: of a reply, or of a token by itself, which may be in PEM or in base 64.
export function readFile(octets) {
  const der = octets[0] === TAGS.sequence ? octets : (readPem(octets)[0] ?? octets);
  const [first] = only(der).as(TAGS.sequence).children;
  const found = { octets: der, isReply: first.tag !== TAGS.oid, isWrapped: der !== octets };
  if (found.isReply) return { ...readResponse(der), ...found };
  return { isGranted: true, text: "", rule: null, token: readToken(der), ...found };
}

// What of a token differs from what was asked: names of the parts.
export function differences({ info, certificates }, asked) {
  const parts = {
    imprint: info.imprint.algorithm === asked.algorithm && equal(info.imprint.hash, asked.hash),
    nonce: info.nonce === asked.nonce,
    policy: !asked.policy || info.policy === asked.policy,
    certificate: !asked.isCertificateAsked || certificates.length > 0,
  };
  return Object.keys(parts).filter((name) => !parts[name]);
}
