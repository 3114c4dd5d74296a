// Whether a token's signature is right, by the browser's own cryptography, for the kinds that a key holder makes; and
// whether a chain leads from its certificate to a root. Nothing here looks whether a certificate was revoked.
import { TAGS, Value, equal, joined, only } from "./der.js";

const CONTENT_TYPE = "1.2.840.113549.1.9.3";
const MESSAGE_DIGEST = "1.2.840.113549.1.9.4";
const SIGNING_CERTIFICATE = "1.2.840.113549.1.9.16.2.12";
const SIGNING_CERTIFICATE_2 = "1.2.840.113549.1.9.16.2.47";
const BASIC_CONSTRAINTS = "2.5.29.19";
const KEY_USAGE = "2.5.29.15";
const EXTENDED_KEY_USAGE = "2.5.29.37";
const READ = new Set([BASIC_CONSTRAINTS, KEY_USAGE]);
const TIME_STAMPING = "1.3.6.1.5.5.7.3.8";
const TST_INFO = "1.2.840.113549.1.9.16.1.4";
const DIGESTS = {
  "2.16.840.1.101.3.4.2.1": "SHA-256",
  "2.16.840.1.101.3.4.2.2": "SHA-384",
  "2.16.840.1.101.3.4.2.3": "SHA-512",
};
// rsaEncryption leaves the digest to the member beside it (RFC 3370 3.2)
const SIGNATURES = {
  "1.2.840.113549.1.1.1": { name: "RSASSA-PKCS1-v1_5" },
  "1.2.840.113549.1.1.11": { name: "RSASSA-PKCS1-v1_5", hash: "SHA-256" },
  "1.2.840.113549.1.1.12": { name: "RSASSA-PKCS1-v1_5", hash: "SHA-384" },
  "1.2.840.113549.1.1.13": { name: "RSASSA-PKCS1-v1_5", hash: "SHA-512" },
  "1.2.840.10045.4.3.2": { name: "ECDSA", hash: "SHA-256" },
  "1.2.840.10045.4.3.3": { name: "ECDSA", hash: "SHA-384" },
  "1.2.840.10045.4.3.4": { name: "ECDSA", hash: "SHA-512" },
};
const CURVES = {
  "1.2.840.10045.3.1.7": { namedCurve: "P-256", length: 32 },
  "1.3.132.0.34": { namedCurve: "P-384", length: 48 },
  "1.3.132.0.35": { namedCurve: "P-521", length: 66 },
};

const digest = async (name, octets) => new Uint8Array(await crypto.subtle.digest(name, octets));

// The certificate's hash that the signature covers (RFC 5035, RFC 5816): its algorithm, which is SHA-256 unless
// written, and SHA-1 in the older attribute.
function namedCertificate(attributes) {
  const [value] = attributes[SIGNING_CERTIFICATE_2] ?? attributes[SIGNING_CERTIFICATE] ?? [];
  if (!value) return null;
  const parts = value.children[0].children[0].children;
  const algorithm = parts[0].tag === TAGS.sequence ? DIGESTS[parts[0].children[0].oid] : undefined;
  const hash = parts.find((part) => part.tag === TAGS.octets).contents;
  return { algorithm: algorithm ?? (attributes[SIGNING_CERTIFICATE_2] ? "SHA-256" : "SHA-1"), hash };
}

// The certificate that signed, among these; undefined if it isn't one of them.
export async function signerOf(token, certificates) {
  const named = namedCertificate(token.signer.attributes);
  for (const one of certificates) {
    if (named && equal(await digest(named.algorithm, one.octets), named.hash)) return one;
  }
  return undefined;
}

// WebCrypto has the two numbers of an ECDSA signature side by side, CMS as a SEQUENCE (RFC 5753 2.1.1).
function rawSignature(octets, length) {
  const numbers = only(octets).as(TAGS.sequence).children.map((value) => {
    const digits = value.as(TAGS.integer).contents;
    const first = digits.findIndex((digit) => digit !== 0);
    const shortest = first < 0 ? digits.subarray(0, 0) : digits.subarray(first);
    return joined(new Uint8Array(Math.max(0, length - shortest.length)), shortest);
  });
  return joined(...numbers);
}

// Whether what is signed, attributes or another certificate, is so by this one's key; undefined for other algorithms.
async function isSignedBy(signer, certificate) {
  const kind = SIGNATURES[signer.signatureAlgorithm];
  const hash = kind?.hash ?? DIGESTS[signer.digestAlgorithm];
  if (!kind || !hash) return undefined;
  if (kind.name === "ECDSA") {
    const curve = CURVES[new Value(certificate.key).children[0].children[1]?.oid];
    if (!curve) return undefined;
    const how = { name: "ECDSA", namedCurve: curve.namedCurve };
    const key = await crypto.subtle.importKey("spki", certificate.key, how, false, ["verify"]);
    const raw = rawSignature(signer.signature, curve.length);
    return crypto.subtle.verify({ name: "ECDSA", hash }, key, raw, signer.signed);
  }
  const key = await crypto.subtle.importKey("spki", certificate.key, { name: kind.name, hash }, false, ["verify"]);
  return crypto.subtle.verify(kind.name, key, signer.signature, signer.signed);
}

// What can be said of a token's signature, with the certificates that this page was set up with:
// `right` and by whom, and whether the page knows that certificate; `wrong`; or `unknown`, if nothing could be checked.
// A token whose attributes are malformed is refused by an error.
export async function judged(token, known) {
  const { signer, info } = token;
  const certificate = await signerOf(token, [...known, ...token.certificates]);
  if (!certificate) return { state: "unknown", why: "certificate" };
  const isKnown = isAmong(certificate, known);
  const isNamesake = !isKnown && known.some((one) => equal(one.subject, certificate.subject));
  const found = { certificate, isKnown, isNamesake };
  const algorithm = DIGESTS[signer.digestAlgorithm];
  if (!algorithm) return { ...found, state: "unknown", why: "algorithm" };
  const [kind] = signer.attributes[CONTENT_TYPE] ?? [];
  const [hash] = signer.attributes[MESSAGE_DIGEST] ?? [];
  const isOfContents = kind?.oid === TST_INFO && hash && equal(hash.contents, await digest(algorithm, token.tst));
  if (!isOfContents) return { ...found, state: "wrong", why: "contents" };
  if (signer.issuer && (signer.serial !== certificate.serial || !equal(signer.issuer, certificate.issuer))) {
    return { ...found, state: "wrong", why: "certificate" };
  }
  const isSigned = await isSignedBy(signer, certificate).catch(() => false);
  if (isSigned === undefined) return { ...found, state: "unknown", why: "algorithm" };
  if (!isSigned) return { ...found, state: "wrong", why: "signature" };
  if (!isValid(certificate, info.time)) return { ...found, state: "wrong", why: "validity" };
  return { ...found, state: "right" };
}

const isValid = (certificate, time) => certificate.from <= time && time <= certificate.to + 999_999n;

const isAmong = (certificate, others) => others.some((one) => equal(one.octets, certificate.octets));

// Whether a certificate may certify, with so many others between it and the end (RFC 5280 4.2.1.3, 4.2.1.9, 6.1.4).
function isAuthority({ extensions }, between) {
  const [constraints, usage] = [extensions[BASIC_CONSTRAINTS], extensions[KEY_USAGE]];
  const isKnown = Object.keys(extensions).every((kind) => READ.has(kind) || !extensions[kind].isCritical);
  const [is, most] = constraints ? only(constraints.contents).as(TAGS.sequence).children : [];
  // the sixth bit is keyCertSign
  const certifies = !usage || (only(usage.contents).as(TAGS.bits).contents[1] & 0x04) !== 0;
  return isKnown && certifies && is?.tag === TAGS.boolean && (!most || BigInt(between) <= most.integer);
}

async function certifies(issuer, certificate, time, between, isRoot) {
  if (!equal(issuer.subject, certificate.issuer) || !isValid(issuer, time)) return false;
  if (!isRoot && !isAuthority(issuer, between)) return false;
  return (await isSignedBy(certificate, issuer).catch(() => false)) === true;
}

// Whether its key may sign time-stamps alone (RFC 3161 2.3).
function isForStamps({ extensions }) {
  const usage = extensions[EXTENDED_KEY_USAGE];
  const purposes = usage ? only(usage.contents).as(TAGS.sequence).children.map((one) => one.oid) : [];
  return Boolean(usage?.isCritical) && purposes.join() === TIME_STAMPING;
}

// The root to which a chain leads from a certificate at a moment, of those that the page was set up with; null if none
// does. Each of the others is tried once: whether it leads there doesn't depend on how it is reached.
export async function rootOf(certificate, roots, others, time) {
  if (!isForStamps(certificate)) return null;
  const left = new Set(others);
  async function from(one, between) {
    if (isAmong(one, roots)) return one;
    for (const root of roots) if (await certifies(root, one, time, between, true)) return root;
    for (const other of left) {
      if (await certifies(other, one, time, between, false)) {
        left.delete(other);
        const found = await from(other, between + 1);
        if (found) return found;
      }
    }
    return null;
  }
  return from(certificate, 0);
}
