// What a token says, as a card: findings, its parts, files to keep, and how OpenSSL verifies it.
import { CHAIN, ROOTS, SIGNERS, certificates } from "./counter.js";
import { hexadecimal } from "./der.js";
import { download, line, make, quoted, told } from "./elements.js";
import { ALGORITHMS } from "./hash.js";
import { judged, rootOf } from "./signatures.js";
import { local, size, span, utc } from "./texts.js";

const NAMES = { "1.3.14.3.2.26": "SHA-1" };
const REPLY = "application/timestamp-reply";
const QUERY = "application/timestamp-query";

export const algorithmName = (algorithm) => ALGORITHMS[algorithm]?.name ?? NAMES[algorithm] ?? algorithm;

// A text with the sign of its kind, so that the colour alone tells nothing.
export const marked = (tag, name, kind, key, values) => {
  const mark = make("span", { "aria-hidden": "true" }, { good: "✓ ", bad: "✗ ", warn: "! " }[kind]);
  return make(tag, { class: `${name} ${kind}` }, mark, told("span", key, values));
};

// The verdict on a token, which gives the headline its colour and sign. It is good only by a certificate that this page
// was set up with: anybody can make another one of the same name.
export function verdict(isFit, { state, isKnown }) {
  if (!isFit || state === "wrong") return "bad";
  return state === "right" && isKnown ? "good" : "warn";
}

// What this page finds of who signed a token. An error means that it can't be read.
export async function judgementOf(token) {
  const [known, chain, roots] = await Promise.all([SIGNERS, CHAIN, ROOTS].map(certificates));
  const found = await judged(token, known);
  const others = [...chain, ...token.certificates];
  const isRight = found.state === "right" && roots.length > 0;
  const root = isRight ? await rootOf(found.certificate, roots, others, token.info.time).catch(() => null) : null;
  return { ...found, root, hasRoots: isRight, hasChain: chain.length > 0 };
}

// What is found of a signature, in words, and in the last line what isn't.
function findingsOf(judgement) {
  const { root, hasRoots } = judgement;
  const led = root ? [["good", "chain.led", { name: root.subjectName }]] : [];
  const unchecked = root ? "unchecked" : hasRoots ? "unchecked.unled" : "unchecked.chain";
  return { findings: [signatureFinding(judgement), ...led], unchecked };
}

export function signatureFinding({ state, why, certificate, isKnown, isNamesake }) {
  const values = { name: certificate?.subjectName ?? "" };
  if (state === "right" && isKnown) return ["good", "signature.known", values];
  if (state === "right") return ["warn", isNamesake ? "signature.namesake" : "signature.other", values];
  return [state === "wrong" ? "bad" : "warn", `signature.${state}.${why}`, values];
}

const fingerprint = (octets) => make("code", {}, hexadecimal(octets));

function certificateParts(token, certificate) {
  if (!certificate) return [["part.certificate", `${token.signer.issuerName ?? ""}, ${token.signer.serial ?? ""}`]];
  return [
    ["part.certificate", certificate.subjectName],
    ["part.issuer", certificate.issuerName],
    ["part.validity", `${utc(certificate.from)} – ${utc(certificate.to)}`],
  ];
}

// The parts of a token, and of the file that it is for, if there is one.
export function parts({ token, file, certificate }) {
  const { info } = token;
  const isStated = info.accuracy !== null;
  const accuracy = told("span", isStated ? "part.span" : "part.accuracy.none", { span: span(info.accuracy ?? 0n) });
  const rows = [
    ["part.time", utc(info.time)],
    ["part.local", told("span", "part.value", { value: local(info.time) })],
    ["part.accuracy", accuracy],
    ["part.serial", `${info.serial} (0x${info.serial.toString(16).toUpperCase().padStart(2, "0")})`],
    ["part.policy", info.policy],
    ["part.hash", make("span", {}, `${algorithmName(info.imprint.algorithm)} `, fingerprint(info.imprint.hash))],
    ...(info.authority ? [["part.authority", info.authority]] : []),
    ...certificateParts(token, certificate),
  ];
  if (file) rows.unshift(["part.file", told("span", "part.size", { name: file.name, size: size(file.size) })]);
  return make("dl", {}, ...rows.flatMap(([key, value]) => [told("dt", key), make("dd", {}, value)]));
}

// How OpenSSL verifies a reply for a file, and for its request if there is one; a token by itself is told so.
function verification({ token, names, isReply, judgement }) {
  const others = [...(token.certificates.length ? [] : [SIGNERS]), ...(judgement.hasChain ? [CHAIN] : [])];
  const untrusted = others.length ? ` -untrusted ${others}` : "";
  const how = `${isReply ? "" : "-token_in "}-in ${quoted(names.reply)} -CAfile ${ROOTS}${untrusted}`;
  const lines = [line(`openssl ts -verify -data ${quoted(names.file)} ${how}`)];
  if (names.request) lines.push(line(`openssl ts -verify -queryfile ${quoted(names.request)} ${how}`));
  const values = { files: [ROOTS, ...others].join(", ") };
  return make("div", {}, told("p", "verify.note", values, { class: "note" }), ...lines);
}

// A whole card: what stands in its line, links that save, and the rest. `findings` are triples of kind, text and
// values; `names` are those of the files for OpenSSL's lines.
export function cardParts({ heading, kind, findings = [], judgement, token, file, files, names, isReply = true }) {
  const saved = [];
  if (files?.reply) saved.push(download("download", files.reply, names.reply, REPLY));
  if (files?.request) saved.push(download("download", files.request, names.request, QUERY));
  const { findings: ofSigner, unchecked } = findingsOf(judgement);
  const all = [...findings, ...ofSigner].map((one) => marked("li", "", ...one));
  return {
    heading: marked("p", "outcome", kind, heading.key, heading.values),
    saved,
    rest: [
      make("ul", { class: "findings" }, ...all),
      told("p", unchecked, {}, { class: "note" }),
      parts({ token, file, certificate: judgement.certificate }),
      ...(names?.file ? [told("h4", "verify.title"), verification({ token, names, isReply, judgement })] : []),
    ],
  };
}

export function card(found) {
  const { heading, saved, rest } = cardParts(found);
  return [heading, ...(saved.length ? [make("p", { class: "row" }, ...saved)] : []), ...rest];
}
