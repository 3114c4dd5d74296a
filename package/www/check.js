// Files and their tokens: whether they belong together, and what the tokens say.
import { algorithmName, card, judgementOf, marked, signatureFinding, verdict } from "./card.js";
import { Cancelled, Refusal } from "./counter.js";
import { equal } from "./der.js";
import { announce, byId, droppable, fileName, make, pathOf, put, told } from "./elements.js";
import { ALGORITHMS } from "./hash.js";
import { hashShown } from "./progress.js";
import { text } from "./texts.js";
import { readFile } from "./tokens.js";

// no token of a time-stamping authority is longer
const LARGEST_TOKEN = 1024 * 1024;

const chosen = { file: null, token: null };
let round = 0;

// Findings and heading for a token and the hash of a file; for a token alone, if there is no hash.
export async function findings(token, hash) {
  const { algorithm, hash: stamped } = token.info.imprint;
  const judgement = await judgementOf(token);
  if (!hash) {
    const kind = judgement.state === "wrong" ? "bad" : "warn";
    return { heading: { key: kind === "bad" ? "check.bad" : "check.alone" }, kind, judgement, token };
  }
  const isFit = equal(stamped, hash);
  const belongs = isFit ? ["good", "check.fits"] : ["bad", "check.unfit", { algorithm: algorithmName(algorithm) }];
  const kind = verdict(isFit, judgement);
  const heading = { key: isFit ? `check.${kind}` : "check.unfit.heading" };
  return { heading, kind, findings: [belongs], judgement, token };
}

// A file, and what its octets say as a token, if they are one.
async function look(file) {
  if (file.size > LARGEST_TOKEN) return { file };
  try {
    return { file, response: readFile(new Uint8Array(await file.arrayBuffer())) };
  } catch (error) {
    // a file that can't be read is told as such
    return { file, isUnreadable: error instanceof DOMException };
  }
}

// The card of a token and its file, or of a token alone.
async function checked({ file, token: { file: tokenFile, response, isUnreadable } }, place) {
  if (isUnreadable) throw new Refusal("file.unreadable");
  if (!response) throw new Refusal("check.malformed", { name: tokenFile.name });
  // in the same words as where it is asked for
  const refusal = response.rule ? () => text(`rule.${response.rule}`) : response.text;
  if (!response.isGranted) throw new Refusal("check.rejection", { text: refusal });
  const { token, isReply, isWrapped, octets } = response;
  const { algorithm } = token.info.imprint;
  if (file && !ALGORITHMS[algorithm]) throw new Refusal("check.algorithm", { algorithm: algorithmName(algorithm) });
  const hash = file ? await hashShown(file, algorithm, place) : null;
  const found = await findings(token, hash).catch(() => {
    throw new Refusal("check.malformed", { name: tokenFile.name });
  });
  // OpenSSL reads no base 64
  const reply = isWrapped ? `${fileName(tokenFile.name)}.${isReply ? "tsr" : "tst"}` : tokenFile.name;
  return { ...found, file, names: { file: file?.name, reply }, isReply, files: isWrapped ? { reply: octets } : {} };
}

const failure = (error) => {
  if (error instanceof Cancelled) return ["warn", "check.cancelled"];
  if (error instanceof Refusal) return ["bad", error.text, error.values];
  console.error(error);
  return ["bad", "fault"];
};

// Checks one, and shows and tells what came of it, unless others were chosen meanwhile.
async function check(pair, place, isCurrent) {
  const notes = pair.isSwapped ? [["warn", "check.swapped", { token: pair.token.file.name }]] : [];
  let parts;
  let said;
  try {
    const found = await checked(pair, place);
    parts = card(found);
    said = [[found.kind, found.heading.key, found.heading.values], ...reasons(found)];
  } catch (error) {
    said = [failure(error)];
    parts = [marked("p", "outcome", ...said[0])];
  }
  if (!isCurrent()) return;
  put(place, ...notes.map((one) => marked("p", "outcome", ...one)), ...parts);
  const name = (pair.file ?? pair.token.file).name;
  const what = () => [...notes, ...said].map(([, key, values]) => text(key, values)).join(" ");
  announce("check.announced", { name, what });
}

// Why a token isn't good for its file.
const reasons = ({ findings: ofFile = [], judgement }) =>
  [...ofFile, signatureFinding(judgement)].filter(([kind]) => kind === "bad");

// Checks all in turn; of files without a token it is said that they have none here.
async function checkAll(pairs, lonely = []) {
  round += 1;
  const mine = round;
  const articles = pairs.map((pair) => {
    const values = { file: pair.file ? pathOf(pair.file) : "", token: pathOf(pair.token.file) };
    const place = make("div");
    const heading = told("h3", pair.file ? "check.both" : "check.one", values);
    return { pair, place, shown: make("article", {}, heading, place) };
  });
  const others = lonely.map((file) =>
    make("article", {}, make("h3", {}, pathOf(file)), marked("p", "outcome", "warn", "check.lonely")),
  );
  put(byId("check-results"), ...articles.map(({ shown }) => shown), ...others);
  for (const { pair, place } of articles) if (mine === round) await check(pair, place, () => mine === round);
  if (lonely.length) announce("check.lonely.announced", { names: lonely.map((file) => file.name).join(", ") });
}

function setField(kind, file) {
  const transfer = new DataTransfer();
  if (file) transfer.items.add(file);
  chosen[kind] = file;
  byId(`check-${kind}`).files = transfer.files;
}

// What stands in the two fields, in the right order; a token alone is shown.
async function checkChosen() {
  const { file, token } = chosen;
  if (!token) return undefined;
  const [one, other] = await Promise.all([file ? look(file) : null, look(token)]);
  if (file !== chosen.file || token !== chosen.token) return undefined;
  const isSwapped = Boolean(one?.response && !other.response);
  if (isSwapped) {
    setField("file", token);
    setField("token", file);
  }
  return checkAll([isSwapped ? { file: token, token: one, isSwapped } : { file, token: other }]);
}

// A path without one ending, without two, and so on.
function stems(path) {
  const found = [];
  for (let at = path.lastIndexOf("."); at > path.lastIndexOf("/") + 1; at = path.lastIndexOf(".", at - 1)) {
    found.push(path.slice(0, at));
  }
  return found;
}

// The file that a token is for by its name: `plan.pdf`, or else `plan` with any ending, for plan.pdf.tsr and plan.tsr.
function partner(token, files) {
  for (const stem of stems(pathOf(token.file))) {
    const exact = files.filter((file) => pathOf(file) === stem);
    const found = exact.length ? exact : files.filter((file) => stems(pathOf(file)).includes(stem));
    if (found.length === 1) return found[0];
  }
  return null;
}

// Of what is dropped, whatever reads as a token is one. Several are paired by their names.
async function sort(dropped) {
  const looked = [];
  for (const file of dropped) looked.push(await look(file));
  const tokens = looked.filter((one) => one.response);
  const files = looked.filter((one) => !one.response).map((one) => one.file);
  if (tokens.length <= 1 && files.length <= 1) {
    if (files.length) setField("file", files[0]);
    if (tokens.length) setField("token", tokens[0].file);
    return checkChosen();
  }
  setField("file", null);
  setField("token", null);
  const pairs = tokens.map((token) => ({ file: partner(token, files), token }));
  return checkAll(pairs, files.filter((file) => !pairs.some((pair) => pair.file === file)));
}

export function begin() {
  for (const kind of ["file", "token"]) {
    const input = byId(`check-${kind}`);
    // so that a file of the same name counts as another
    input.addEventListener("click", () => {
      input.value = "";
      chosen[kind] = null;
    });
    input.addEventListener("change", () => {
      [chosen[kind] = null] = input.files;
      checkChosen();
    });
  }
  droppable(byId("check"), sort);
}
