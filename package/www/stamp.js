// Files are hashed, one after the other, and a token is asked for each.
import { cardParts, judgementOf, marked, signatureFinding, verdict } from "./card.js";
import { Cancelled, Refusal, stamp } from "./counter.js";
import { announce, button, byId, droppable, fileName, make, pathOf, put, told } from "./elements.js";
import { chosenOptions, optionsBegin } from "./options.js";
import { cancelOf, hashShown } from "./progress.js";
import { number, show, text, utc } from "./texts.js";
import { differences, newNonce, readResponse, writeRequest } from "./tokens.js";
import { archive } from "./zip.js";

// an archive has room for 65,535
const MOST_TOKENS = 30_000;

// all that were chosen, the oldest first
const all = [];
let last = Promise.resolve();

// What came of a request: the parts of a card. A reply that isn't the request's is never offered as a token.
async function answered(file, asked, request, octets) {
  let response;
  let judgement;
  try {
    response = readResponse(octets);
    judgement = response.isGranted ? await judgementOf(response.token) : null;
  } catch {
    throw new Refusal("reply.malformed");
  }
  if (!response.isGranted) {
    throw response.rule ? new Refusal(`rule.${response.rule}`) : new Refusal("reply.rejected", { text: response.text });
  }
  const { token } = response;
  const [unfit] = differences(token, asked);
  if (unfit) throw new Refusal(`reply.unfit.${unfit}`);
  const [isSigned, key, values] = signatureFinding(judgement);
  if (isSigned === "bad") throw new Refusal(key, values);
  const base = fileName(file.name);
  const kind = verdict(true, judgement);
  return {
    heading: { key: `stamp.given.${kind}`, values: { time: utc(token.info.time) } },
    kind,
    findings: [["good", asked.policy ? "stamp.fits.policy" : "stamp.fits"]],
    token,
    judgement,
    file,
    files: { reply: octets, request },
    names: { file: file.name, reply: `${base}.tsr`, request: `${base}.tsq` },
  };
}

function failure(error) {
  if (error instanceof Cancelled) return ["warn", "stamp.cancelled"];
  if (error instanceof Refusal) return ["bad", error.text, error.values];
  console.error(error);
  return ["bad", "fault"];
}

// Asks for a token, and says why it waits, where the server has it wait.
function askedFor(request, place) {
  const ended = new AbortController();
  const note = told("p", "stamp.asking", {}, { class: "note" });
  put(place, note);
  const waiting = (seconds) => {
    show(note, "stamp.often", { seconds: number(seconds) });
    if (!note.nextSibling) note.after(cancelOf(ended));
  };
  return stamp(request, { waiting, signal: ended.signal });
}

async function stampOne(one, options) {
  const { file, place } = one;
  one.state = "waiting";
  try {
    const hash = await hashShown(file, options.algorithm, place);
    const asked = { ...options, hash, nonce: newNonce() };
    const request = writeRequest(asked);
    const found = await answered(file, asked, request, await askedFor(request, place));
    showToken(one, found);
  } catch (error) {
    const [kind, key, values] = failure(error);
    one.state = "failed";
    put(place, marked("p", "outcome", kind, key, values), button("again", () => stampOne(one, chosenOptions())));
    announce("stamp.announced", { name: file.name, what: () => text(key, values) });
  }
  showCount();
}

function showToken(one, found) {
  const { heading, saved, rest } = cardParts(found);
  Object.assign(one, { state: "unsaved", files: found.files });
  const [reply, request] = saved;
  reply.addEventListener("click", () => {
    one.state = "saved";
  });
  const parts = [told("summary", "stamp.more"), ...rest, make("p", {}, request)];
  const more = make("details", { open: all.length === 1 }, ...parts);
  put(one.place, heading, reply, more);
  const { key, values } = found.heading;
  announce("stamp.announced", { name: one.file.name, what: () => text(key, values) });
}

// How many have their token; where there are several, one archive saves all.
function showCount() {
  const count = all.filter((one) => one.files).length;
  show(byId("stamp-count"), "stamp.count", { count: number(count), all: number(all.length) });
  byId("stamp-all").hidden = all.length < 2;
  byId("stamp-save").disabled = count === 0;
}

// The paths of a file's reply and request, which no other has yet.
function freeNames(file, taken) {
  const path = pathOf(file).split("/").map(fileName).join("/");
  for (let copy = 1; ; copy += 1) {
    const name = copy === 1 ? path : `${path} (${copy})`;
    if (!taken.has(name)) {
      taken.add(name);
      return [`${name}.tsr`, `${name}.tsq`];
    }
  }
}

function saveAll() {
  const ready = all.filter((one) => one.files);
  const taken = new Set();
  for (let at = 0; at < ready.length; at += MOST_TOKENS) {
    const files = ready.slice(at, at + MOST_TOKENS).flatMap(({ file, files: { reply, request } }) => {
      const [replyName, requestName] = freeNames(file, taken);
      return [[replyName, reply], [requestName, request]];
    });
    const href = URL.createObjectURL(new Blob(archive(files), { type: "application/zip" }));
    make("a", { href, download: "tokens.zip" }).click();
    setTimeout(() => URL.revokeObjectURL(href), 60_000);
  }
  for (const one of ready) one.state = "saved";
}

function stampAll(files) {
  const options = chosenOptions();
  for (const file of files) {
    const place = make("div", {}, told("p", "stamp.waiting", {}, { class: "note" }));
    const path = pathOf(file);
    const named = { "aria-label": path, class: "line-of-file" };
    byId("stamp-results").append(make("article", named, make("h3", {}, path), place));
    const one = { file, place, state: "waiting" };
    all.push(one);
    last = last.then(() => stampOne(one, options));
  }
  showCount();
}

// A token that isn't saved is lost with the page.
function ask(event) {
  if (all.some(({ state }) => state === "unsaved" || state === "waiting")) event.preventDefault();
}

export function begin() {
  const input = byId("stamp-files");
  input.addEventListener("change", () => {
    stampAll(Array.from(input.files));
    // so that the same file can be chosen again
    input.value = "";
  });
  droppable(byId("stamp"), stampAll);
  byId("stamp-save").addEventListener("click", saveAll);
  window.addEventListener("beforeunload", ask);
  optionsBegin();
}
