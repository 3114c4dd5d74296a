// Deposits: made, listed, opened, and shown to others.
import { findings } from "./check.js";
import { card } from "./card.js";
import { Refusal, deposit, deposits, document as documentOf, reply as replyOf, right } from "./counter.js";
import { announce, busy, button, byId, clear, download, droppable, fileName, make } from "./elements.js";
import { noOutcome, outcome } from "./elements.js";
import { ALGORITHMS, hashed } from "./hash.js";
import { number } from "./texts.js";
import { readResponse } from "./tokens.js";

const LARGEST = 1_048_576;
const SHOWN_AT_ONCE = 100;

let listed = [];
let shown = SHOWN_AT_ONCE;
let opened = null;

// Does something, and tells a refusal in its place.
async function told(place, action) {
  try {
    await action();
  } catch (error) {
    if (!(error instanceof Refusal)) throw error;
    outcome(place, "bad", error.text, error.values);
  }
}

// A GeneralizedTime as people read it.
function timeOf(text) {
  const [, year, month, day, hour, minute, second, fraction] =
    /^(\d{4})(\d{2})(\d{2})(\d{2})(\d{2})(\d{2})(\.\d+)?Z$/.exec(text) ?? [];
  return year ? `${year}-${month}-${day} ${hour}:${minute}:${second}${fraction ?? ""}` : text;
}

function row(one) {
  const open = button("list.open", () => openDeposit(one));
  open.setAttribute("aria-describedby", `reference-${one.number}`);
  return make(
    "tr",
    {},
    make("td", {}, one.number),
    make("td", { id: `reference-${one.number}` }, one.reference),
    make("td", {}, one.owner),
    make("td", {}, timeOf(one.time)),
    make("td", {}, open),
  );
}

function found() {
  const words = byId("list-search").value.trim().toLowerCase().split(/\s+/);
  return listed.filter((one) => {
    const text = `${one.number} ${one.owner} ${one.reference} ${timeOf(one.time)}`.toLowerCase();
    return words.every((word) => text.includes(word));
  });
}

function showList() {
  const rows = found();
  byId("list").tBodies[0].replaceChildren(...rows.slice(0, shown).map(row));
  byId("list-more").hidden = rows.length <= shown;
  const values = { count: number(rows.length), all: number(listed.length) };
  outcome(byId("list-outcome"), "", listed.length === 0 ? "list.none" : "list.count", values);
}

// The newest first.
export async function list() {
  shown = SHOWN_AT_ONCE;
  await told(byId("list-outcome"), async () => {
    listed = (await deposits()).reverse();
    showList();
  });
}

// Another key sees other deposits: nothing of the last one's stays.
export function forget() {
  listed = [];
  byId("list").tBodies[0].replaceChildren();
  byId("deposit").close();
  clear(byId("deposit-results"));
  byId("deposit-form").reset();
  byId("list-search").value = "";
  byId("list-more").hidden = true;
  for (const id of ["deposit-outcome", "list-outcome", "rights-outcome"]) noOutcome(byId(id));
}

// A reference that a file's name suggests.
const suggested = (name) => name.normalize("NFD").replace(/[^A-Za-z0-9._-]+/g, "-").slice(0, 64);

async function makeDeposit() {
  const place = byId("deposit-outcome");
  const [file] = byId("deposit-file").files;
  const reference = byId("deposit-reference").value.trim();
  if (file.size > LARGEST) return outcome(place, "bad", "refusal.TooLarge");
  outcome(place, "", "deposit.asking");
  return told(place, async () => {
    let octets;
    try {
      octets = new Uint8Array(await file.arrayBuffer());
    } catch {
      return outcome(place, "bad", "file.unreadable");
    }
    const { number: made, isNew } = await deposit(reference, octets);
    outcome(place, "good", isNew ? "deposit.made" : "deposit.stood", { number: made, reference });
    return list();
  });
}

// The document and its token are asked for, and compared here.
async function openDeposit(one) {
  opened = one;
  const dialog = byId("deposit");
  const place = byId("deposit-results");
  byId("deposit-title").textContent = `${one.reference} (${one.number})`;
  clear(place);
  noOutcome(byId("rights-outcome"));
  byId("rights-form").reset();
  const wait = make("p", { class: "outcome" });
  outcome(wait, "", "deposit.opening");
  place.append(wait);
  if (!dialog.open) dialog.showModal();
  byId("deposit-title").focus();
  await told(wait, async () => {
    const octets = await documentOf(one.number);
    const parts = await depositCard(one, octets, await replyOf(one.number));
    if (opened === one) place.replaceChildren(...parts);
  });
}

async function depositCard(one, octets, reply) {
  const base = fileName(one.reference);
  const save = make("p", {}, download("download", octets, base, "application/octet-stream"));
  try {
    const { token } = readResponse(reply);
    const { algorithm } = token.info.imprint;
    const judged = await findings(token, ALGORITHMS[algorithm] ? hashed(algorithm, octets) : new Uint8Array());
    const names = { file: base, reply: `${base}.tsr` };
    const file = { name: one.reference, size: octets.length };
    return [save, ...card({ ...judged, file, files: { reply }, names })];
  } catch {
    throw new Refusal("reply.malformed");
  }
}

function changeRight(isGiven) {
  const place = byId("rights-outcome");
  const kind = byId("rights-kind").value;
  const name = byId("rights-name").value.trim();
  return told(place, async () => {
    await right(isGiven ? "PUT" : "DELETE", opened.number, kind, name);
    outcome(place, "good", `rights.${isGiven ? "given" : "taken"}.${kind}`, { name });
  });
}

export function begin() {
  const chosen = byId("deposit-file");
  const reference = byId("deposit-reference");
  chosen.addEventListener("change", () => {
    if (chosen.files.length) reference.value = suggested(chosen.files[0].name);
    noOutcome(byId("deposit-outcome"));
  });
  droppable(byId("deposit-form"), ([file]) => {
    const transfer = new DataTransfer();
    if (file) transfer.items.add(file);
    chosen.files = transfer.files;
    chosen.dispatchEvent(new Event("change"));
  });
  byId("deposit-form").addEventListener("submit", (event) => {
    event.preventDefault();
    busy(event.submitter, makeDeposit);
  });
  byId("rights-form").addEventListener("submit", (event) => {
    event.preventDefault();
    busy(event.submitter, () => changeRight(event.submitter.value === "give"));
  });
  byId("list-search").addEventListener("input", () => {
    shown = SHOWN_AT_ONCE;
    showList();
  });
  byId("list-again").addEventListener("click", (event) => busy(event.target, list));
  byId("list-more").addEventListener("click", () => {
    shown += SHOWN_AT_ONCE;
    showList();
  });
  byId("deposit").addEventListener("close", () => {
    opened = null;
    announce("deposit.closed");
  });
}
