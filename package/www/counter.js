// The counter's routes, as docs/clients.md has them, and its refusals as texts of this page. The key is kept in a
// variable here alone, which ends with the window.
import { readPem } from "./der.js";
import { readCertificate } from "./tokens.js";

const SECONDS = 150;
// of a proxy that limits how many requests come: without a key perhaps one in ten seconds
const TOO_MANY = 429;
const TRIES = 6;
const LONGEST_WAIT = 3600;

let key = "";

// A refusal, or that there was no answer: a text of the page with its values.
export class Refusal extends Error {
  constructor(name, values = {}) {
    super(name);
    this.text = name;
    this.values = values;
  }
}

// Whoever waits has ended it.
export class Cancelled extends Error {}

export const hasKey = () => key !== "";

export function useKey(text) {
  key = text;
}

const WORDS = new Set(
  `BadField BadRange BadReference BadRequest Conflict NoAccount NotAuditor NotHere NotOperator NotOwner SelfGrant
  TooLarge Unavailable UnknownGroup UnknownReader`.split(/\s+/),
);

function refused(status, octets) {
  const [, word] = /^\d{3} (.{1,40})\n$/.exec(new TextDecoder().decode(octets.subarray(0, 60))) ?? [];
  const rule = /^rule (\d\d)$/.exec(word ?? "");
  if (rule) return new Refusal(`rule.${rule[1]}`);
  // a proxy's own, with whatever word: it can't reach the server, or isn't answered in time
  if (status === 502 || status === 504) return new Refusal("refusal.proxy", { status });
  if (WORDS.has(word)) return new Refusal(`refusal.${word}`);
  if (status === 413) return new Refusal("refusal.TooLarge");
  if (status === TOO_MANY) return new Refusal("refusal.often");
  if (status === 503) return new Refusal("refusal.proxy", { status });
  return new Refusal("refusal.other", { status, word: word ?? "" });
}

const pause = (milliseconds) => new Promise((resolve) => setTimeout(resolve, milliseconds));

// Waits as long as the server says, or a little longer each time, and tells how many seconds are left.
async function wait(answer, tries, { waiting, signal }) {
  const told = Number(answer.headers.get("Retry-After"));
  const seconds = told > 0 ? Math.min(told, LONGEST_WAIT) : 0.25 * 2 ** tries;
  const ended = new Promise((_, reject) => {
    const end = () => reject(new Cancelled());
    if (signal?.aborted) end();
    signal?.addEventListener("abort", end);
  });
  for (let left = seconds; left > 0; left -= 1) {
    waiting?.(Math.ceil(left));
    await Promise.race([pause(1000 * Math.min(1, left)), ended]);
  }
}

// Status and octets of an answer. A request that came too soon after others is repeated: by whoever sees the wait, and
// may end it, as often as the server says when.
async function ask(method, target, { headers = {}, body, as = key, ...how } = {}) {
  const shown = as ? { "Counter-Key": as } : {};
  const quiet = { cache: "no-store", credentials: "omit", redirect: "error", referrerPolicy: "no-referrer" };
  for (let tries = 1; ; tries += 1) {
    let answer;
    let octets;
    try {
      const signal = AbortSignal.timeout(SECONDS * 1000);
      answer = await fetch(target, { ...quiet, method, body, headers: { ...headers, ...shown }, signal });
      octets = new Uint8Array(await answer.arrayBuffer());
    } catch (error) {
      throw new Refusal(error.name === "TimeoutError" ? "refusal.silent" : "refusal.connection");
    }
    if (answer.ok) return { status: answer.status, octets };
    const isTold = how.waiting && answer.headers.has("Retry-After");
    if (answer.status !== TOO_MANY || (tries >= TRIES && !isTold)) throw refused(answer.status, octets);
    await wait(answer, tries, how);
  }
}

const lines = (octets) => new TextDecoder().decode(octets).split("\n").filter((one) => one !== "");

export async function stamp(request, how) {
  const headers = { "Content-Type": "application/timestamp-query" };
  return (await ask("POST", "tsp", { headers, body: request, ...how })).octets;
}

// Its number, and whether it is new.
export async function deposit(reference, octets) {
  const headers = { "Deposit-Reference": reference, "Content-Type": "application/octet-stream" };
  const answer = await ask("POST", "deposits", { headers, body: octets });
  return { number: lines(answer.octets)[0], isNew: answer.status === 201 };
}

export async function deposits() {
  const answer = await ask("GET", "deposits");
  return lines(answer.octets).map((one) => {
    const [number, owner, reference, time] = one.split(" ");
    return { number, owner, reference, time };
  });
}

export const document = async (number) => (await ask("GET", `deposits/${number}`)).octets;

export const reply = async (number) => (await ask("GET", `deposits/${number}/token`)).octets;

// Gives or takes the right to read a deposit; the kind is `readers` or `groups`.
export async function right(method, number, kind, name) {
  await ask(method, `deposits/${number}/${kind}/${encodeURIComponent(name)}`);
}

export async function state() {
  const answer = await ask("GET", "status");
  return Object.fromEntries(lines(answer.octets).map((one) => one.split(" ")));
}

export const extract = async (from, to) => (await ask("GET", `audit/${from}/${to}`)).octets;

// What GET /account tells: lines of a word and a value, which is a name and an object identifier for policies, and for
// the algorithms that follow each.
function readAccount(octets) {
  const found = { policies: [] };
  for (const one of lines(octets)) {
    const [word, ...values] = one.split(" ");
    if (word === "policy") found.policies.push({ name: values[0], oid: values.at(-1), algorithms: [] });
    else if (word === "algorithm") found.policies.at(-1)?.algorithms.push(values.at(-1));
    else if (word === "name") [found.name] = values;
  }
  return found;
}

// What an account is told of itself: that of a key, or of nobody if there is none. Null where the server tells nothing.
export async function account(as = key) {
  try {
    return readAccount((await ask("GET", "account", { as })).octets);
  } catch (error) {
    if (error.values?.status !== 404) throw error;
  }
  // an older server knows a key by what else it refuses
  if (as) await ask("GET", "deposits", { as });
  return null;
}

// The octets of a file beside the page; none if there is no such file, or none for now if it can't be had.
const kept = {};
function file(name) {
  kept[name] ??= ask("GET", name, { as: "" })
    .then((answer) => answer.octets)
    .catch((error) => {
      if (error.text !== "refusal.other") delete kept[name];
      return new Uint8Array();
    });
  return kept[name];
}

// The TSA's certificates, today's and earlier ones, those above them, and roots: files in PEM that the operator put
// there.
export const [SIGNERS, CHAIN, ROOTS] = ["signers.pem", "chain.pem", "ca.pem"];

export async function certificates(name) {
  try {
    return readPem(await file(name), "CERTIFICATE").map(readCertificate);
  } catch (error) {
    console.error(name, error);
    return [];
  }
}

// What the operator says: who runs this, and what may be asked for.
export async function site() {
  try {
    return JSON.parse(new TextDecoder().decode(await file("site.json")));
  } catch {
    return {};
  }
}
