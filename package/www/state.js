// The counter's state, and extracts of a range of serial numbers.
import { Refusal, extract, state } from "./counter.js";
import { busy, byId, clear, download, make, noOutcome, outcome, told } from "./elements.js";
import { name, number, span } from "./texts.js";

const SHOWN = 1000;
// below this part of a calibration's time it is low
const LOW = 0.2;

async function orTold(place, action) {
  try {
    await action();
  } catch (error) {
    if (!(error instanceof Refusal)) throw error;
    outcome(place, "bad", error.text, error.values);
  }
}

// A calibration's time as a bar: how much of it is left.
function calibration(age, left) {
  if (age === "none") return [told("p", "state.calibration.none", {}, { class: "outcome bad" })];
  const rest = left === "none" ? 0n : BigInt(left);
  const whole = Number(BigInt(age) + rest) || 1;
  const bar = make("meter", { min: 0, max: 1, low: LOW, optimum: 1, value: Number(rest) / whole });
  name(bar, "state.calibration");
  const values = { age: span(BigInt(age)), left: span(rest) };
  const key = rest > 0n ? "state.calibration.left" : "state.calibration.over";
  return [bar, told("p", key, values, { class: rest > 0n ? "" : "bad" })];
}

const timeOf = (text) => text.replace(/^(\d{4})(\d{2})(\d{2})(\d{2})(\d{2})(\d{2}(\.\d+)?)Z$/, "$1-$2-$3 $4:$5:$6 UTC");

function fault(count) {
  const isNone = count === "0";
  return told("span", isNone ? "state.faults.none" : "state.faults", { count }, { class: isNone ? "good" : "bad" });
}

function show(parts) {
  const isHeld = parts.held === "yes";
  const last = parts["last-gen-time"];
  const rows = [
    ["state.serial", parts.serial],
    ["state.last", last === "none" ? told("span", "state.last.none") : timeOf(last)],
    ["state.calibration", make("div", {}, ...calibration(parts["calibration-age-us"], parts["calibration-left-us"]))],
    ["state.held", told("span", isHeld ? "state.held.yes" : "state.held.no", {}, { class: isHeld ? "bad" : "good" })],
    ["state.store", fault(parts["store-faults"])],
    ["state.signer", fault(parts["signer-faults"])],
  ];
  byId("state-parts").replaceChildren(...rows.flatMap(([key, value]) => [told("dt", key), make("dd", {}, value)]));
}

export async function ask() {
  const place = byId("state-outcome");
  await orTold(place, async () => {
    const parts = await state();
    show(parts);
    outcome(place, "", "state.asked", { time: () => new Date().toLocaleTimeString(document.documentElement.lang) });
    const serial = Number(parts.serial);
    if (serial > 0 && !byId("audit-to").value) {
      byId("audit-from").value = Math.max(1, serial - 99);
      byId("audit-to").value = serial;
    }
  });
}

export function forget() {
  byId("state-parts").replaceChildren();
  clear(byId("audit-result"));
  byId("audit-form").reset();
  for (const id of ["state-outcome", "audit-outcome"]) noOutcome(byId(id));
}

// Rows of comma-separated values (RFC 4180): a field may stand in quotes, with each quote in it twice.
export function rows(text) {
  const found = [[]];
  const fields = /("(?:[^"]|"")*"|[^,"\n]*)(,|\n|$)/g;
  for (let field = fields.exec(text); field && field.index < text.length; field = fields.exec(text)) {
    const [, value, end] = field;
    found.at(-1).push(value.startsWith('"') ? value.slice(1, -1).replaceAll('""', '"') : value);
    if (end === "\n") found.push([]);
  }
  return found.filter((one) => one.length > 0);
}

async function showExtract() {
  const place = byId("audit-outcome");
  const result = byId("audit-result");
  const [from, to] = [byId("audit-from").value.trim(), byId("audit-to").value.trim()];
  outcome(place, "", "audit.asking");
  clear(result);
  await orTold(place, async () => {
    const octets = await extract(from, to);
    const [names, ...stamps] = rows(new TextDecoder().decode(octets));
    const head = make("tr", {}, ...names.map((name) => make("th", { scope: "col" }, name)));
    const body = stamps.slice(0, SHOWN).map((one) =>
      make("tr", {}, ...one.map((field) => make("td", { class: field.length > 32 ? "octets" : "" }, field))),
    );
    const table = make("table", {}, make("thead", {}, head), make("tbody", {}, ...body));
    const named = { class: "scroll", tabindex: 0, role: "region", "aria-labelledby": "audit-outcome" };
    const save = make("p", {}, download("download", octets, `extract-${from}-${to}.csv`, "text/csv"));
    result.replaceChildren(save, make("div", named, table));
    const shown = Math.min(SHOWN, stamps.length);
    outcome(place, "", "audit.count", { count: number(stamps.length), shown: number(shown) });
  });
}

export function begin() {
  byId("state-again").addEventListener("click", (event) => busy(event.target, ask));
  byId("audit-form").addEventListener("submit", (event) => {
    event.preventDefault();
    busy(event.submitter, showExtract);
  });
}
