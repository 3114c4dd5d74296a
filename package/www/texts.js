// What the page says, in the reader's language. An element tells by `data-text` which text it shows, and by
// `data-label` which one names it to a screen reader, so that another language can be chosen at any moment. English of
// what never changes stands in index.html itself.
import { english } from "./english.js";
import { german } from "./german.js";

const LANGUAGES = { en: { ...english, ...ofDocument() }, de: german };
const valuesOf = new WeakMap();
let language = "en";

function ofDocument() {
  const found = {};
  for (const one of document.querySelectorAll("[data-label]")) {
    found[one.dataset.label] = one.getAttribute("aria-label");
  }
  for (const one of document.querySelectorAll("[data-text]")) {
    found[one.dataset.text] = one.textContent.replace(/\s+/g, " ").trim();
  }
  return found;
}

export const languageNow = () => language;

// A text with its values, each of which stands in braces there; one that depends on the language is a function.
export function text(key, values = {}) {
  const found = LANGUAGES[language][key] ?? LANGUAGES.en[key] ?? key;
  return found.replace(/\{(\w+)\}/g, (whole, name) => {
    const value = values[name];
    return value === undefined ? whole : String(typeof value === "function" ? value() : value);
  });
}

// Has an element show a text from now on, in whatever language is chosen.
export function show(element, key, values = {}) {
  element.dataset.text = key;
  valuesOf.set(element, values);
  element.textContent = text(key, values);
  return element;
}

// Has an element be named by a text to a screen reader.
export function name(element, key) {
  element.dataset.label = key;
  element.setAttribute("aria-label", text(key));
  return element;
}

export function showNothing(element) {
  delete element.dataset.text;
  element.textContent = "";
}

export function choose(name) {
  language = LANGUAGES[name] ? name : "en";
  document.documentElement.lang = language;
  for (const one of document.querySelectorAll("[data-label]")) one.setAttribute("aria-label", text(one.dataset.label));
  for (const one of document.querySelectorAll("[data-text]")) {
    one.textContent = text(one.dataset.text, valuesOf.get(one));
  }
  for (const one of document.querySelectorAll("[data-language]")) {
    one.setAttribute("aria-pressed", String(one.dataset.language === language));
  }
}

// The first language of the reader's that the page has.
export const preferred = () => navigator.languages.map((tag) => tag.slice(0, 2)).find((tag) => LANGUAGES[tag]) ?? "en";

export const number = (value) => () => new Intl.NumberFormat(language).format(value);

// A moment in microseconds since 1970: as it stands in the token, in UTC.
export function utc(microseconds) {
  const date = new Date(Number(microseconds / 1000n)).toISOString();
  const fraction = (microseconds % 1_000_000n).toString().padStart(6, "0").replace(/0+$/, "");
  return `${date.slice(0, 10)} ${date.slice(11, 19)}${fraction ? `.${fraction}` : ""} UTC`;
}

// The same by the reader's calendar and zone, in whole seconds.
export const local = (microseconds) => () =>
  new Intl.DateTimeFormat(language, { dateStyle: "full", timeStyle: "long" }).format(Number(microseconds / 1000n));

const UNITS = Object.entries({ day: 86.4e9, hour: 3.6e9, minute: 6e7, second: 1e6, millisecond: 1e3 });

// A length of time in the largest unit of which it has two, and in seconds from one on.
export const span = (microseconds) => () => {
  const whole = Number(microseconds);
  const fits = ([unit, size]) => whole >= (unit === "second" ? size : 2 * size);
  const [unit, size] = UNITS.find(fits) ?? UNITS.at(-1);
  const how = { style: "unit", unit, unitDisplay: "long", maximumFractionDigits: size > 1e6 ? 1 : 3 };
  return new Intl.NumberFormat(language, how).format(whole / size);
};

// A part of a whole, in whole per cent and never more than was done.
export const percent = (part) => () =>
  new Intl.NumberFormat(language, { style: "percent" }).format(Math.floor(part * 100) / 100);

// How many octets, in units of 1024.
export const size = (octets) => () => {
  const units = ["B", "KiB", "MiB", "GiB", "TiB"];
  const at = octets < 1024 ? 0 : Math.min(4, Math.floor(Math.log2(octets) / 10));
  const digits = { maximumFractionDigits: at ? 1 : 0 };
  return `${new Intl.NumberFormat(language, digits).format(octets / 1024 ** at)} ${units[at]}`;
};
