// Elements of the page, made without any markup in texts.
import { show, showNothing, text } from "./texts.js";

const ANNOUNCED = 50;
// by which path a file was found that was dropped in a folder
const paths = new WeakMap();

export const byId = (id) => document.getElementById(id);

// An element with attributes and what stands in it; what isn't an element there is text as it is.
export function make(tag, attributes = {}, ...contents) {
  const element = document.createElement(tag);
  for (const [name, value] of Object.entries(attributes)) {
    if (value !== undefined && value !== false) element.setAttribute(name, value === true ? "" : value);
  }
  element.append(...contents);
  return element;
}

// An element that shows a text in the reader's language.
export const told = (tag, key, values, attributes) => show(make(tag, attributes), key, values);

// Tells a screen reader's user what happened elsewhere on the page. Each is a line of its own, else what is said twice
// would be heard once.
export function announce(key, values) {
  const place = byId("announcement");
  place.append(told("p", key, values));
  if (place.children.length > ANNOUNCED) place.firstElementChild.remove();
}

// Puts other contents into an element. Whoever was there by the keyboard stays there.
export function put(place, ...contents) {
  const home = place.closest("article") ?? place;
  const isThere = home.contains(document.activeElement);
  clear(place);
  place.append(...contents);
  if (!isThere) return;
  home.tabIndex = -1;
  (place.querySelector("button, a, summary") ?? home).focus({ preventScroll: true });
}

// What came of something, as a line of its own: `good`, `bad`, `warn`, or none of these while it is under way.
export function outcome(element, kind, key, values) {
  element.className = `outcome ${kind}`;
  show(element, key, values);
}

export function noOutcome(element) {
  element.className = "outcome";
  showNothing(element);
}

// A button that does something, and can't be pressed meanwhile.
export function button(key, action, values) {
  const element = told("button", key, values, { type: "button" });
  element.addEventListener("click", () => busy(element, action));
  return element;
}

export async function busy(element, action) {
  element.disabled = true;
  try {
    await action();
  } finally {
    element.disabled = false;
  }
}

export const pathOf = (file) => paths.get(file) ?? file.name;

// The name under which a browser keeps a file unchanged: without what a file system of today refuses, and with room
// for what is added, in the 255 octets that it has.
export function fileName(name) {
  let kept = name.replace(/[\p{Cc}\p{Cf}"*/:<>?\\|]/gu, "_").replace(/^[.~\s]+|[.\s]+$/gu, "_");
  while (new TextEncoder().encode(kept).length > 240) kept = kept.slice(1);
  return kept || "file";
}

// Takes away what stands in an element, with the octets that links there would save.
export function clear(element) {
  for (const link of element.querySelectorAll("a[download]")) URL.revokeObjectURL(link.href);
  element.replaceChildren();
}

// A link that saves octets as a file. They are kept as long as the link, which may be followed at any moment.
export function download(key, octets, name, kind) {
  const href = URL.createObjectURL(new Blob([octets], { type: kind }));
  return told("a", key, { name }, { href, download: name, class: "button" });
}

// A word of a shell's line: in quotes unless it is made of harmless characters.
export const quoted = (word) => (/^[\w./][\w./-]*$/.test(word) ? word : `'${word.replaceAll("'", "'\\''")}'`);

// A line to type, and a button that copies it.
export function line(command) {
  const copy = told("button", "copy", {}, { type: "button", class: "plain" });
  copy.addEventListener("click", async () => {
    try {
      await navigator.clipboard.writeText(command);
      announce("copied");
      copy.textContent = text("copied");
    } catch {
      announce("copy.failed");
    }
  });
  return make("div", { class: "line" }, make("pre", {}, make("code", {}, command)), copy);
}

// What stands in a folder, by name; a reader tells so many at a time, and at the end none.
async function within(folder) {
  const reader = folder.createReader();
  const found = [];
  for (;;) {
    const some = await new Promise((resolve, reject) => reader.readEntries(resolve, reject));
    if (!some.length) return found.sort((one, other) => (one.name < other.name ? -1 : 1));
    found.push(...some);
  }
}

// The files of what was dropped, folders walked through.
async function walked(entries) {
  const found = [];
  for (const entry of entries) {
    if (entry.isDirectory) found.push(...(await walked(await within(entry))));
    else {
      const file = await new Promise((resolve, reject) => entry.file(resolve, reject));
      paths.set(file, entry.fullPath.replace(/^\//, ""));
      found.push(file);
    }
  }
  return found;
}

// What is dropped on an element goes to an action, as files.
export function droppable(element, action) {
  element.addEventListener("dragover", (event) => {
    event.preventDefault();
    element.classList.add("over");
  });
  element.addEventListener("dragleave", (event) => {
    if (!element.contains(event.relatedTarget)) element.classList.remove("over");
  });
  element.addEventListener("drop", async (event) => {
    event.preventDefault();
    element.classList.remove("over");
    element.querySelector(".unread")?.remove();
    const { files, items } = event.dataTransfer;
    // they are there as long as the event alone
    const [all, entries] = [Array.from(files), Array.from(items, (item) => item.webkitGetAsEntry()).filter(Boolean)];
    if (!entries.some((entry) => entry.isDirectory)) return action(all);
    try {
      return action(await walked(entries));
    } catch {
      const fault = told("p", "file.unreadable", {}, { class: "unread bad", role: "alert" });
      return (element.querySelector(".drop") ?? element).append(fault);
    }
  });
}
