// Shows how far the hashing of a file is, and a button that ends it, where that takes longer than a second.
import { make, put, told } from "./elements.js";
import { hashOf } from "./hashing.js";
import { percent, show, size } from "./texts.js";

const PATIENCE = 1000;

export async function hashShown(file, algorithm, place) {
  const ended = new AbortController();
  const bar = make("progress", { max: Math.max(1, file.size), value: 0, "aria-label": file.name });
  const done = make("p", { class: "note" });
  const tell = (octets) => {
    bar.value = octets;
    const values = { percent: percent(octets / bar.max), done: size(octets), size: size(file.size) };
    show(done, "hash.done", values);
  };
  const cancel = cancelOf(ended);
  put(place, told("p", "hash.begun", {}, { class: "note" }));
  tell(0);
  const timer = setTimeout(() => put(place, bar, done, cancel), PATIENCE);
  try {
    return await hashOf(file, algorithm, tell, ended.signal);
  } finally {
    clearTimeout(timer);
  }
}

// A button that ends what a controller is for.
export function cancelOf(ended) {
  const cancel = told("button", "cancel", {}, { type: "button" });
  cancel.addEventListener("click", () => ended.abort());
  return cancel;
}
