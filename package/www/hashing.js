// The hash of a file, of whatever size, by a worker beside the page.
import { Cancelled, Refusal } from "./counter.js";

let worker = null;
let last = 0;
// what is told of each file, by its number
const told = new Map();
// what was hashed once isn't hashed again: of each file, by the algorithm
const hashes = new WeakMap();

// The worker is begun with the page: later the server may be out of reach, and files can still be checked.
function atWork() {
  if (worker) return worker;
  worker = new Worker(new URL("hash_worker.js", import.meta.url), { type: "module" });
  worker.onmessage = ({ data }) => told.get(data.number)?.(data);
  // its modules couldn't be had; it is begun again with the next file
  worker.onerror = () => {
    worker = null;
    for (const tell of told.values()) tell({ lost: true });
  };
  return worker;
}

// Tells `progress` how many octets are done; `signal` ends it. Refused if the file can't be read.
export async function hashOf(file, algorithm, progress, signal) {
  if (!hashes.has(file)) hashes.set(file, {});
  const known = hashes.get(file);
  known[algorithm] ??= await begun(file, algorithm, progress, signal);
  return known[algorithm];
}

function begun(file, algorithm, progress, signal) {
  last += 1;
  const number = last;
  const found = new Promise((resolve, reject) => {
    told.set(number, (data) => {
      if (data.digest) resolve(data.digest);
      else if (data.failed) reject(new Refusal("file.unreadable"));
      else if (data.lost) reject(new Refusal("refusal.connection"));
      else progress(data.done);
    });
    signal?.addEventListener("abort", () => {
      atWork().postMessage({ number });
      reject(new Cancelled());
    });
    atWork().postMessage({ number, file, algorithm });
  });
  return found.finally(() => told.delete(number));
}

atWork();
