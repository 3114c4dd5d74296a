// Who runs this, as the operator's file says, and the certificates to save, in the page's foot.
import { CHAIN, ROOTS, SIGNERS, certificates, site } from "./counter.js";
import { hexadecimal } from "./der.js";
import { byId, make, told } from "./elements.js";
import { SHA256, hashed } from "./hash.js";

// An address as a link: of mail, or of a page. Other texts stay as they are.
function linked(text) {
  const address = /^[^\s/@]+@[^\s/@]+$/.test(text) ? `mailto:${text}` : text;
  if (!/^(https?:|mailto:|\/)\S+$/.test(address)) return text;
  return make("a", { href: address, rel: "noopener" }, text);
}

// A link to certificates, with the names of their subjects, and of a root what it is known by elsewhere.
async function saved(name) {
  const found = await certificates(name);
  if (!found.length) return [];
  const subjects = found.map(({ subjectName, octets }) => {
    const known = name === ROOTS ? [" · SHA-256 ", make("code", {}, hexadecimal(hashed(SHA256, octets)))] : [];
    return make("li", {}, subjectName, ...known);
  });
  return [make("li", {}, make("a", { href: name, download: name }, name), make("ul", {}, ...subjects))];
}

export async function begin() {
  const said = await site();
  const lines = ["operator", "contact", "policy"]
    .filter((name) => typeof said[name] === "string" && said[name])
    .flatMap((name) => [told("dt", `site.${name}`), make("dd", {}, linked(said[name]))]);
  const files = (await Promise.all([SIGNERS, CHAIN, ROOTS].map(saved))).flat();
  if (files.length) lines.push(told("dt", "site.certificates"), make("dd", {}, make("ul", {}, ...files)));
  byId("site").hidden = lines.length === 0;
  byId("site-parts").replaceChildren(...lines);
}
