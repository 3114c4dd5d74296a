// What may be asked for: the policies and hash algorithms of the account, as the server tells them, or else the
// operator's file; and what of it is chosen.
import { Refusal, account, site } from "./counter.js";
import { isOid } from "./der.js";
import { byId, make, told } from "./elements.js";
import { ALGORITHMS, BUILT_IN, identified } from "./hash.js";

// of each policy: its name if it has one, its object identifier, and those of its algorithms
let policies = [];

// Another list in a field; what was chosen stays if it is still there.
function fill(select, options) {
  const { value } = select;
  select.replaceChildren(...options);
  if (options.some((one) => one.value === value)) select.value = value;
}

// A request without a policy is for the account's first one.
function showAlgorithms() {
  const named = byId("stamp-policy").value;
  const policy = policies.find((one) => one.oid === named) ?? policies[0];
  const known = (policy?.algorithms ?? []).map(identified).filter((oid) => ALGORITHMS[oid]);
  const offered = known.length ? known : BUILT_IN;
  fill(byId("stamp-algorithm"), offered.map((oid) => make("option", { value: oid }, ALGORITHMS[oid].name)));
}

function showPolicies() {
  const own = told("option", "stamp.policy.own", {}, { value: "" });
  const others = policies.map(({ name, oid }) => make("option", { value: oid }, name ? `${name} (${oid})` : oid));
  fill(byId("stamp-policy"), [own, ...others]);
  showAlgorithms();
}

// Offers what an account may ask for, or where the server doesn't tell, what the operator's file says.
export function offer(told, others) {
  policies = (told?.policies ?? others.policies ?? []).filter(({ oid }) => isOid(oid));
  showPolicies();
}

// The same for whoever asks now. Of a refusal it is told once a token is asked for.
export async function offerOwn() {
  const told = await account().catch((error) => {
    if (!(error instanceof Refusal)) throw error;
    return null;
  });
  offer(told, await site());
}

export const chosenOptions = () => ({
  algorithm: byId("stamp-algorithm").value,
  policy: byId("stamp-policy").value || null,
  isCertificateAsked: byId("stamp-certificate").checked,
});

export function optionsBegin() {
  byId("stamp-policy").addEventListener("change", showAlgorithms);
  showPolicies();
}
