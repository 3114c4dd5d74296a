// Asks for a time-stamp token: node ask.mjs URL FILE writes FILE.tsq and FILE.tsr. It verifies nothing.
import { createHash, randomBytes } from "node:crypto";
import { readFileSync, writeFileSync } from "node:fs";

const [url, file] = process.argv.slice(2);
const octets = (text) => Buffer.from(text, "hex");
const hash = createHash("sha256").update(readFileSync(file)).digest();
const nonce = randomBytes(8);
nonce[0] = 1; // a positive INTEGER in its shortest form
// a TimeStampReq: version 1, SHA-256 and the hash, the nonce, and TRUE for the certificate
const start = octets("30430201013031300d060960864801650304020105000420");
const query = Buffer.concat([start, hash, octets("0208"), nonce, octets("0101ff")]);
const headers = { "Content-Type": "application/timestamp-query" };
const answer = await fetch(url, { method: "POST", headers, body: query });
const reply = Buffer.from(await answer.arrayBuffer());
// what is no token is short, and says why: `rule 11`, or `429 TooMany`
if (answer.status !== 200 || reply.length < 64) throw new Error(/(rule|\d{3}) \w+/.exec(reply.toString("latin1"))?.[0]);
writeFileSync(`${file}.tsq`, query);
writeFileSync(`${file}.tsr`, reply);
