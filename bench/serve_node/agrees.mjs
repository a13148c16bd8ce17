#!/usr/bin/env node
// Compares the documents of server.mjs with `fluidd sequence` over random raw records, line by line and byte by byte.
//
//     node agrees.mjs FLUIDD [SEED] [RECORDS]
//
// Lines of dropped and absorbed entries are taken for the same, since a connection is told of neither.
import { spawnSync } from "node:child_process";
import { Document, put } from "./server.mjs";

const [program, seed = "1", count = "20000"] = process.argv.slice(2);
const TREE = "4b825dc642cb6eb9a060e54bf8d69288fbee4904"; // the empty one

let state = BigInt(seed), now = 0;
Date.now = () => now; // a message's moment is its record's
function draw(below) {
  state = (state * 6364136223846793005n + 1442695040888963407n) & ((1n << 64n) - 1n);
  return Number((state >> 33n) % BigInt(below));
}
const pick = (...all) => all[draw(all.length)];
const nested = { b: 1, a: [1, { z: null, "é": "x", "\uffee": 1, "😀": 2 }] };
const value = () => pick(null, "x", nested, "grüße 😀\u0001\"\\/\u2028");

put(Buffer.from("tree 0\0"));
const document = new Document("d");
const answer = document.answer;
document.answer = () => {}; // answers come by reports
document.flush = () => {};

function join(id) {
  const detail = value(), scopes = ["doc:read", "odd", ...(draw(3) ? ["summary:write"] : [])];
  if (!document.clients.has(id)) document.join(new Set(scopes), detail, id);
  return { raw: "join", clientId: id, detail, moment: now, scopes };
}

/** A report on the oldest summarize that waits, or on any number. What is found is what the store has. */
function report() {
  const [first, ...rest] = document.waiting;
  const summary = first && draw(4) ? first.number : 1 + draw(document.seq + 3);
  const said = typeof first?.contents === "string" ? JSON.parse(first.contents) : first?.contents;
  if (first?.number === summary) {
    document.waiting = [first];
    answer.call(document);
    document.waiting = rest;
  }
  return { raw: "report", found: said?.handle === TREE, moment: now, summary };
}

function contentsOf(kind) {
  const head = pick(document.acks.at(-1)?.handle ?? "", document.acks.at(-1)?.handle ?? "", "", "x");
  if (kind === "summarize") {
    return pick({ handle: TREE, head }, { handle: TREE, head }, JSON.stringify({ handle: TREE, head, message: "m" }),
      { handle: "f".repeat(40), head }, { handle: "X", head }, { handle: TREE }, 5, null);
  }
  if (kind === "noop" && draw(2)) return null;
  const proposal = { key: `k${draw(3)}`, value: draw(9) }, spelled = `{"key":"t${draw(3)}","value":{"b":1,"a":2}}`;
  return pick(null, "x", value(), proposal, spelled, { key: 1, value: 2 });
}

function submit(id, send) {
  const row = document.clients.get(id), last = row?.last ?? 0, own = row?.reference ?? 0;
  const kind = pick("op", "op", "op", "noop", "noop", "noop", "propose", "reject", "summarize");
  const number = Math.max(0, last + (draw(12) ? 1 : pick(0, 2, -1)));
  const odd = pick(-1, document.seq + 1, Math.max(0, document.minimum() - 1), own);
  const reference = draw(10) ? Math.max(own, document.minimum(), document.seq - draw(4)) : odd;
  const operation = { clientSequenceNumber: number, contents: contentsOf(kind), referenceSequenceNumber: reference, type: kind };
  if (draw(5) === 0) operation.metadata = value();
  document.submit(id, { number, reference, kind, contents: operation.contents, metadata: operation.metadata }, send);
  return { raw: "submit", clientId: id, moment: now, operation };
}

const records = [], own = [];
for (let i = 0; i < Number(count); i++) {
  now += draw(3);
  const id = `k${draw(7)}`, chance = draw(100), before = document.seq;
  let nack = null, raw;
  if (chance < 6 || (!document.clients.has(id) && chance < 50)) raw = join(id);
  else if (chance < 9) {
    raw = { raw: "leave", clientId: id, moment: now };
    document.leave(id);
  } else raw = chance < 20 ? report() : submit(id, (text) => { nack = text; });
  records.push(JSON.stringify(raw));
  own.push(document.seq > before ? `{"sequenced":${document.messages.at(-1).text}}`
    : nack ? `{"clientId":"${id}","nacked":${nack.slice(nack.indexOf("[{") + 1, -2)}}` : "quiet");
}
const done = spawnSync(program, ["sequence"], { input: `${records.join("\n")}\n`, maxBuffer: 1 << 30 });
const quiet = (line) => (/^{"(dropped|absorbed)"/.test(line) ? "quiet" : line);
const wanted = done.stdout.toString().split("\n").slice(0, -1).map(quiet);
const differ = own.filter((line, at) => line !== wanted[at]).length;
const at = own.findIndex((line, place) => line !== wanted[place]);
if (differ) console.log(`record ${at + 1}: ${records[at]}\n  here:   ${own[at]}\n  fluidd: ${wanted[at]}`);
console.log(`${count} records, ${document.seq} messages, ${document.acks.length} summaries; ${differ} lines differ`);
process.exit(differ || done.status ? 1 : 0);
