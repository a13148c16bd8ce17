#!/usr/bin/env node
// A client of the service over Node's own WebSocket or `ws`: shows each message of a document and sends what is typed:
// `title = hello` sets a key of the map `board`, `+3` or `-2` goes to the counter `count`.
//
//     examples/client.mjs DOCUMENT [PORT or URL]      # 7070 where none is given
import { createInterface } from "node:readline";
import { createRequire } from "node:module";
import { isDeepStrictEqual } from "node:util";

const require = createRequire(import.meta.url);
const load = (...places) => { try { return require(places[0]); } catch { return require(places[1]); } };
const Socket = globalThis.WebSocket ?? load("ws", "/usr/share/nodejs/ws");
const [name, place = "7070", ...further] = process.argv.slice(2);
if (name === undefined || further.length > 0 || !/^\d+$|:\/\//.test(place)) {
  console.error("usage: examples/client.mjs DOCUMENT [PORT or URL]");
  process.exit(2);
}
const url = place.includes("://") ? place : `ws://127.0.0.1:${place}`;
const CHANNELS = [{ type: "attach", address: "board", kind: "map" }, { type: "attach", address: "count", kind: "counter" }];

let socket, id = null, last, reach, isReady = false; // of the line: its client, the last number sent, what lies before its feed
let number = 0, newest = null;                       // the last message that was taken
let edits = CHANNELS.map((body) => ({ body, id: null })); // what didn't come back yet, with the id and number it went under
let under = null;                                    // the last id under which an edit was sent, until its leave is heard
const held = new Map();                              // messages that came ahead of their turn

const say = (...event) => { if (socket.readyState === 1) socket.send(JSON.stringify(event)); };
const end = () => { id = null; socket.close(); }; // what waits goes under the next id

function submit(type, contents) {
  say("submitOp", id, [{ clientSequenceNumber: ++last, contents, referenceSequenceNumber: number, type }]);
}

/** Sends what waits, but no edit before the leave of an earlier id under which one was sent. */
function sendWaiting() {
  if (id === null || !isReady || (under !== null && under !== id)) return;
  for (const edit of edits.filter((it) => it.id === null)) {
    [under, edit.id, edit.number] = [id, id, last + 1];
    submit("op", edit.body);
  }
}

function take(message) {
  ({ sequenceNumber: number } = newest = message);
  const { clientId, clientSequenceNumber, contents, data, type } = message;
  console.log(`#${number} ${clientId} ${type} ${data ?? JSON.stringify(contents)}`);
  edits = edits.filter((edit) => edit.id === null || edit.id !== clientId || edit.number !== clientSequenceNumber);
  if (type !== "leave") return;
  const left = JSON.parse(data); // what didn't come before its line's leave never comes, and has to be sent again
  for (const edit of edits) if (edit.id === left) edit.id = null;
  if (under === left) under = null;
  if (id === left) end();
}

function hear([event, ...rest]) {
  let messages = [], isOther;
  if (event === "connect_document_success") {
    [id, last, reach] = [rest[0].clientId, 0, rest[0].checkpointSequenceNumber];
    isOther = number > reach;
  } else if (event === "op" || event === "deltas") {
    messages = rest[1];
    isOther = event === "deltas" && rest[0] === number && !isDeepStrictEqual(messages[0], newest);
  } else { // an error or a nack: the line is of no more use
    console.log("--", JSON.stringify(rest));
    if (event === "nack" && id === null) { // the connect itself isn't taken, and never will be
      console.error("a document's name has 1 to 64 of A-Z a-z 0-9 _ -");
      process.exit(1);
    }
    return end();
  }
  if (isOther) {
    console.log("-- another order stands here: the service began anew, and so do I");
    [number, under] = [0, null];
    edits = [...CHANNELS, ...edits.map((edit) => edit.body)].map((body) => ({ body, id: null }));
  }
  for (const message of messages) held.set(message.sequenceNumber, message);
  for (let next; (next = held.get(number + 1)); held.delete(number)) take(next);
  if (event !== "op") { // asks for what lies before the feed, from the last message that it has on: is it the same one?
    isReady = number >= reach && (event === "deltas" || reach === 0);
    if (!isReady) say("getDeltas", Math.max(number, 1), Math.min(number + 2048, reach + 1));
  }
  sendWaiting();
}

function come() {
  console.log(`-- calling ${url}`);
  socket = new Socket(url);
  socket.onopen = () => say("connect_document", { id: name, scopes: ["doc:read", "doc:write"], client: "client.mjs" });
  socket.onmessage = (message) => { if (socket.readyState === 1) hear(JSON.parse(message.data)); }; // `ws` goes on behind close()
  socket.onerror = () => {};
  socket.onclose = () => {
    console.log("-- no line");
    id = null;
    held.clear();
    setTimeout(come, 1000);
  };
}

come();
// who says nothing for five minutes is taken for gone
setInterval(() => { if (id !== null && isReady) submit("noop", null); }, 60000);
createInterface({ input: process.stdin }).on("line", (line) => {
  if (line.trim() === "") return;
  const [key, value] = line.split(/=(.*)/s).map((part) => part.trim());
  const isCount = /^[+-]\d{1,15}$/.test(key);
  if (!isCount && value === undefined) return console.log("-- KEY = VALUE, +N or -N; left out");
  const body = isCount
    ? { address: "count", contents: { type: "increment", incrementAmount: Number(key) } }
    : { address: "board", contents: { type: "set", key, value: { type: "Plain", value } } };
  // a text beyond maxMessageSize ends the line, and would end each one after it
  if (Buffer.byteLength(JSON.stringify(body)) > 1000000) return console.log("-- too long, left out");
  edits.push({ id: null, body });
  sendWaiting();
});
