// An ordering service in Node on the stock `ws` library, by the rules of docs/RULES.md and the texts of docs/PROTOCOL.md: what
// somebody would write in place of fluidd. Each document is one log in memory; an op event is printed once for all connections.
//
//     node server.mjs PORT [--lines]
//
// Whole numbers beyond plus or minus 2^53 - 1 are refused as not whole, since they would be rounded here.
import { createHash } from "node:crypto";
import { createRequire } from "node:module";
import { createServer } from "node:net";
import { pathToFileURL } from "node:url";

const require = createRequire(import.meta.url);
const load = (name, debian) => { try { return require(name); } catch { return require(debian); } };
const { WebSocketServer } = load("ws", "/usr/share/nodejs/ws");

const TEXT_BYTES = 1048576, OP_MESSAGES = 64, DELTAS = 2048, ENTRIES = 4194304, CLIENTS = 1024, DOCUMENTS = 1024;
const SILENCE = 300000, UNREAD = 1000, WAITING_BYTES = 1 << 20, PATIENCE = 11000;

// ---- texts

const isObject = (v) => v !== null && typeof v === "object" && !Array.isArray(v);
const isName = (v) => /^[A-Za-z0-9_-]{1,64}$/.test(v);
const isId = (v) => typeof v === "string" && /^[0-9a-f]{40}$/.test(v);
/** Names in the order of their bytes, from which that of this language differs beyond U+D800 alone. */
const inOrder = (names) => names.length < 2 ? names : !/[\ud800-\udfff]/.test(names.join("")) ? names.sort()
  : names.sort((a, b) => Buffer.compare(Buffer.from(a), Buffer.from(b)));

/** Compact, members in byte order of their names. */
function print(v) {
  if (v === null || typeof v !== "object") return JSON.stringify(v);
  if (Array.isArray(v)) return `[${v.map(print).join(",")}]`;
  let text = "";
  for (const name of inOrder(Object.keys(v))) text += `${text && ","}${JSON.stringify(name)}:${print(v[name])}`;
  return `{${text}}`;
}

class Fault extends Error {}
const bad = (field, what) => new Fault(`bad field ${field}: ${what}`);
const STRINGS = /"[^"\\]*(?:\\[^][^"\\]*)*(?:"|\\?$)/g;

/** Whether a hundred objects and lists stand inside one another and one more does. */
function isTooDeep(text) {
  let depth = 0, openings = 0;
  for (let i = 0; i < text.length; i++) if ((text.charCodeAt(i) & ~32) === 91) openings++; // of both kinds
  if (openings <= 100) return false;
  for (const [c] of text.replace(STRINGS, "").matchAll(/[[\]{}]/g)) {
    depth = c === "[" || c === "{" ? depth + 1 : Math.max(depth - 1, 0);
    if (depth > 100) return true;
  }
  return false;
}

const isWhole = (v) => typeof v === "number" ? Number.isSafeInteger(v)
  : typeof v !== "object" || Object.values(v ?? []).every(isWhole);

function readJson(text) {
  if (text.length > 100 && isTooDeep(text)) throw new Fault("nested too deep");
  let value;
  try { value = JSON.parse(text); } catch { throw new Fault("not JSON"); }
  if (!/\d[.eE]|-0|\d{16}/.test(text)) return value;
  // a fraction, an exponent or -0 shows in the spelling alone
  if (/\d[.eE]|-0/.test(text.replace(STRINGS, "")) || !isWhole(value)) throw new Fault("a number is not whole");
  return value;
}

/** What contents spell, where they are a text of JSON, and else themselves. */
function body(contents) {
  try { return typeof contents === "string" ? readJson(contents) : contents; } catch { return contents; }
}

/** A value by its form, or the fault that says what was wanted. */
function formed(field, v, isForm, what) {
  if (v !== undefined && isForm(v)) return v;
  throw bad(field, v === undefined ? "missing" : what);
}
const text = (field, v) => formed(field, v, (it) => typeof it === "string", "not a text");
const matching = (field, v, isForm, what = "not allowed") => formed(field, text(field, v), isForm, what);
const list = (field, v) => formed(field, v, Array.isArray, "not a list");
const whole = (field, v, least = -Infinity) =>
  formed(field, formed(field, v, (it) => typeof it === "number", "not a whole number"), (it) => it >= least, "out of range");

const KINDS = new Set(["op", "noop", "propose", "reject", "summarize"]);

function readSubmission(v) {
  formed("messages", v, isObject, "not an object");
  const number = whole("clientSequenceNumber", v.clientSequenceNumber, 0);
  const reference = whole("referenceSequenceNumber", v.referenceSequenceNumber, -1);
  const kind = matching("type", v.type, (word) => KINDS.has(word));
  return { number, reference, kind, contents: v.contents ?? null, metadata: v.metadata };
}

const GRAMMAR = {
  connect_document([v]) {
    formed("connect", v, isObject, "not an object");
    const id = matching("id", v.id, isName, "bad name");
    const mode = v.mode === undefined ? "write" : matching("mode", v.mode, (word) => word === "read" || word === "write");
    const scopes = new Set(list("scopes", v.scopes).map((scope) => text("scopes", scope)));
    return { id, mode, scopes, client: v.client ?? null };
  },
  submitOp: ([id, messages]) => ({ id: matching("clientId", id, isName, "bad name"),
    submissions: list("messages", messages).flat().map(readSubmission) }),
  getDeltas: ([from, to]) => ({ from: whole("from", from), to: whole("to", to) }),
  getSummary: ([pick]) => ({ pick: matching("pick", pick, (word) => word === "latest" || isId(word)) }),
  getObject: ([id]) => ({ id: matching("id", id, isId) }),
  putObject: ([hex]) => ({ bytes: Buffer.from(matching("object", hex, (word) => /^([0-9a-fA-F]{2})*$/.test(word)), "hex") }),
};

function readEvent(said) {
  const value = readJson(said), [name, ...rest] = Array.isArray(value) ? value : [];
  if (typeof name !== "string" || !Object.hasOwn(GRAMMAR, name)) throw new Fault("unknown event");
  return [name, GRAMMAR[name](rest)];
}

// ---- nacks

const bad400 = (message) => [400, "BadRequestError", message];
const NACKS = {
  gap: bad400("Gap in client sequence numbers"), nonexistent: bad400("Nonexistent client"),
  below: bad400("Reference below the minimum"), ahead: bad400("Reference ahead of the order"),
  scope: [403, "InvalidScopeError", "summary:write is missing"],
  notConnected: bad400("not connected"), foreign: bad400("foreign client"),
  readOnly: [403, "InvalidScopeError", "read only connection"], full: [429, "LimitExceededError", "document is full"],
};

function printNack(name, [code, type, message], submission = null, minimum = -1) {
  const s = submission, rest = s?.metadata === undefined ? {} : { metadata: s.metadata };
  const operation = s &&
    { clientSequenceNumber: s.number, contents: s.contents, referenceSequenceNumber: s.reference, type: s.kind, ...rest };
  return print(["nack", name, [{ content: { code, message, type }, operation, sequenceNumber: minimum }]]);
}

// ---- objects, by Git's format

const objects = new Map(); // id to bytes

export function put(bytes) {
  const id = createHash("sha1").update(bytes).digest("hex");
  objects.set(id, bytes);
  return id;
}
const objectOf = (kind, content) => Buffer.concat([Buffer.from(`${kind} ${content.length}\0`), content]);
const putBlob = (content) => put(objectOf("blob", Buffer.from(content)));
const sortName = (entry) => Buffer.from(entry.isTree ? entry.name + "/" : entry.name);

function putTree(entries) {
  entries.sort((a, b) => Buffer.compare(sortName(a), sortName(b)));
  return put(objectOf("tree", Buffer.concat(entries.map(({ name, isTree, id }) =>
    Buffer.concat([Buffer.from(`${isTree ? "40000" : "100644"} ${name}\0`), Buffer.from(id, "hex")])))));
}

/** The entries of a tree, an empty list for a blob, or null where the bytes are no object. */
function readObject(bytes) {
  const zero = bytes.indexOf(0), entries = [], names = new Set();
  const head = /^(blob|tree) (0|[1-9][0-9]{0,15})$/.exec(bytes.subarray(0, Math.max(zero, 0)).toString("latin1"));
  if (!head || bytes.length - zero - 1 !== Number(head[2])) return null;
  if (head[1] === "blob") return entries;
  for (let at = zero + 1, before = null; at < bytes.length;) {
    const blank = bytes.indexOf(32, at), end = bytes.indexOf(0, at);
    if (blank < 0 || end < blank || end + 21 > bytes.length) return null;
    const mode = bytes.subarray(at, blank).toString("latin1"), raw = bytes.subarray(blank + 1, end), name = raw.toString();
    const isGood = (mode === "40000" || mode === "100644") && Buffer.from(name).equals(raw) && !/^(|\.|\.\.|.*\/.*)$/s.test(name);
    const entry = { name, isTree: mode === "40000", id: bytes.subarray(end + 1, end + 21).toString("hex") };
    if (!isGood || names.has(name) || (before && Buffer.compare(sortName(before), sortName(entry)) >= 0)) return null;
    names.add(name);
    entries.push(before = entry);
    at = end + 21;
  }
  return entries;
}

/** Whether an object and all below it are held, with at most 32 trees inside one another. */
function isComplete(id, room = 32) {
  const bytes = objects.get(id);
  if (!bytes || bytes.subarray(0, 5).toString("latin1") === "blob ") return bytes !== undefined;
  return room > 0 && readObject(bytes).every((entry) => isComplete(entry.id, room - 1));
}

// ---- the quorum, as it is behind a number of messages

class Quorum {
  number = 0;
  minimum = 0;
  members = new Map();
  pending = [];
  values = new Map();

  apply({ minimum, change }) {
    const number = ++this.number;
    this.minimum = minimum;
    const { joined: clientId, detail, left } = change ?? {};
    if (clientId) this.members.set(clientId, { clientId, detail, sequenceNumber: number });
    this.members.delete(left);
    if (change?.key !== undefined) this.pending.push({ key: change.key, sequenceNumber: number, value: change.value });
    while (this.pending.length && this.pending[0].sequenceNumber <= minimum) {
      const proposal = this.pending.shift();
      this.values.set(proposal.key, { approvalSequenceNumber: number, ...proposal });
    }
  }

  putTree() {
    const all = (map) => inOrder([...map.keys()]).map((key) => map.get(key));
    const blobs = {
      attributes: { minimumSequenceNumber: this.minimum, sequenceNumber: this.number },
      quorumMembers: all(this.members), quorumProposals: this.pending, quorumValues: all(this.values),
    };
    return putTree(Object.entries(blobs).map(([name, value]) => ({ name, isTree: false, id: putBlob(print(value)) })));
  }
}

// ---- a document

export class Document {
  messages = [];           // { text, minimum, change }, change being what the quorum looks at
  clients = new Map();     // id to { last, reference, marked, scopes, heard }
  connections = new Set();
  entered = 0;
  counted = 0;
  least = 0;               // the least reference of the joined clients, where isLeastKnown
  isLeastKnown = false;
  waiting = [];            // summarizes that no answer stands behind
  acks = [];               // { handle, number }
  base = new Quorum();     // behind the reference of the last acknowledged summarize
  isDirty = false;
  constructor(name) { this.name = name; }
  get seq() { return this.messages.length; }
  get lastMinimum() { return this.messages.at(-1)?.minimum ?? 0; }
  get isFull() { return this.counted >= ENTRIES; }

  minimum() {
    if (this.clients.size === 0) return this.seq;
    if (!this.isLeastKnown) this.least = this.leastBeside(null, Infinity);
    this.isLeastKnown = true;
    return this.least;
  }

  /** The least of a reference and those of all clients but one. */
  leastBeside(own, reference) {
    for (const row of this.clients.values()) if (row !== own && row.reference < reference) reference = row.reference;
    return reference;
  }

  setReference(row, reference) {
    if (row.reference === this.least || reference < this.least) this.isLeastKnown = false;
    row.reference = reference;
  }

  push(clientId, number, reference, kind, contents, rest = {}, change = undefined) {
    const { data, metadata } = rest;
    const minimum = this.clients.size === 0 ? this.seq + 1 : this.minimum();
    const printed = `{"clientId":${clientId === null ? "null" : `"${clientId}"`},"clientSequenceNumber":${number},` +
      `"contents":${print(contents)},${data === undefined ? "" : `"data":${JSON.stringify(data)},`}` +
      `${metadata === undefined ? "" : `"metadata":${print(metadata)},`}"minimumSequenceNumber":${minimum},` +
      `"referenceSequenceNumber":${reference},"sequenceNumber":${this.seq + 1},"timestamp":${Date.now()},"type":"${kind}"}`;
    this.messages.push({ text: printed, minimum, change });
    if (!this.isDirty) setImmediate(() => this.flush());
    this.isDirty = true;
    return this.seq;
  }

  /** The id and the number of the join. */
  join(scopes, detail, id = `c${this.entered}`) {
    this.entered++;
    this.counted++;
    this.clients.set(id, { last: 0, reference: this.minimum(), marked: false, scopes, heard: Date.now() });
    this.isLeastKnown = false;
    return [id, this.push(null, -1, -1, "join", null, { data: print({ clientId: id, detail }) }, { joined: id, detail })];
  }

  leave(id) {
    this.entered++;
    if (!this.clients.delete(id)) return;
    this.isLeastKnown = false;
    this.push(null, -1, -1, "leave", null, { data: JSON.stringify(id) }, { left: id });
  }

  /** The first case that fits decides. */
  submit(id, s, send) {
    this.entered++;
    this.counted++;
    const row = this.clients.get(id);
    if (row) row.heard = Date.now();
    const nack = (rule) => send(printNack(this.name, NACKS[rule], s, this.minimum()));
    if (row && s.number <= row.last) return; // a duplicate
    if (row && s.number > row.last + 1) return nack("gap");
    if (!row || row.marked) return nack("nonexistent");
    if (s.reference !== -1 && s.reference < this.minimum()) {
      row.last = s.number;
      row.marked = true;
      this.setReference(row, this.minimum());
      return nack("below");
    }
    if (s.reference > this.seq) return nack("ahead");
    if (s.kind === "summarize" && !row.scopes.has("summary:write")) return nack("scope");
    row.last = s.number;
    const seen = s.reference === -1 ? this.seq : s.reference;
    const isAbsorbed = s.kind === "noop" && (s.contents === null || this.leastBeside(row, seen) <= this.lastMinimum);
    const reference = s.reference !== -1 ? s.reference : isAbsorbed ? this.seq : this.seq + 1;
    this.setReference(row, reference);
    if (isAbsorbed) return;
    const { key, value } = (s.kind === "propose" && body(s.contents)) || {};
    const change = typeof key === "string" && value !== undefined ? { key, value } : undefined;
    const number = this.push(id, s.number, reference, s.kind, s.contents, s, change);
    if (s.kind !== "summarize") return;
    this.waiting.push({ number, reference, contents: s.contents });
    setImmediate(() => this.answer());
  }

  /** The scribe: answers the summarizes that wait, the oldest first. */
  answer() {
    while (this.waiting.length) {
      const { number, reference, contents } = this.waiting.shift();
      const said = body(contents), last = this.acks[this.acks.length - 1];
      const isForm = isObject(said) && isId(said.handle) && typeof said.head === "string";
      const message = !isForm ? "summarize contents are malformed"
        : said.head !== (last?.handle ?? "") ? "head is not the last acknowledged summary"
        : reference < (last?.number ?? 0) ? "reference is below the last acknowledged summary"
        : !isComplete(said.handle) ? "summary tree is not stored" : null;
      const summaryProposal = { summarySequenceNumber: number };
      this.entered++;
      if (message !== null) this.push(null, -1, -1, "summaryNack", { code: 400, message, summaryProposal });
      else this.acknowledge(said.handle, reference, summaryProposal);
    }
  }

  acknowledge(app, reference, summaryProposal) {
    while (this.base.number < reference) this.base.apply(this.messages[this.base.number]);
    const protocol = this.base.putTree();
    const handle = putTree([{ name: ".app", isTree: true, id: app }, { name: ".protocol", isTree: true, id: protocol }]);
    this.acks.push({ handle, number: reference });
    this.push(null, -1, -1, "summaryAck", { handle, summaryProposal });
  }

  /** Leaves of those from whom nothing came for five minutes. */
  sweep(moment) {
    const silent = [...this.clients].filter(([, row]) => row.heard < moment - SILENCE);
    for (const id of silent.map(([id]) => id).sort()) this.leave(id);
  }

  /** Sends each connection what it hasn't got; an event is printed once for all who stand at the same number. */
  flush() {
    this.isDirty = false;
    const printed = new Map();
    for (const connection of this.connections) {
      while (connection.next <= this.seq && !connection.isStuck()) {
        let event = printed.get(connection.next);
        if (!event) {
          const some = this.messages.slice(connection.next - 1, connection.next - 1 + OP_MESSAGES);
          const bytes = Buffer.from(`["op","${this.name}",[${some.map((message) => message.text).join(",")}]]`);
          printed.set(connection.next, event = { bytes, next: connection.next + some.length });
        }
        connection.send(event.bytes);
        connection.next = event.next;
      }
    }
  }
}

// ---- connections

const documents = new Map();
const stuck = new Set(); // connections that don't take what waits for them

class Connection {
  document = null;
  id = null;      // its client's, where it writes
  next = 0;       // the number of the next message that it is sent
  unread = 0;     // texts that got a nack of the front
  stuckSince = 0; // the moment from which on it didn't take what waited

  /** `wire` has send(bytes), waiting() in bytes, and end(). */
  constructor(wire) { this.wire = wire; }
  send(event) { this.wire.send(event); }

  isStuck() {
    const isStuck = this.wire.waiting() > WAITING_BYTES;
    if (isStuck !== this.stuckSince > 0) {
      this.stuckSince = isStuck ? Date.now() : 0;
      stuck[isStuck ? "add" : "delete"](this);
      watchStuck();
    }
    return isStuck;
  }

  hear(said) {
    let isRead = false;
    try {
      const [name, event] = readEvent(said);
      isRead = this.document || name === "connect_document" ? this[name](event) : this.refuse(NACKS.notConnected);
    } catch (fault) {
      if (!(fault instanceof Fault)) throw fault;
      this.refuse(bad400(`bad event: ${fault.message}`));
    }
    if (!isRead && ++this.unread >= UNREAD) this.wire.end();
  }

  // of this and what follows the answer is whether the text counts as one that was read
  refuse(nack) { this.send(printNack(this.document?.name ?? "", nack)); return false; }
  tell(event) { this.send(print(event)); return true; }

  connect_document({ id, mode, scopes, client }) {
    const error = (code, message) => this.tell(["connect_document_error", { code, message }]);
    if (this.document) return error(400, "already connected");
    if (!scopes.has("doc:read")) return error(403, "doc:read is missing");
    if (!documents.has(id) && documents.size >= DOCUMENTS) return error(429, "too many documents");
    if (!documents.has(id)) documents.set(id, new Document(id));
    const document = documents.get(id), writes = mode === "write" && scopes.has("doc:write");
    if (writes && document.isFull) return error(429, "document is full");
    if (writes && document.clients.size >= CLIENTS) return error(429, "too many clients");
    this.document = document;
    [this.id, this.next] = writes ? document.join(scopes, client) : [null, document.seq + 1];
    document.connections.add(this);
    return this.tell(["connect_document_success", { checkpointSequenceNumber: this.next - 1, clientId: this.id,
      maxMessageSize: TEXT_BYTES, mode: writes ? "write" : "read", version: "1" }]);
  }

  submitOp({ id, submissions }) {
    if (this.id === null) return this.refuse(NACKS.readOnly);
    if (id !== this.id) return this.refuse(NACKS.foreign);
    let isRead = true;
    for (const submission of submissions) {
      if (this.document.isFull) isRead = this.refuse(NACKS.full);
      else this.document.submit(id, submission, (nack) => this.send(nack));
    }
    return isRead;
  }

  getDeltas({ from, to }) {
    const { messages, seq } = this.document;
    if (from < 1 || from > seq + 1) throw bad("from", "out of range");
    if (to < from || to > seq + 1 || to - from > DELTAS) throw bad("to", "out of range");
    this.send(`["deltas",${from},[${messages.slice(from - 1, to - 1).map((message) => message.text).join(",")}]]`);
    return true;
  }

  getSummary({ pick }) {
    const found = this.document.acks.findLast((ack) => pick === "latest" || ack.handle === pick);
    return this.tell(["summary", found?.handle ?? null, found?.number ?? null]);
  }
  getObject({ id }) { return this.tell(["object", id, objects.get(id)?.toString("hex") ?? null]); }

  putObject({ bytes }) {
    if (!readObject(bytes)) throw bad("object", "not allowed");
    return this.tell(["objectStored", put(bytes)]);
  }

  close() {
    stuck.delete(this);
    watchStuck();
    if (!this.document?.connections.delete(this)) return;
    if (this.id !== null) this.document.leave(this.id);
  }
}

setInterval(() => documents.forEach((document) => document.sweep(Date.now())), 1000);

// Looks after those that are stuck each 20 ms, and not at all while nobody is.
let watch = null;
function watchStuck() {
  if (stuck.size > 0) watch ??= setInterval(lookAfterStuck, 20);
  else { clearInterval(watch); watch = null; }
}

function lookAfterStuck() {
  for (const connection of stuck) {
    if (!connection.isStuck()) connection.document?.flush();
    else if (Date.now() - connection.stuckSince > PATIENCE) connection.wire.end();
  }
}

// ---- sockets

const isOwnOrigin = (origin) => origin === undefined || /^[^:]+:\/\/(localhost|127\.0\.0\.1|\[::1\])(:[0-9]+)?$/.test(origin);

function serveWebSockets(port, tell) {
  const server = new WebSocketServer({ host: "127.0.0.1", port, maxPayload: TEXT_BYTES, backlog: 4096,
    verifyClient: ({ req }, take) => take(isOwnOrigin(req.headers.origin), 403) });
  server.on("listening", () => tell(server.address().port, "WebSockets"));
  server.on("connection", (socket) => {
    const send = (event) => socket.send(event, { binary: false });
    const connection = new Connection({ send, waiting: () => socket.bufferedAmount, end: () => socket.terminate() });
    let pings = 0;
    const beat = setInterval(() => ++pings > 2 ? socket.terminate() : socket.ping(), 30000);
    socket.on("pong", () => { pings = 0; });
    socket.on("message", (data, isBinary) => { pings = 0; isBinary ? socket.close(1003) : connection.hear(data.toString()); });
    socket.on("error", () => {});
    socket.on("close", () => { clearInterval(beat); connection.close(); });
  });
}

function serveLines(port, tell) {
  const server = createServer({ noDelay: true }, (socket) => {
    const send = (event) => { socket.write(event); socket.write("\n"); };
    const connection = new Connection({ send, waiting: () => socket.writableLength, end: () => socket.destroy() });
    let held = "";
    socket.setEncoding("utf8");
    socket.on("data", (data) => {
      const lines = (held + data).split("\n");
      held = lines.pop();
      for (const line of lines) connection.hear(line.endsWith("\r") ? line.slice(0, -1) : line);
      if (held.length > TEXT_BYTES) socket.destroy();
    });
    socket.on("error", () => {});
    socket.on("close", () => connection.close());
  });
  server.listen({ host: "127.0.0.1", port, backlog: 4096 }, () => tell(server.address().port, "lines"));
}

const [port, mode] = process.argv.slice(2);
const tell = (at, what) => process.stderr.write(`listening on 127.0.0.1:${at} for ${what}, by Node\n`);
const serve = mode === "--lines" ? serveLines : serveWebSockets;
if (import.meta.url === pathToFileURL(process.argv[1]).href) serve(Number(port ?? 0), tell);
