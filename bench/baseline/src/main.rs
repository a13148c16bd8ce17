//! The sequencer of `fluidd sequence`, written by hand in plain Rust over serde_json: raw records of one document
//! on standard input, one verdict line for each on standard output. It is what the proved program is measured against,
//! and an independent reading of the same rules: both must write the same bytes. `scribe` answers reports; `sha1` has ids.
//!
//! It is tuned: lines are found by memchr and read where they stand in the input's buffer, members are taken out of an object
//! in one pass, ids are hashed by few steps, and output goes straight into one buffer.
mod scribe;
mod sha1;

use memchr::memchr;
use scribe::{Answer, Heard, Scribe};
use serde_json::{Map, Value, json};
use std::collections::{BTreeMap, HashMap};
use std::hash::{BuildHasherDefault, Hasher};
use std::io::{self, BufRead, BufReader, Write};
use std::process::ExitCode;

/// What goes out at once.
const BLOCK: usize = 65_536;

const LINE_BYTES: usize = 1_048_576;
const LINES: u64 = 16_777_216;
const ENTRIES: u64 = 4_194_304;
const CLIENTS: usize = 1_024;
const DEPTH: usize = 100;
const GREATEST: i64 = (1 << 53) - 1;
const DROPPED: &str = "{\"dropped\":true}\n";

/// Why a line is refused, as its text.
type Why = String;

struct Submission {
    number: i64,
    reference: i64,
    kind: &'static str,
    contents: Value,
    metadata: Option<Value>,
}

struct Scopes {
    summary: bool,
}

enum Raw {
    Join { id: String, scopes: Scopes, detail: Value, moment: i64 },
    Leave { id: String, moment: i64 },
    Submit { id: String, submission: Submission, moment: i64 },
    Report { summary: i64, found: bool, moment: i64 },
}

struct Row {
    last: i64,
    reference: u64,
    nacked: bool,
    scopes: Scopes,
}

/// A fast hash of short texts: eight bytes at a time are turned and multiplied.
#[derive(Default)]
struct Fast {
    hash: u64,
}

impl Fast {
    fn add(&mut self, word: u64) {
        self.hash = (self.hash.rotate_left(5) ^ word).wrapping_mul(0x51_7c_c1_b7_27_22_0a_95);
    }
}

impl Hasher for Fast {
    fn write(&mut self, bytes: &[u8]) {
        let mut words = bytes.chunks_exact(8);
        for word in &mut words {
            self.add(u64::from_le_bytes(word.try_into().unwrap()));
        }
        let mut last = [0; 8];
        let rest = words.remainder();
        last[..rest.len()].copy_from_slice(rest);
        self.add(u64::from_le_bytes(last));
    }

    fn write_u8(&mut self, byte: u8) {
        self.add(u64::from(byte));
    }

    fn finish(&self) -> u64 {
        self.hash
    }
}

/// The joined clients, with a count of clients for each reference so that the least one is at hand.
#[derive(Default)]
struct Clients {
    rows: HashMap<String, Row, BuildHasherDefault<Fast>>,
    references: BTreeMap<u64, usize>,
}

impl Clients {
    fn take(&mut self, reference: u64) {
        if let Some(count) = self.references.get_mut(&reference) {
            *count -= 1;
            if *count == 0 {
                self.references.remove(&reference);
            }
        }
    }

    fn put(&mut self, reference: u64) {
        *self.references.entry(reference).or_insert(0) += 1;
    }

    fn minimum(&self) -> Option<u64> {
        self.references.keys().next().copied()
    }
}

struct Message<'a> {
    client: Option<&'a str>,
    client_number: i64,
    contents: &'a Value,
    data: Option<String>,
    metadata: Option<&'a Value>,
    minimum: u64,
    reference: i64,
    number: u64,
    timestamp: i64,
    kind: &'static str,
}

/// Output, which is written in blocks.
#[derive(Default)]
struct Out {
    bytes: Vec<u8>,
}

impl Out {
    fn put(&mut self, text: &str) {
        self.bytes.extend_from_slice(text.as_bytes());
    }

    fn number<N: itoa::Integer>(&mut self, number: N) {
        self.put(itoa::Buffer::new().format(number));
    }

    fn value(&mut self, value: &Value) {
        serde_json::to_writer(&mut self.bytes, value).expect("a vector takes all");
    }

    fn text(&mut self, text: &str) {
        serde_json::to_writer(&mut self.bytes, text).expect("a vector takes all");
    }

    fn flush(&mut self) -> io::Result<()> {
        io::stdout().lock().write_all(&self.bytes)?;
        self.bytes.clear();
        Ok(())
    }

    /// A line with a message. A client's id needs no escapes.
    fn sequenced(&mut self, message: &Message) {
        match message.client {
            Some(id) => {
                self.put("{\"sequenced\":{\"clientId\":\"");
                self.put(id);
                self.put("\",\"clientSequenceNumber\":");
            }
            None => self.put("{\"sequenced\":{\"clientId\":null,\"clientSequenceNumber\":"),
        }
        self.number(message.client_number);
        self.put(",\"contents\":");
        self.value(message.contents);
        if let Some(data) = &message.data {
            self.put(",\"data\":");
            self.text(data);
        }
        if let Some(metadata) = message.metadata {
            self.put(",\"metadata\":");
            self.value(metadata);
        }
        self.put(",\"minimumSequenceNumber\":");
        self.number(message.minimum);
        self.put(",\"referenceSequenceNumber\":");
        self.number(message.reference);
        self.put(",\"sequenceNumber\":");
        self.number(message.number);
        self.put(",\"timestamp\":");
        self.number(message.timestamp);
        self.put(",\"type\":\"");
        self.put(message.kind);
        self.put("\"}}\n");
    }

    fn nacked(&mut self, id: &str, nack: (u32, &str, &str), operation: &Submission, minimum: u64) {
        let (code, kind, text) = nack;
        self.put("{\"clientId\":\"");
        self.put(id);
        self.put("\",\"nacked\":{\"content\":{\"code\":");
        self.number(code);
        self.put(",\"message\":\"");
        self.put(text);
        self.put("\",\"type\":\"");
        self.put(kind);
        self.put("\"},\"operation\":{\"clientSequenceNumber\":");
        self.number(operation.number);
        self.put(",\"contents\":");
        self.value(&operation.contents);
        if let Some(metadata) = &operation.metadata {
            self.put(",\"metadata\":");
            self.value(metadata);
        }
        self.put(",\"referenceSequenceNumber\":");
        self.number(operation.reference);
        self.put(",\"type\":\"");
        self.put(operation.kind);
        self.put("\"},\"sequenceNumber\":");
        self.number(minimum);
        self.put("}}\n");
    }
}

/// Whether brackets outside strings ever stand more than `DEPTH` deep.
fn too_deep(text: &str) -> bool {
    let bytes = text.as_bytes();
    if bytes.iter().filter(|b| matches!(b, b'[' | b'{')).count() <= DEPTH {
        return false;
    }
    let (mut depth, mut inside, mut at) = (0usize, false, 0usize);
    while at < bytes.len() {
        match (inside, bytes[at]) {
            (false, b'"') => inside = true,
            (true, b'"') => inside = false,
            (true, b'\\') => at += 1,
            (false, b'[' | b'{') => {
                depth += 1;
                if depth > DEPTH {
                    return true;
                }
            }
            (false, b']' | b'}') => depth = depth.saturating_sub(1),
            _ => {}
        }
        at += 1;
    }
    false
}

fn all_whole(value: &Value) -> bool {
    match value {
        Value::Number(number) => number.is_i64(),
        Value::Array(items) => items.iter().all(all_whole),
        Value::Object(members) => members.values().all(all_whole),
        _ => true,
    }
}

fn fault(field: &str, what: &str) -> Why {
    format!("bad field {field}: {what}")
}

/// The values of these members, taken out of an object in one pass.
fn open<const N: usize>(object: Map<String, Value>, names: [&str; N]) -> [Option<Value>; N] {
    let mut values = [const { None }; N];
    for (name, value) in object {
        if let Some(at) = names.iter().position(|known| *known == name) {
            values[at] = Some(value);
        }
    }
    values
}

fn present(value: Option<Value>, field: &str) -> Result<Value, Why> {
    value.ok_or_else(|| fault(field, "missing"))
}

fn is_name(text: &str) -> bool {
    (1..=64).contains(&text.len()) && text.bytes().all(|b| b.is_ascii_alphanumeric() || b == b'_' || b == b'-')
}

fn text(value: Option<Value>, field: &str) -> Result<String, Why> {
    match present(value, field)? {
        Value::String(text) => Ok(text),
        _ => Err(fault(field, "not a text")),
    }
}

fn name(value: Option<Value>) -> Result<String, Why> {
    let text = text(value, "clientId")?;
    if is_name(&text) { Ok(text) } else { Err(fault("clientId", "bad name")) }
}

fn whole(value: Option<Value>, field: &str, least: i64) -> Result<i64, Why> {
    match present(value, field)?.as_i64() {
        None => Err(fault(field, "not a whole number")),
        Some(number) if number < least || number > GREATEST => Err(fault(field, "out of range")),
        Some(number) => Ok(number),
    }
}

fn scopes(value: Option<Value>) -> Result<Scopes, Why> {
    let Value::Array(items) = present(value, "scopes")? else {
        return Err(fault("scopes", "not a list"));
    };
    let mut scopes = Scopes { summary: false };
    for item in &items {
        match item {
            Value::String(scope) => scopes.summary |= scope == "summary:write",
            _ => return Err(fault("scopes", "not a text")),
        }
    }
    Ok(scopes)
}

fn submission(value: Value) -> Result<Submission, Why> {
    let Value::Object(object) = value else {
        return Err(fault("operation", "not an object"));
    };
    let names = ["clientSequenceNumber", "contents", "metadata", "referenceSequenceNumber", "type"];
    let [number, contents, metadata, reference, kind] = open(object, names);
    let number = whole(number, "clientSequenceNumber", 0)?;
    let contents = contents.unwrap_or(Value::Null);
    let reference = whole(reference, "referenceSequenceNumber", -1)?;
    let kind = match text(kind, "type")?.as_str() {
        "op" => "op",
        "noop" => "noop",
        "propose" => "propose",
        "reject" => "reject",
        "summarize" => "summarize",
        _ => return Err(fault("type", "not allowed")),
    };
    Ok(Submission { number, reference, kind, contents, metadata })
}

fn read(line: &str) -> Result<Raw, Why> {
    if too_deep(line) {
        return Err("nested too deep".into());
    }
    let value: Value = serde_json::from_str(line).map_err(|_| "not JSON".to_string())?;
    if !all_whole(&value) {
        return Err("a number is not whole".into());
    }
    let Value::Object(object) = value else {
        return Err(fault("raw", "not an object"));
    };
    let names = ["clientId", "detail", "found", "moment", "operation", "raw", "scopes", "summary"];
    let [id, detail, found, moment, operation, raw, held, summary] = open(object, names);
    match text(raw, "raw")?.as_str() {
        "join" => {
            let id = name(id)?;
            let detail = detail.unwrap_or(Value::Null);
            let moment = whole(moment, "moment", 0)?;
            let scopes = scopes(held)?;
            Ok(Raw::Join { id, scopes, detail, moment })
        }
        "leave" => {
            let id = name(id)?;
            let moment = whole(moment, "moment", 0)?;
            Ok(Raw::Leave { id, moment })
        }
        "submit" => {
            let id = name(id)?;
            let moment = whole(moment, "moment", 0)?;
            let submission = submission(present(operation, "operation")?)?;
            Ok(Raw::Submit { id, submission, moment })
        }
        "report" => {
            let found = match present(found, "found")? {
                Value::Bool(found) => found,
                _ => return Err(fault("found", "not a truth value")),
            };
            let moment = whole(moment, "moment", 0)?;
            let summary = whole(summary, "summary", 1)?;
            Ok(Raw::Report { summary, found, moment })
        }
        _ => Err(fault("raw", "not allowed")),
    }
}

/// The value for which contents stand: where they are a text that is JSON of this profile, that which it spells.
fn body(contents: Value) -> Value {
    match &contents {
        Value::String(text) if !too_deep(text) => match serde_json::from_str(text) {
            Ok(value) if all_whole(&value) => value,
            _ => contents,
        },
        _ => contents,
    }
}

/// What the order's state hears of a propose.
fn proposed(contents: Value) -> Option<Heard> {
    let Value::Object(object) = body(contents) else {
        return None;
    };
    match open(object, ["key", "value"]) {
        [Some(Value::String(key)), Some(value)] => Some(Heard::Propose { key, value }),
        _ => None,
    }
}

#[derive(Default)]
struct Document {
    number: u64,
    minimum: u64,
    /// The minimum of the last message.
    last_minimum: u64,
    counted: u64,
    clients: Clients,
    scribe: Scribe,
}

impl Document {
    fn minimum_now(&self) -> u64 {
        self.clients.minimum().unwrap_or(self.number)
    }

    fn enter(&mut self, raw: Raw, out: &mut Out) -> Result<(), Why> {
        match raw {
            Raw::Report { summary, found, moment } => self.report(summary as u64, found, moment, out),
            Raw::Join { .. } | Raw::Submit { .. } if self.counted >= ENTRIES => {
                return Err("document is full".into())
            }
            Raw::Join { id, scopes, detail, moment } => {
                if self.clients.rows.contains_key(&id) {
                    self.counted += 1;
                    out.put(DROPPED);
                    return Ok(());
                }
                if self.clients.rows.len() >= CLIENTS {
                    return Err("too many clients".into());
                }
                self.counted += 1;
                self.number += 1;
                let data = format!("{{\"clientId\":\"{id}\",\"detail\":{detail}}}");
                self.clients.put(self.minimum);
                let row = Row { last: 0, reference: self.minimum, nacked: false, scopes };
                self.clients.rows.insert(id.clone(), row);
                self.minimum = self.minimum_now();
                self.scribe.hear(self.number, self.minimum, Some(Heard::Join { id, detail }));
                self.system(out, &Value::Null, Some(data), moment, "join");
            }
            Raw::Leave { id, moment } => {
                let Some(row) = self.clients.rows.remove(&id) else {
                    out.put(DROPPED);
                    return Ok(());
                };
                self.clients.take(row.reference);
                self.number += 1;
                self.minimum = self.minimum_now();
                let data = format!("\"{id}\"");
                self.scribe.hear(self.number, self.minimum, Some(Heard::Leave { id }));
                self.system(out, &Value::Null, Some(data), moment, "leave");
            }
            Raw::Submit { id, submission, moment } => {
                self.counted += 1;
                self.submit(id, submission, moment, out);
            }
        }
        Ok(())
    }

    fn report(&mut self, summary: u64, found: bool, moment: i64, out: &mut Out) {
        let proposal = json!({"summarySequenceNumber": summary});
        let (contents, kind) = match self.scribe.answer(summary, found) {
            Answer::Dropped => return out.put(DROPPED),
            Answer::Ack(handle) => (json!({"handle": handle, "summaryProposal": proposal}), "summaryAck"),
            Answer::Refused(text) => (json!({"code": 400, "message": text, "summaryProposal": proposal}), "summaryNack"),
        };
        self.number += 1;
        self.minimum = self.minimum_now();
        self.scribe.hear(self.number, self.minimum, None);
        self.system(out, &contents, None, moment, kind);
    }

    fn system(&mut self, out: &mut Out, contents: &Value, data: Option<String>, timestamp: i64, kind: &'static str) {
        self.last_minimum = self.minimum;
        let message = Message {
            client: None,
            client_number: -1,
            contents,
            data,
            metadata: None,
            minimum: self.minimum,
            reference: -1,
            number: self.number,
            timestamp,
            kind,
        };
        out.sequenced(&message);
    }

    fn submit(&mut self, id: String, operation: Submission, moment: i64, out: &mut Out) {
        let (seq, minimum) = (self.number, self.minimum);
        let (code, kind, message) = match self.clients.rows.get_mut(&id) {
            Some(row) if operation.number <= row.last => {
                return out.put(DROPPED);
            }
            Some(row) if operation.number > row.last + 1 => {
                (400, "BadRequestError", "Gap in client sequence numbers")
            }
            None => (400, "BadRequestError", "Nonexistent client"),
            Some(row) if row.nacked => (400, "BadRequestError", "Nonexistent client"),
            Some(row) if operation.reference != -1 && (operation.reference as u64) < minimum => {
                let before = row.reference;
                row.last = operation.number;
                row.reference = minimum;
                row.nacked = true;
                self.clients.take(before);
                self.clients.put(minimum);
                (400, "BadRequestError", "Reference below the minimum")
            }
            Some(_) if operation.reference != -1 && operation.reference as u64 > seq => {
                (400, "BadRequestError", "Reference ahead of the order")
            }
            Some(row) if operation.kind == "summarize" && !row.scopes.summary => {
                (403, "InvalidScopeError", "summary:write is missing")
            }
            Some(row) => {
                let mut reference = if operation.reference == -1 { seq } else { operation.reference as u64 };
                let before = row.reference;
                row.last = operation.number;
                row.reference = reference;
                self.clients.take(before);
                self.clients.put(reference);
                if operation.kind == "noop" {
                    let lifted = self.minimum_now();
                    if operation.contents.is_null() || lifted <= self.last_minimum {
                        self.minimum = lifted;
                        return out.put("{\"absorbed\":true}\n");
                    }
                }
                self.number += 1;
                if operation.reference == -1 {
                    self.clients.take(reference);
                    reference = self.number;
                    self.clients.put(reference);
                    if let Some(row) = self.clients.rows.get_mut(&id) {
                        row.reference = reference;
                    }
                }
                self.minimum = self.minimum_now();
                self.last_minimum = self.minimum;
                let message = Message {
                    client: Some(&id),
                    client_number: operation.number,
                    contents: &operation.contents,
                    data: None,
                    metadata: operation.metadata.as_ref(),
                    minimum: self.minimum,
                    reference: reference as i64,
                    number: self.number,
                    timestamp: moment,
                    kind: operation.kind,
                };
                out.sequenced(&message);
                let (number, minimum) = (self.number, self.minimum);
                return match operation.kind {
                    "summarize" => self.scribe.wait(number, reference, minimum, operation.contents),
                    "propose" => self.scribe.hear(number, minimum, proposed(operation.contents)),
                    _ => self.scribe.hear(number, minimum, None),
                };
            }
        };
        out.nacked(&id, (code, kind, message), &operation, minimum);
    }
}

/// What becomes of the line of this number, which has no end any more.
fn take(document: &mut Document, out: &mut Out, number: u64, line: &[u8]) -> Result<(), Why> {
    if line.len() > LINE_BYTES {
        return Err("too long".into());
    }
    let Ok(text) = std::str::from_utf8(line) else {
        return Err("not UTF-8".into());
    };
    if number > LINES {
        return Err("too many lines".into());
    }
    if text.is_empty() {
        return Ok(());
    }
    document.enter(read(text)?, out)
}

/// The next line, with its end. It stands in the input's buffer, or in `parts` where the buffer has a part of it alone. Behind it
/// so many bytes of the buffer are to be passed over.
fn next<'a, R: BufRead>(input: &'a mut R, parts: &'a mut Vec<u8>) -> io::Result<(&'a [u8], usize)> {
    parts.clear();
    let whole = memchr(b'\n', input.fill_buf()?);
    if let Some(end) = whole {
        return Ok((&input.fill_buf()?[..=end], end + 1));
    }
    input.read_until(b'\n', parts)?;
    Ok((parts, 0))
}

fn run() -> io::Result<u8> {
    let mut input = BufReader::with_capacity(BLOCK, io::stdin().lock());
    let mut out = Out::default();
    let mut document = Document::default();
    let mut parts = Vec::new();
    let mut number = 0;
    loop {
        let (mut line, passed) = next(&mut input, &mut parts)?;
        if line.is_empty() {
            break;
        }
        number += 1;
        if let Some(rest) = line.strip_suffix(b"\n") {
            line = rest.strip_suffix(b"\r").unwrap_or(rest);
        }
        if let Err(why) = take(&mut document, &mut out, number, line) {
            out.put(&format!("bad line {number}: {why}\n"));
            out.flush()?;
            return Ok(3);
        }
        input.consume(passed);
        if out.bytes.len() >= BLOCK {
            out.flush()?;
        }
    }
    out.flush()?;
    Ok(0)
}

fn main() -> ExitCode {
    match run() {
        Ok(status) => ExitCode::from(status),
        Err(_) => ExitCode::from(5),
    }
}
