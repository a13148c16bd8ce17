//! What answers a report on a summary, by hand: the summarize messages that wait, the order's state at the oldest reference that
//! a summary can still have, what stands behind it, and the ids of versions.
use crate::sha1::{Id, digits, object, tree};
use crate::{Out, body};
use serde_json::Value;
use std::collections::{BTreeMap, VecDeque};

/// So many changes of the minimum are kept before those are dropped that nobody needs.
const LAZY: usize = 1_024;

/// What the order's state hears of a message.
#[derive(Clone)]
pub enum Heard {
    Join { id: String, detail: Value },
    Leave { id: String },
    Propose { key: String, value: Value },
}

struct Change {
    number: u64,
    minimum: u64,
    heard: Option<Heard>,
}

struct Proposal {
    key: String,
    number: u64,
    value: Value,
}

#[derive(Clone)]
struct Accepted {
    number: u64,
    approval: u64,
    value: Value,
}

/// The state of the first messages of the order.
#[derive(Default)]
struct State {
    number: u64,
    minimum: u64,
    members: BTreeMap<String, (Value, u64)>,
    proposals: VecDeque<Proposal>,
    values: BTreeMap<String, Accepted>,
}

impl State {
    fn copy(&self) -> State {
        let copied = |one: &Proposal| Proposal { key: one.key.clone(), number: one.number, value: one.value.clone() };
        State {
            number: self.number,
            minimum: self.minimum,
            members: self.members.clone(),
            proposals: self.proposals.iter().map(copied).collect(),
            values: self.values.clone(),
        }
    }

    fn take(&mut self, change: &Change) {
        match &change.heard {
            Some(Heard::Join { id, detail }) => {
                self.members.insert(id.clone(), (detail.clone(), change.number));
            }
            Some(Heard::Leave { id }) => {
                self.members.remove(id);
            }
            Some(Heard::Propose { key, value }) => {
                self.proposals.push_back(Proposal { key: key.clone(), number: change.number, value: value.clone() });
            }
            None => {}
        }
        self.minimum = change.minimum;
        while self.proposals.front().is_some_and(|first| first.number <= change.minimum) {
            if let Some(Proposal { key, number, value }) = self.proposals.pop_front() {
                self.values.insert(key, Accepted { number, approval: change.number, value });
            }
        }
    }

    /// The id of the tree of its four blobs.
    fn id(&self) -> Id {
        let mut out = Out::default();
        out.put("{\"minimumSequenceNumber\":");
        out.number(self.minimum);
        out.put(",\"sequenceNumber\":");
        out.number(self.number);
        out.put("}");
        let attributes = object("blob", &out.bytes);
        let members = listed(self.members.iter(), |out, (id, (detail, number))| {
            out.put("{\"clientId\":\"");
            out.put(id);
            out.put("\",\"detail\":");
            out.value(detail);
            out.put(",\"sequenceNumber\":");
            out.number(*number);
        });
        let proposals = listed(self.proposals.iter(), |out, one| {
            out.put("{\"key\":");
            out.text(&one.key);
            out.put(",\"sequenceNumber\":");
            out.number(one.number);
            out.put(",\"value\":");
            out.value(&one.value);
        });
        let values = listed(self.values.iter(), |out, (key, one)| {
            out.put("{\"approvalSequenceNumber\":");
            out.number(one.approval);
            out.put(",\"key\":");
            out.text(key);
            out.put(",\"sequenceNumber\":");
            out.number(one.number);
            out.put(",\"value\":");
            out.value(&one.value);
        });
        let names = ["attributes", "quorumMembers", "quorumProposals", "quorumValues"];
        let blobs = [attributes, members, proposals, values];
        tree(names.iter().zip(&blobs).map(|(name, id)| ("100644", *name, id)))
    }
}

/// The id of the blob of a list, whose objects are written up to their end.
fn listed<T>(items: impl Iterator<Item = T>, write: impl Fn(&mut Out, T)) -> Id {
    let mut out = Out::default();
    out.put("[");
    for (at, item) in items.enumerate() {
        out.put(if at == 0 { "" } else { "," });
        write(&mut out, item);
        out.put("}");
    }
    out.put("]");
    object("blob", &out.bytes)
}

struct Summarize {
    number: u64,
    reference: u64,
    contents: Value,
}

/// What becomes of a report.
pub enum Answer {
    Dropped,
    Ack(String),
    Refused(&'static str),
}

#[derive(Default)]
pub struct Scribe {
    base: State,
    behind: VecDeque<Change>,
    tidied: usize,
    waiting: VecDeque<Summarize>,
    /// How many wait at each reference.
    references: BTreeMap<u64, usize>,
    /// The minimum of the last message.
    minimum: u64,
    /// The handle of the last acknowledged summary, and the reference of its summarize.
    last: Option<(String, u64)>,
}

impl Scribe {
    /// A message of the order that asks for no summary.
    pub fn hear(&mut self, number: u64, minimum: u64, heard: Option<Heard>) {
        if heard.is_some() || minimum != self.minimum {
            self.minimum = minimum;
            self.behind.push_back(Change { number, minimum, heard });
            if self.behind.len() > 2 * self.tidied + LAZY {
                self.tidy();
                self.tidied = self.behind.len();
            }
        }
    }

    /// A summarize of the order.
    pub fn wait(&mut self, number: u64, reference: u64, minimum: u64, contents: Value) {
        self.hear(number, minimum, None);
        *self.references.entry(reference).or_insert(0) += 1;
        self.waiting.push_back(Summarize { number, reference, contents });
    }

    /// Takes into the base what no summary can refer to any more.
    fn tidy(&mut self) {
        let least = self.references.keys().next().map_or(self.minimum, |least| self.minimum.min(*least));
        while self.behind.front().is_some_and(|first| first.number <= least) {
            if let Some(change) = self.behind.pop_front() {
                self.base.take(&change);
            }
        }
        self.base.number = least;
    }

    /// The id of the order's state at this number.
    fn state_at(&mut self, number: u64) -> Id {
        self.tidy();
        if self.base.number == number {
            return self.base.id();
        }
        let mut state = self.base.copy();
        self.behind.iter().take_while(|change| change.number <= number).for_each(|change| state.take(change));
        state.number = number;
        state.id()
    }

    /// The answer to a report on a summary, whose message is the next one of the order.
    pub fn answer(&mut self, summary: u64, found: bool) -> Answer {
        if self.waiting.front().is_none_or(|first| first.number != summary) {
            return Answer::Dropped;
        }
        let Some(Summarize { reference, contents, .. }) = self.waiting.pop_front() else {
            return Answer::Dropped;
        };
        let answer = self.judge(reference, contents, found);
        if let Some(count) = self.references.get_mut(&reference) {
            *count -= 1;
            if *count == 0 {
                self.references.remove(&reference);
            }
        }
        answer
    }

    fn judge(&mut self, reference: u64, contents: Value, found: bool) -> Answer {
        let contents = body(contents);
        let app = contents.get("handle").and_then(Value::as_str).and_then(read_id);
        let head = contents.get("head").and_then(Value::as_str);
        let (Some(app), Some(head)) = (app, head) else {
            return Answer::Refused("summarize contents are malformed");
        };
        if head != self.last.as_ref().map_or("", |(handle, _)| handle) {
            return Answer::Refused("head is not the last acknowledged summary");
        }
        if self.last.as_ref().is_some_and(|(_, before)| reference < *before) {
            return Answer::Refused("reference is below the last acknowledged summary");
        }
        if !found {
            return Answer::Refused("summary tree is not stored");
        }
        let protocol = self.state_at(reference);
        let version = tree([("40000", ".app", &app), ("40000", ".protocol", &protocol)].into_iter());
        let handle = digits(&version);
        self.last = Some((handle.clone(), reference));
        Answer::Ack(handle)
    }
}

/// The id of 40 lower-case hexadecimal digits.
fn read_id(text: &str) -> Option<Id> {
    let digit = |byte: u8| match byte {
        b'0'..=b'9' => Some(byte - b'0'),
        b'a'..=b'f' => Some(byte - b'a' + 10),
        _ => None,
    };
    let mut id = [0; 20];
    if text.len() != 40 {
        return None;
    }
    for (byte, pair) in id.iter_mut().zip(text.as_bytes().chunks_exact(2)) {
        *byte = digit(pair[0])? << 4 | digit(pair[1])?;
    }
    Some(id)
}
