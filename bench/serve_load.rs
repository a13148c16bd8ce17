//! A load generator for the service: writers and listeners over WebSockets or lines, which check what they are sent.
//!
//!     rustc -O serve_load.rs && ./serve_load PORT [WORD VALUE].. [--lines]
//!
//! | Word | Value | Else |
//! |---|---|---|
//! | `--connections` | how many | 8 |
//! | `--writers` | how many of them write | all |
//! | `--documents` | over how many documents they are spread, one after another | 1 |
//! | `--seconds`, `--warm` | how long it is measured, and how long it writes before that | 5, 1 |
//! | `--rate` | operations a second of all together, whatever comes back (an open loop) | each sends again when its own came |
//! | `--listeners` | `read` or `write`: the mode in which the others connect | `read` |
//! | `--threads` | of this program | 1 |
//! | `--pid` | the server's, to read its processor time and memory | none |
//! | `--name` | what the documents' names begin with | `load` |
//!
//! Each connection has to be sent its document's messages by numbers that rise by one. Behind the measured time all that was
//! sent has to come back, and each connection has to come to the last number of its document; a nack, a wrong number, a lost
//! line or two minutes without that end the run with status 1. One object of JSON says what was measured; times are in
//! milliseconds, from the send (in an open loop from when it was due) to the read at another connection.
use std::fs;
use std::io::{ErrorKind, Read, Write};
use std::net::TcpStream;
use std::os::fd::{AsRawFd, RawFd};
use std::process::exit;
use std::sync::atomic::{AtomicU64, Ordering::SeqCst};
use std::sync::Barrier;
use std::thread;
use std::time::{Duration, Instant};

// ---- waiting for many sockets; the C library is linked to every program

#[repr(C)]
#[cfg_attr(target_arch = "x86_64", repr(packed))]
#[derive(Clone, Copy)]
struct Event {
    events: u32,
    data: u64,
}

#[repr(C)]
struct PollFd {
    fd: i32,
    events: i16,
    revents: i16,
}

#[repr(C)]
struct Timespec {
    seconds: i64,
    nanos: i64,
}

extern "C" {
    fn epoll_create1(flags: i32) -> i32;
    fn epoll_ctl(epoll: i32, what: i32, fd: i32, event: *mut Event) -> i32;
    fn epoll_wait(epoll: i32, events: *mut Event, most: i32, millis: i32) -> i32;
    fn ppoll(fds: *mut PollFd, count: u64, limit: *const Timespec, mask: *const u8) -> i32;
    fn memmem(text: *const u8, size: usize, what: *const u8, length: usize) -> *const u8;
}

const IN: u32 = 1;

struct Poll(RawFd);

impl Poll {
    fn new() -> Poll {
        // it takes no pointer, and its answer is looked at
        let fd = unsafe { epoll_create1(0) };
        demand(fd >= 0, "epoll can't be had");
        Poll(fd)
    }

    fn add(&self, fd: RawFd, place: usize) {
        let mut event = Event { events: IN, data: place as u64 };
        let done = unsafe { epoll_ctl(self.0, 1, fd, &mut event) };
        demand(done == 0, "a socket can't be waited for");
    }

    /// The places of the sockets that have something, after at most so long.
    fn wait(&self, limit: Duration, ready: &mut Vec<usize>) {
        let mut own = PollFd { fd: self.0, events: 1, revents: 0 };
        let time = Timespec { seconds: limit.as_secs() as i64, nanos: i64::from(limit.subsec_nanos()) };
        let mut events = [Event { events: 0, data: 0 }; 256];
        let count = unsafe {
            ppoll(&mut own, 1, &time, std::ptr::null());
            epoll_wait(self.0, events.as_mut_ptr(), events.len() as i32, 0)
        };
        ready.clear();
        ready.extend(events.iter().take(count.max(0) as usize).map(|event| { event.data } as usize));
    }
}

// ---- words

fn demand(holds: bool, what: &str) {
    if !holds {
        eprintln!("serve_load: {what}");
        exit(1);
    }
}

#[derive(Clone)]
struct Plan {
    port: u16,
    connections: usize,
    writers: usize,
    documents: usize,
    seconds: f64,
    warm: f64,
    rate: f64,
    is_read: bool,
    is_lines: bool,
    threads: usize,
    pid: String,
    name: String,
}

fn plan() -> Plan {
    let mut words: Vec<String> = std::env::args().skip(1).collect();
    let is_lines = words.iter().any(|word| word == "--lines");
    words.retain(|word| word != "--lines");
    demand(words.len() % 2 == 1, "its words are PORT, pairs of a word and its value, and --lines");
    let value = |name: &str, other: &str| -> String {
        let at = words.iter().position(|word| word == name);
        at.and_then(|at| words.get(at + 1)).map_or(other.to_string(), String::clone)
    };
    let number = |name: &str, other: f64| -> f64 {
        let text = value(name, &other.to_string());
        text.parse().unwrap_or_else(|_| {
            demand(false, &format!("{name} {text} is no number"));
            0.0
        })
    };
    let connections = number("--connections", 8.0) as usize;
    Plan {
        port: words[0].parse().unwrap_or(0),
        connections,
        writers: (number("--writers", connections as f64) as usize).min(connections),
        documents: (number("--documents", 1.0) as usize).max(1),
        seconds: number("--seconds", 5.0),
        warm: number("--warm", 1.0),
        rate: number("--rate", 0.0),
        is_read: value("--listeners", "read") == "read",
        is_lines,
        threads: (number("--threads", 1.0) as usize).max(1),
        pid: value("--pid", ""),
        name: value("--name", "load"),
    }
}

// ---- texts

/// Where the first such bytes behind a place end.
fn find(text: &[u8], what: &[u8], from: usize) -> Option<usize> {
    let rest = text.get(from..)?;
    // it reads the bytes of both slices, and answers a place in the first
    let found = unsafe { memmem(rest.as_ptr(), rest.len(), what.as_ptr(), what.len()) };
    (!found.is_null()).then(|| from + (found as usize - rest.as_ptr() as usize) + what.len())
}

fn digits(text: &[u8], from: usize) -> u64 {
    let own = text[from..].iter().take_while(|byte| byte.is_ascii_digit());
    own.fold(0, |number, byte| number * 10 + u64::from(byte - b'0'))
}

/// How long something that is to come may take.
const PATIENCE: Duration = Duration::from_secs(120);

/// How many nanoseconds each delivery took, by powers of two with 64 parts each.
struct Times {
    counts: Vec<u64>,
    most: u64,
}

impl Times {
    fn new() -> Times {
        Times { counts: vec![0; 64 * 64], most: 0 }
    }

    fn add(&mut self, nanos: u64) {
        let shift = 58_u32.saturating_sub(nanos.leading_zeros());
        self.counts[(shift as usize) * 64 + (nanos >> shift) as usize] += 1;
        self.most = self.most.max(nanos);
    }

    fn join(&mut self, other: &Times) {
        for (own, more) in self.counts.iter_mut().zip(&other.counts) {
            *own += more;
        }
        self.most = self.most.max(other.most);
    }

    /// The time, in milliseconds, that a share of the deliveries didn't pass.
    fn share(&self, share: f64) -> f64 {
        let mut left = (self.counts.iter().sum::<u64>() as f64 * share) as u64;
        for (at, count) in self.counts.iter().enumerate() {
            if *count > left {
                return (((at % 64) as u64) << (at / 64)) as f64 / 1e6;
            }
            left -= count;
        }
        self.most as f64 / 1e6
    }
}

// ---- a connection

#[derive(PartialEq)]
enum Stage {
    Greeting,
    Asking,
    Connected,
}

struct Connection {
    stream: TcpStream,
    stage: Stage,
    held: Vec<u8>,
    waiting: Vec<u8>,
    document: usize,
    is_writer: bool,
    id: Vec<u8>,
    last: u64,
    submitted: u64,
    returned: u64,
    mask: u32,
}

/// What a thread saw.
struct Tally {
    operations: u64,
    deliveries: u64,
    times: Times,
}

struct Worker<'a> {
    plan: &'a Plan,
    start: Instant,
    newest: &'a [AtomicU64],
    poll: Poll,
    connections: Vec<Connection>,
    connected: usize,
    window: (u64, u64),
    tally: Tally,
    scratch: Vec<u8>,
}

impl Worker<'_> {
    fn nanos(&self) -> u64 {
        self.start.elapsed().as_nanos() as u64
    }

    fn open(&mut self, number: usize) {
        let stream = TcpStream::connect(("127.0.0.1", self.plan.port));
        demand(stream.is_ok(), "it can't connect");
        let Ok(stream) = stream else { return };
        let _ = stream.set_nodelay(true);
        let _ = stream.set_nonblocking(true);
        let place = self.connections.len();
        self.poll.add(stream.as_raw_fd(), place);
        self.connections.push(Connection {
            stream,
            stage: Stage::Greeting,
            held: Vec::new(),
            waiting: Vec::new(),
            document: number % self.plan.documents,
            is_writer: number < self.plan.writers,
            id: Vec::new(),
            last: 0,
            submitted: 0,
            returned: 0,
            mask: 0x9E37_79B9 ^ number as u32,
        });
        if self.plan.is_lines {
            self.greet(place);
        } else {
            let head = "GET / HTTP/1.1\r\nHost: 127.0.0.1\r\nUpgrade: websocket\r\nConnection: Upgrade\r\n\
                        Sec-WebSocket-Version: 13\r\nSec-WebSocket-Key: dGhlIHNhbXBsZSBub25jZQ==\r\n\r\n";
            self.write(place, head.as_bytes());
        }
    }

    fn greet(&mut self, place: usize) {
        let own = &mut self.connections[place];
        own.stage = Stage::Asking;
        let mode = if own.is_writer || !self.plan.is_read { "write" } else { "read" };
        let text = format!(
            r#"["connect_document",{{"id":"{}{}","mode":"{mode}","scopes":["doc:read","doc:write"]}}]"#,
            self.plan.name, own.document
        );
        self.say(place, 1, text.as_bytes());
    }

    /// Sends a text, or another frame.
    fn say(&mut self, place: usize, code: u8, text: &[u8]) {
        let mut bytes = Vec::with_capacity(text.len() + 14);
        if self.plan.is_lines {
            bytes.extend_from_slice(text);
            bytes.push(b'\n');
        } else {
            let own = &mut self.connections[place];
            own.mask ^= own.mask << 13;
            own.mask ^= own.mask >> 17;
            own.mask ^= own.mask << 5;
            let mask = own.mask.to_be_bytes();
            bytes.push(0x80 | code);
            if text.len() < 126 {
                bytes.push(0x80 | text.len() as u8);
            } else {
                bytes.push(0x80 | 126);
                bytes.extend_from_slice(&(text.len() as u16).to_be_bytes());
            }
            bytes.extend_from_slice(&mask);
            bytes.extend(text.iter().zip(mask.iter().cycle()).map(|(byte, mask)| byte ^ mask));
        }
        self.write(place, &bytes);
    }

    fn write(&mut self, place: usize, bytes: &[u8]) {
        let own = &mut self.connections[place];
        own.waiting.extend_from_slice(bytes);
        while !own.waiting.is_empty() {
            match own.stream.write(&own.waiting) {
                Ok(count) => drop(own.waiting.drain(..count)),
                Err(error) if error.kind() == ErrorKind::WouldBlock => return,
                Err(error) => demand(false, &format!("a line was lost: {error}")),
            }
        }
    }

    /// Submits an operation that carries the moment at which it was due.
    fn submit(&mut self, place: usize, due: u64) {
        let own = &mut self.connections[place];
        own.submitted += 1;
        let (id, number, key, last) = (String::from_utf8_lossy(&own.id), own.submitted, own.submitted % 50, own.last);
        let set = format!(r#"{{"key":"k{key}","type":"set","value":{{"type":"Plain","value":{due}}}}}"#);
        let contents = format!(r#"{{"address":"board","contents":{set}}}"#);
        let numbers = format!(r#""clientSequenceNumber":{number},"contents":{contents},"referenceSequenceNumber":{last}"#);
        let text = format!(r#"["submitOp","{id}",[{{{numbers},"type":"op"}}]]"#);
        self.say(place, 1, text.as_bytes());
    }

    fn read(&mut self, place: usize) {
        let mut scratch = std::mem::take(&mut self.scratch);
        loop {
            let own = &mut self.connections[place];
            let kept = own.held.len();
            scratch[..kept].copy_from_slice(&own.held);
            own.held.clear();
            let count = match own.stream.read(&mut scratch[kept..]) {
                Ok(0) => {
                    demand(false, "the server ended a line");
                    0
                }
                Ok(count) => count,
                Err(error) if error.kind() == ErrorKind::WouldBlock => {
                    own.held.extend_from_slice(&scratch[..kept]);
                    break;
                }
                Err(error) => {
                    demand(false, &format!("a line was lost: {error}"));
                    0
                }
            };
            let used = self.take(place, &scratch[..kept + count]);
            let rest = &scratch[used..kept + count];
            demand(rest.len() < scratch.len() / 2, "a text is too long for this program");
            self.connections[place].held.extend_from_slice(rest);
            if kept + count < scratch.len() {
                break;
            }
        }
        self.scratch = scratch;
    }

    /// Takes the whole texts of some bytes, and tells how many bytes these were.
    fn take(&mut self, place: usize, bytes: &[u8]) -> usize {
        let mut at = 0;
        if self.connections[place].stage == Stage::Greeting {
            let Some(end) = find(bytes, b"\r\n\r\n", 0) else { return 0 };
            demand(bytes.starts_with(b"HTTP/1.1 101 "), "the server takes no WebSocket");
            self.greet(place);
            at = end;
        }
        if self.plan.is_lines {
            while let Some(size) = bytes[at..].iter().position(|byte| *byte == b'\n') {
                self.hear(place, &bytes[at..at + size]);
                at += size + 1;
            }
            return at;
        }
        while let Some((code, from, to)) = frame(&bytes[at..]) {
            match code {
                1 => self.hear(place, &bytes[at + from..at + to]),
                9 => self.say(place, 10, &bytes[at + from..at + to]),
                8 => demand(false, "the server closes a line"),
                _ => {}
            }
            at += to;
        }
        at
    }

    fn hear(&mut self, place: usize, text: &[u8]) {
        if text.starts_with(br#"["op","#) {
            return self.messages(place, text);
        }
        let said = String::from_utf8_lossy(text);
        demand(text.starts_with(br#"["connect_document_success","#), &format!("the server says {said}"));
        let own = &mut self.connections[place];
        if let Some(at) = find(text, br#""clientId":""#, 0) {
            own.id = text[at..].iter().copied().take_while(|byte| *byte != b'"').collect();
        }
        own.last = find(text, br#""checkpointSequenceNumber":"#, 0).map_or(0, |at| digits(text, at));
        own.stage = Stage::Connected;
        self.connected += 1;
    }

    fn messages(&mut self, place: usize, text: &[u8]) {
        let now = self.nanos();
        let is_measured = self.window.0 <= now && now < self.window.1;
        let mut at = 0;
        while let Some(from) = find(text, br#"{"clientId":"#, at) {
            let behind = find(text, br#""sequenceNumber":"#, from).unwrap_or(from);
            let number = digits(text, behind);
            let own = &mut self.connections[place];
            if number != own.last + 1 {
                demand(false, &format!("behind message {} comes {number}", own.last));
            }
            own.last = number;
            at = behind;
            if text.get(from) != Some(&b'"') {
                continue; // the service's own
            }
            let behind_id = from + 1 + own.id.len();
            let is_own = own.is_writer && text[from + 1..].starts_with(&own.id) && text.get(behind_id) == Some(&b'"');
            let due = find(&text[..behind], br#""Plain","value":"#, from).map_or(now, |at| digits(text, at));
            if is_own {
                own.returned += 1;
                self.tally.operations += u64::from(is_measured);
            } else if is_measured {
                self.tally.times.add(now.saturating_sub(due));
            }
            self.tally.deliveries += u64::from(is_measured);
        }
        let own = &self.connections[place];
        self.newest[own.document].fetch_max(own.last, SeqCst);
    }

    fn look(&mut self, limit: Duration, ready: &mut Vec<usize>) {
        self.poll.wait(limit, ready);
        for place in ready.iter() {
            self.read(*place);
            if !self.connections[*place].waiting.is_empty() {
                self.write(*place, b"");
            }
        }
    }

    /// Looks until something holds of all connections.
    fn settle(&mut self, what: &str, holds: impl Fn(&Worker) -> bool) {
        let (until, mut ready) = (Instant::now() + PATIENCE, Vec::new());
        while !holds(self) {
            self.look(Duration::from_millis(20), &mut ready);
            demand(Instant::now() < until, what);
        }
    }

    /// Writes until the measured time is over.
    fn run(&mut self, own: usize) {
        let writers: Vec<usize> = (0..self.connections.len()).filter(|place| self.connections[*place].is_writer).collect();
        let step = if self.plan.rate > 0.0 { 1e9 * self.plan.writers as f64 / self.plan.rate } else { 0.0 };
        let begin = self.nanos();
        let (mut ready, mut sent) = (Vec::new(), 0_u64);
        while self.nanos() < self.window.1 {
            let mut limit = Duration::from_millis(20);
            if self.plan.rate > 0.0 && !writers.is_empty() {
                // the writers of this thread one after another, each once in a step
                loop {
                    let turn = (sent as f64 + own as f64 / self.plan.threads as f64) / writers.len() as f64;
                    let (due, now) = (begin + (turn * step) as u64, self.nanos());
                    if due > now {
                        limit = limit.min(Duration::from_nanos(due - now));
                        break;
                    }
                    self.submit(writers[sent as usize % writers.len()], due);
                    sent += 1;
                }
            }
            self.look(limit, &mut ready);
            if self.plan.rate == 0.0 {
                let waking = if sent == 0 { writers.as_slice() } else { ready.as_slice() };
                for place in waking {
                    let own = &self.connections[*place];
                    if own.is_writer && own.returned == own.submitted {
                        let now = self.nanos();
                        self.submit(*place, now);
                    }
                }
                sent = 1;
            }
        }
    }
}

/// The kind of the first whole frame, and where its payload begins and ends.
fn frame(bytes: &[u8]) -> Option<(u8, usize, usize)> {
    let (first, second) = (*bytes.first()?, *bytes.get(1)?);
    let (from, size) = match second & 127 {
        126 => (4, usize::from(u16::from_be_bytes([*bytes.get(2)?, *bytes.get(3)?]))),
        127 => (10, usize::try_from(u64::from_be_bytes(bytes.get(2..10)?.try_into().ok()?)).ok()?),
        size => (2, usize::from(size)),
    };
    (bytes.len() >= from + size).then_some((first & 15, from, from + size))
}

// ---- what the system says of the server

/// The processor seconds that a process has taken.
fn seconds_of(pid: &str) -> f64 {
    let text = fs::read_to_string(format!("/proc/{pid}/stat")).unwrap_or_default();
    let fields: Vec<&str> = text.rsplit(')').next().unwrap_or("").split_whitespace().collect();
    let ticks = |at: usize| fields.get(at).and_then(|field| field.parse::<f64>().ok()).unwrap_or(0.0);
    (ticks(11) + ticks(12)) / 100.0
}

/// The kilobytes of a process: what is resident, its page tables, and a kernel stack of 16 for each thread.
fn memory_of(pid: &str) -> f64 {
    let text = fs::read_to_string(format!("/proc/{pid}/status")).unwrap_or_default();
    let figure = |name: &str| {
        let found = text.lines().find_map(|line| line.strip_prefix(name)?.split_whitespace().next()?.parse::<f64>().ok());
        found.unwrap_or(0.0)
    };
    figure("VmRSS:") + figure("VmPTE:") + 16.0 * figure("Threads:")
}

fn main() {
    let plan = plan();
    let start = Instant::now();
    let newest: Vec<AtomicU64> = (0..plan.documents).map(|_| AtomicU64::new(0)).collect();
    let (gate, ends) = (Barrier::new(plan.threads), AtomicU64::new(0));
    let memory = memory_of(&plan.pid);
    let (figures, shared) = (std::sync::Mutex::new((0.0, 0.0, 0.0, 0.0)), (&newest, &gate, &plan, &ends));
    let tallies: Vec<Tally> = thread::scope(|scope| {
        let parts: Vec<_> = (0..plan.threads).map(|own| {
            let (figures, (newest, gate, plan, ends)) = (&figures, shared);
            scope.spawn(move || {
                let tally = Tally { operations: 0, deliveries: 0, times: Times::new() };
                let mut worker = Worker { plan, start, newest, poll: Poll::new(), connections: Vec::new(), connected: 0,
                    window: (0, 0), tally, scratch: vec![0; 1 << 22] };
                let mut ready = Vec::new();
                for number in (own..plan.connections).step_by(plan.threads) {
                    worker.open(number);
                    worker.look(Duration::ZERO, &mut ready);
                }
                worker.settle("not all connect", |it| it.connected == it.connections.len());
                gate.wait();
                let connecting = start.elapsed().as_secs_f64();
                if own == 0 {
                    thread::sleep(Duration::from_millis(if plan.writers == 0 { 1000 } else { 0 }));
                    ends.store(worker.nanos() + (plan.warm * 1e9) as u64, SeqCst);
                }
                gate.wait();
                let begin = ends.load(SeqCst);
                worker.window = (begin, begin + (plan.seconds * 1e9) as u64);
                if own == 0 {
                    let each = (memory_of(&plan.pid) - memory) / plan.connections as f64;
                    *figures.lock().unwrap() = (connecting, each, seconds_of(&plan.pid), seconds_of("self"));
                }
                worker.run(own);
                if own == 0 {
                    let mut all = figures.lock().unwrap();
                    (all.2, all.3) = (seconds_of(&plan.pid) - all.2, seconds_of("self") - all.3);
                }
                let is_back = |own: &Connection| own.returned == own.submitted;
                worker.settle("an operation never came back", |it| it.connections.iter().all(is_back));
                gate.wait();
                worker.settle("a message was never delivered", |it| {
                    it.connections.iter().all(|own| own.last >= it.newest[own.document].load(SeqCst))
                });
                gate.wait();
                worker.tally
            })
        }).collect();
        parts.into_iter().filter_map(|part| part.join().ok()).collect()
    });
    demand(tallies.len() == plan.threads, "a thread failed");
    let mut all = Tally { operations: 0, deliveries: 0, times: Times::new() };
    for tally in &tallies {
        all.operations += tally.operations;
        all.deliveries += tally.deliveries;
        all.times.join(&tally.times);
    }
    let (connecting, each, server, own) = *figures.lock().unwrap();
    let (rate, all_seconds) = (|count: u64| count as f64 / plan.seconds, plan.seconds + plan.warm);
    println!(
        r#"{{"connections":{},"writers":{},"documents":{},"operations":{:.0},"deliveries":{:.0},"connecting":{connecting:.2},"#,
        plan.connections, plan.writers, plan.documents, rate(all.operations), rate(all.deliveries)
    );
    println!(
        r#""p50":{:.3},"p99":{:.3},"longest":{:.1},"kilobytes":{each:.1},"server":{:.4},"generator":{:.4}}}"#,
        all.times.share(0.5), all.times.share(0.99), all.times.most as f64 / 1e6, server / all_seconds, own / all_seconds
    );
}
