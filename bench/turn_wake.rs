// How long a waiter of the turn looks before it sleeps, beside how long it takes to wake one: nanoseconds of `looks` looks at two words
// that another thread keeps changing, the least of some rounds, and from the call that wakes a thread (std's park) until that runs.
use std::hint::spin_loop;
use std::sync::atomic::{AtomicBool, AtomicU64, Ordering};
use std::sync::Arc;
use std::thread;
use std::time::{Duration, Instant};

const ROUNDS: u32 = 20;
const TIMES: u32 = 2_000;

fn looks(count: u64) -> Duration {
    let words = Arc::new((AtomicU64::new(1), AtomicU64::new(0), AtomicBool::new(true)));
    let theirs = words.clone();
    // whoever has the turn draws and serves tickets, as others pass
    let other = thread::spawn(move || {
        while theirs.2.load(Ordering::Relaxed) {
            theirs.0.fetch_add(1, Ordering::SeqCst);
            thread::sleep(Duration::from_micros(1));
            theirs.1.fetch_add(1, Ordering::SeqCst);
        }
    });
    let mut least = Duration::MAX;
    let mut free = 0u64;
    for _ in 0..ROUNDS {
        let began = Instant::now();
        for _ in 0..TIMES {
            for _ in 0..count {
                let next = words.0.load(Ordering::SeqCst);
                if words.1.load(Ordering::SeqCst) == next {
                    free += 1;
                }
                spin_loop();
            }
        }
        least = least.min(began.elapsed() / TIMES);
    }
    words.2.store(false, Ordering::Relaxed);
    other.join().unwrap();
    std::hint::black_box(free);
    least
}

/// From the call that wakes a thread, which slept a tenth of a millisecond, until it runs: the middle one of some.
fn wake() -> Duration {
    let start = Instant::now();
    let sent = Arc::new(AtomicU64::new(0));
    let theirs = sent.clone();
    let sleeper = thread::spawn(move || {
        let mut times = Vec::new();
        for _ in 0..TIMES {
            while theirs.load(Ordering::SeqCst) == 0 {
                thread::park();
            }
            times.push(start.elapsed() - Duration::from_nanos(theirs.swap(0, Ordering::SeqCst)));
        }
        times.sort();
        times[times.len() / 2]
    });
    for _ in 0..TIMES {
        while sent.load(Ordering::SeqCst) != 0 {
            spin_loop();
        }
        let began = Instant::now();
        while began.elapsed() < Duration::from_micros(100) {
            spin_loop();
        }
        sent.store(start.elapsed().as_nanos() as u64, Ordering::SeqCst);
        sleeper.thread().unpark();
    }
    sleeper.join().unwrap()
}

fn main() {
    let count = std::env::args().nth(1).and_then(|word| word.parse().ok()).unwrap_or(20);
    println!("{} {}", looks(count).as_nanos(), wake().as_nanos());
}
