//! What `turn_bench` does, with a mutex of Rust's standard library in place of the turn: the same words, work and output.
use std::sync::Mutex;

struct Worked {
    passes: u64,
    state: u64,
}

fn main() {
    let words: Vec<u64> = std::env::args().skip(1).map(|word| word.parse().expect("a number")).collect();
    let [threads, passes, rounds] = words[..] else { panic!("three numbers") };
    let worked = Mutex::new(Worked { passes: 0, state: 1 });
    std::thread::scope(|scope| {
        for _ in 0..threads {
            scope.spawn(|| {
                for _ in 0..passes {
                    let mut held = worked.lock().expect("no panic");
                    held.passes += 1;
                    for _ in 0..rounds {
                        held.state = (held.state ^ (held.state >> 29)).wrapping_mul(6_364_136_223_846_793_005);
                    }
                }
            });
        }
    });
    println!("{} passes", worked.lock().expect("no panic").passes);
    std::hint::black_box(worked);
}
