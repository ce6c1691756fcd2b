//! The yardstick of `bench_lock`: the same rounds, of the same counter, under Rust's own `Mutex`.
use std::hint::black_box;
use std::sync::Mutex;
use std::{env, thread};

/// As many rounds as it has entries, of no bytes each: when it runs, it is its length.
struct Counter {
    rounds: Vec<()>,
}

fn take_turns(counter: &Mutex<Counter>, rounds: u32) {
    for _ in 0..rounds {
        let mut held = counter.lock().unwrap();
        if held.rounds.len() < u32::MAX as usize {
            held.rounds.push(());
        }
        black_box(&held.rounds);
    }
}

fn main() {
    let mut words = env::args().skip(1).map(|word| word.parse::<u32>().expect("a number"));
    let (rounds, threads) = (words.next().expect("rounds"), words.next().expect("threads"));
    let counter = Mutex::new(Counter { rounds: Vec::new() });
    thread::scope(|scope| {
        for _ in 0..threads {
            scope.spawn(|| take_turns(&counter, rounds));
        }
    });
    let counted = counter.lock().unwrap().rounds.len();
    println!("{threads} threads, {rounds} rounds each: {counted} rounds counted");
}
