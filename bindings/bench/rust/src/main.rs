//! Times the Rust crate beside the persistent map of im and beside dashmap, with the same keys and the same work, each in turn
//! in every round. It prints a line a measurement: PROGRAM NAME THREADS NANOSECONDS, the least of the rounds, in processor time
//! of all threads, and of loads of several threads by the clock too. The words are the number of pairs and of rounds.

mod clock;
mod one_thread;
mod shared;

use std::collections::BTreeMap;
use std::time::Instant;

/// The least figure of each measurement, by program, name and threads.
#[derive(Default)]
pub struct Figures {
    least: BTreeMap<(&'static str, &'static str, usize), f64>,
    /// In which order they came first.
    order: Vec<(&'static str, &'static str, usize)>,
}

impl Figures {
    /// Times work of so many pieces.
    pub fn time<T>(
        &mut self,
        program: &'static str,
        name: &'static str,
        threads: usize,
        pieces: usize,
        work: impl FnOnce() -> T,
    ) -> T {
        let begun = clock::now();
        let done = std::hint::black_box(work());
        self.note((program, name, threads), (clock::now() - begun) as f64 / pieces as f64);
        done
    }

    /// Times a load of several threads, by the processors' time, and as `elapsed` by the time that went by.
    pub fn time_load(
        &mut self,
        program: &'static str,
        [name, elapsed]: [&'static str; 2],
        threads: usize,
        pieces: usize,
        work: impl FnOnce() -> u64,
    ) {
        let begun = Instant::now();
        self.time(program, name, threads, pieces, work);
        self.note(
            (program, elapsed, threads),
            begun.elapsed().as_nanos() as f64 / pieces as f64,
        );
    }

    fn note(&mut self, key: (&'static str, &'static str, usize), each: f64) {
        if !self.least.contains_key(&key) {
            self.order.push(key);
        }
        let least = self.least.entry(key).or_insert(each);
        *least = least.min(each);
    }
}

fn main() {
    let words: Vec<usize> = std::env::args()
        .skip(1)
        .map(|it| it.parse().expect("a number"))
        .collect();
    let [pairs, rounds] = words[..] else {
        eprintln!("usage: bindings_bench PAIRS ROUNDS");
        std::process::exit(2);
    };
    let keys: Vec<Box<[u8]>> = (0..pairs)
        .map(|n| format!("k{n:07}").into_bytes().into_boxed_slice())
        .collect();
    let mut figures = Figures::default();
    for _ in 0..rounds {
        one_thread::round(&mut figures, &keys);
        shared::round(&mut figures, &keys);
    }
    for key in &figures.order {
        println!("{} {} {} {:.0}", key.0, key.1, key.2, figures.least[key]);
    }
}
