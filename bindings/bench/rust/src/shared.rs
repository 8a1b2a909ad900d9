//! What threads do with a map that they share: nine gets for each put of a key that is there.

use crate::one_thread::{fill, fill_dashmap};
use crate::Figures;
use std::thread;
use tambyulo::Shared;

type Key = Box<[u8]>;

/// How many calls a load makes, over all its threads.
const CALLS: usize = 400_000;
/// After how many gets a reader by snapshots takes the next one.
const GETS: usize = 1_000;

/// A round of all measurements, each program in turn.
pub fn round(figures: &mut Figures, keys: &[Key]) {
    let ours = Shared::from(fill(keys));
    let dash = fill_dashmap(keys);
    for threads in [1, 2, 4] {
        figures.time_load("tambyulo", ["mixed", "mixed_elapsed"], threads, CALLS, || {
            on_threads(threads, |thread| {
                mixed(
                    keys,
                    thread,
                    CALLS / threads,
                    |key| ours.get(key).unwrap(),
                    |key, value| _ = ours.put(key, value),
                )
            })
        });
        figures.time_load(
            "tambyulo",
            ["mixed_by_snapshots", "mixed_by_snapshots_elapsed"],
            threads,
            CALLS,
            || on_threads(threads, |thread| by_snapshots(&ours, keys, thread, CALLS / threads)),
        );
        figures.time_load("dashmap", ["mixed", "mixed_elapsed"], threads, CALLS, || {
            let put = |key: &Key, value| _ = dash.insert(key.clone(), value);
            on_threads(threads, |thread| {
                mixed(keys, thread, CALLS / threads, |key| *dash.get(key).unwrap(), put)
            })
        });
    }
}

fn on_threads(threads: usize, work: impl Fn(u64) -> u64 + Sync) -> u64 {
    let work = &work;
    thread::scope(|scope| {
        let running: Vec<_> = (0..threads as u64).map(|it| scope.spawn(move || work(it))).collect();
        running
            .into_iter()
            .map(|it| it.join().unwrap())
            .fold(0, u64::wrapping_add)
    })
}

/// The calls of one thread: keys by xorshift, the first of ten calls a put.
fn mixed(keys: &[Key], thread: u64, calls: usize, get: impl Fn(&Key) -> u64, put: impl Fn(&Key, u64)) -> u64 {
    let mut state = thread + 1;
    let mut sum = 0u64;
    for call in 0..calls {
        let place = next(&mut state, keys.len());
        if call % 10 == 0 {
            put(&keys[place], place as u64);
        } else {
            sum = sum.wrapping_add(get(&keys[place]));
        }
    }
    sum
}

/// The same, with the gets by snapshots: each of them is read a while without a lock.
fn by_snapshots(map: &Shared, keys: &[Key], thread: u64, calls: usize) -> u64 {
    let mut state = thread + 1;
    let mut sum = 0u64;
    let mut snapshot = map.snapshot().unwrap();
    for call in 0..calls {
        let place = next(&mut state, keys.len());
        if call % GETS == 0 {
            snapshot = map.snapshot().unwrap();
        }
        if call % 10 == 0 {
            map.put(&keys[place], place as u64).unwrap();
        } else {
            sum = sum.wrapping_add(snapshot.get(&keys[place]).unwrap());
        }
    }
    sum
}

fn next(state: &mut u64, below: usize) -> usize {
    *state ^= *state << 13;
    *state ^= *state >> 7;
    *state ^= *state << 17;
    (*state % below as u64) as usize
}
