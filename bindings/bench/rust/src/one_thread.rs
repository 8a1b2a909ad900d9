//! What one thread does with one map of each program.

use crate::Figures;
use dashmap::DashMap;
use im_rc::HashMap as Persistent;
use tambyulo::Map;

type Key = Box<[u8]>;

/// How many snapshots are taken, each with the put after it; of dashmap, which copies its pairs, so few.
const SNAPSHOTS: usize = 1_000;
const COPIES: usize = 3;

/// A map of each program, with the same pairs.
struct Maps {
    ours: Map,
    im: Persistent<Key, u64>,
    dash: DashMap<Key, u64>,
}

/// A round of all measurements, each program in turn.
pub fn round(figures: &mut Figures, keys: &[Key]) {
    let n = keys.len();
    let mut maps = Maps {
        ours: figures.time("tambyulo", "put", 1, n, || fill(keys)),
        im: figures.time("im_rc", "put", 1, n, || fill_persistent(keys)),
        dash: figures.time("dashmap", "put", 1, n, || fill_dashmap(keys)),
    };
    let in_order: Vec<&[u8]> = keys.iter().map(|key| &**key).collect();
    maps.get(figures, "get", &in_order);
    maps.get(figures, "get_random", &shuffled(in_order));
    maps.replace(figures, keys);
    maps.walk(figures, n);
    maps.snapshots(figures, keys);
    maps.remove(figures, keys);
    assert!(maps.ours.is_empty() && maps.im.is_empty() && maps.dash.is_empty());
}

impl Maps {
    fn get(&self, figures: &mut Figures, name: &'static str, keys: &[&[u8]]) {
        let n = keys.len();
        let ours = |key: &&[u8]| self.ours.get(key).unwrap();
        figures.time("tambyulo", name, 1, n, || keys.iter().map(ours).sum::<u64>());
        let im = |key: &&[u8]| self.im[*key];
        figures.time("im_rc", name, 1, n, || keys.iter().map(im).sum::<u64>());
        let dash = |key: &&[u8]| *self.dash.get(*key).unwrap();
        figures.time("dashmap", name, 1, n, || keys.iter().map(dash).sum::<u64>());
    }

    fn replace(&mut self, figures: &mut Figures, keys: &[Key]) {
        let n = keys.len();
        let pairs = || keys.iter().zip(0u64..);
        let ours = |(key, value): (&Key, u64)| _ = self.ours.put(key, value);
        figures.time("tambyulo", "replace", 1, n, || pairs().for_each(ours));
        let im = |(key, value): (&Key, u64)| _ = self.im.insert(key.clone(), value);
        figures.time("im_rc", "replace", 1, n, || pairs().for_each(im));
        let dash = |(key, value): (&Key, u64)| _ = self.dash.insert(key.clone(), value);
        figures.time("dashmap", "replace", 1, n, || pairs().for_each(dash));
    }

    /// Each walk gives keys of its own, as ours do.
    fn walk(&self, figures: &mut Figures, n: usize) {
        let ours = || {
            self.ours
                .iter()
                .map(|(key, value)| key.len() as u64 + value)
                .sum::<u64>()
        };
        figures.time("tambyulo", "walk", 1, n, ours);
        let im = || {
            self.im
                .iter()
                .map(|(key, value)| key.to_vec().len() as u64 + value)
                .sum::<u64>()
        };
        figures.time("im_rc", "walk", 1, n, im);
        let dash = || {
            self.dash
                .iter()
                .map(|it| it.key().to_vec().len() as u64 + *it.value())
                .sum::<u64>()
        };
        figures.time("dashmap", "walk", 1, n, dash);
    }

    fn snapshots(&mut self, figures: &mut Figures, keys: &[Key]) {
        let count = SNAPSHOTS.min(keys.len());
        let Maps { ours, im, dash } = self;
        figures.time("tambyulo", "snapshot_then_put", 1, count, || {
            for (key, value) in keys[..count].iter().zip(0..) {
                let snapshot = ours.snapshot().unwrap();
                ours.put(key, value).unwrap();
                std::hint::black_box(snapshot.len());
            }
        });
        figures.time("im_rc", "snapshot_then_put", 1, count, || {
            for (key, value) in keys[..count].iter().zip(0..) {
                let snapshot = im.clone();
                im.insert(key.clone(), value);
                std::hint::black_box(snapshot.len());
            }
        });
        figures.time("dashmap", "snapshot_then_put", 1, COPIES, || {
            for (key, value) in keys[..COPIES].iter().zip(0..) {
                let snapshot = dash.clone();
                dash.insert(key.clone(), value);
                std::hint::black_box(snapshot.len());
            }
        });
    }

    fn remove(&mut self, figures: &mut Figures, keys: &[Key]) {
        let n = keys.len();
        let ours = |key: &Key| _ = self.ours.remove(key);
        figures.time("tambyulo", "remove", 1, n, || keys.iter().for_each(ours));
        let im = |key: &Key| _ = self.im.remove(key);
        figures.time("im_rc", "remove", 1, n, || keys.iter().for_each(im));
        let dash = |key: &Key| _ = self.dash.remove(key);
        figures.time("dashmap", "remove", 1, n, || keys.iter().for_each(dash));
    }
}

pub fn fill(keys: &[Key]) -> Map {
    let mut map = Map::new();
    for (key, value) in keys.iter().zip(0..) {
        map.put(key, value).unwrap();
    }
    map
}

pub fn fill_persistent(keys: &[Key]) -> Persistent<Key, u64> {
    let mut map = Persistent::new();
    for (key, value) in keys.iter().zip(0..) {
        map.insert(key.clone(), value);
    }
    map
}

pub fn fill_dashmap(keys: &[Key]) -> DashMap<Key, u64> {
    let map = DashMap::new();
    for (key, value) in keys.iter().zip(0..) {
        map.insert(key.clone(), value);
    }
    map
}

/// The keys in an order of no order, the same in each run: Fisher and Yates over a xorshift generator.
fn shuffled(mut order: Vec<&[u8]>) -> Vec<&[u8]> {
    let mut state = 0x9e37_79b9_7f4a_7c15u64;
    for i in (1..order.len()).rev() {
        state ^= state << 13;
        state ^= state >> 7;
        state ^= state << 17;
        order.swap(i, (state % (i as u64 + 1)) as usize);
    }
    order
}
