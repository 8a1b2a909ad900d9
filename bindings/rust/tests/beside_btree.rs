//! Random calls beside a `BTreeMap`, with snapshots that are kept beside clones of it.

use std::collections::BTreeMap;
use tambyulo::{Map, Snapshot, Value};

/// xorshift, by George Marsaglia.
struct Random(u64);

impl Random {
    fn below(&mut self, bound: u64) -> u64 {
        self.0 ^= self.0 << 13;
        self.0 ^= self.0 >> 7;
        self.0 ^= self.0 << 17;
        self.0 % bound
    }

    /// Keys of up to 40 bytes: some lie in place in the map's own keys, and some do not.
    fn key(&mut self) -> Vec<u8> {
        let number = self.below(3_000);
        vec![(number % 251) as u8; (number % 41) as usize]
    }
}

fn same_pairs<V: Value + Clone + Ord + std::fmt::Debug>(snapshot: &Snapshot<V>, model: &BTreeMap<Vec<u8>, V>) {
    assert_eq!(snapshot.len(), model.len());
    let walk = snapshot.iter();
    assert_eq!(walk.len(), model.len());
    let mut pairs: Vec<_> = walk.collect();
    pairs.sort();
    assert!(pairs
        .into_iter()
        .eq(model.iter().map(|(key, value)| (key.clone(), value.clone()))));
    assert!(model
        .iter()
        .all(|(key, value)| snapshot.get(key).as_ref() == Some(value)));
}

fn beside_a_btree_map<V: Value + Clone + Ord + std::fmt::Debug>(mut random: Random, value: fn(u64) -> V) {
    let mut map = Map::<V>::new();
    let mut model = BTreeMap::new();
    let mut kept = Vec::new();
    for step in 0..200_000 {
        let (key, new, old) = (random.key(), value(random.below(7)), value(random.below(7)));
        let is_equal = model.get(&key) == Some(&old);
        match random.below(8) {
            0 | 1 => assert_eq!(map.put(&key, new.clone()), Ok(model.insert(key.clone(), new))),
            2 => {
                assert_eq!(map.put_if_absent(&key, new.clone()), Ok(model.get(&key).cloned()));
                model.entry(key.clone()).or_insert(new);
            }
            3 => {
                assert_eq!(map.replace(&key, new.clone()), Ok(model.get(&key).cloned()));
                model.entry(key.clone()).and_modify(|value| *value = new);
            }
            4 => {
                assert_eq!(map.replace_if(&key, &old, new.clone()), Ok(is_equal));
                if is_equal {
                    model.insert(key.clone(), new);
                }
            }
            5 => assert_eq!(map.remove(&key), Ok(model.remove(&key))),
            6 => {
                assert_eq!(map.remove_if(&key, &old), Ok(is_equal));
                if is_equal {
                    model.remove(&key);
                }
            }
            _ => assert_eq!(map.get(&key), model.get(&key).cloned()),
        }
        assert_eq!(map.contains_key(&key), model.contains_key(&key));
        assert_eq!(map.len(), model.len());
        if step % 20_000 == 0 {
            kept.push((map.snapshot().unwrap(), model.clone()));
        }
    }
    for (snapshot, model) in &kept {
        same_pairs(snapshot, model);
    }
    let prefix = [7u8];
    let count = model.keys().filter(|key| key.starts_with(&prefix)).count();
    assert_eq!(map.count_prefix(prefix), count);
    assert_eq!(map.clear(), model.len());
    assert!(map.is_empty() && map.iter().next().is_none());
}

#[test]
fn numbers() {
    beside_a_btree_map(Random(0x1234_5678_9abc_def1), |number| number);
}

#[test]
fn texts() {
    // of up to 90 bytes, so that some are longer than the room with which a get begins
    beside_a_btree_map(Random(0x0fed_cba9_8765_4321), |number| {
        vec![number as u8; 15 * number as usize]
    });
}
