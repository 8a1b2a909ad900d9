//! What the types are beside their calls: iterators, conversions, printing, errors and threads.

use std::thread;
use tambyulo::{Error, Map, Shared, Snapshot, MOST_PAIRS};

fn is_send<T: Send>() {}
fn is_sync<T: Sync>() {}

#[test]
fn types_go_to_other_threads() {
    is_send::<Map>();
    is_send::<Snapshot>();
    is_send::<Snapshot<Vec<u8>>>();
    is_send::<Shared>();
    is_sync::<Shared<Vec<u8>>>();
}

#[test]
fn a_map_is_collected_extended_and_walked() {
    let mut map: Map = (0..1_000u64).map(|n| (n.to_be_bytes(), n)).collect();
    map.extend([(2_000u64.to_be_bytes(), 5)]);
    map.try_extend([(2_000u64.to_be_bytes(), 6)]).unwrap();
    assert_eq!(map.get(2_000u64.to_be_bytes()), Some(6));
    let sum: u64 = (&map).into_iter().map(|(_, value)| value).sum();
    assert_eq!(sum, 999 * 1_000 / 2 + 6);
    assert_eq!(map.iter().size_hint(), (1_001, Some(1_001)));
    let snapshot = map.snapshot().unwrap();
    assert_eq!(map.into_iter().len(), 1_001);
    assert_eq!(
        snapshot
            .into_iter()
            .filter(|(key, value)| key[..] == value.to_be_bytes())
            .count(),
        1_000
    );
}

#[test]
fn a_pair_larger_than_a_page_is_walked() {
    let mut map = Map::<Vec<u8>>::new();
    map.put("large", vec![1; 100_000]).unwrap();
    map.put(vec![2; 50_000], vec![3; 10]).unwrap();
    for n in 0..200u64 {
        map.put(n.to_be_bytes(), vec![0; n as usize]).unwrap();
    }
    let bytes: usize = map.iter().map(|(key, value)| key.len() + value.len()).sum();
    assert_eq!(bytes, 5 + 100_000 + 50_000 + 10 + 200 * 8 + 199 * 200 / 2);
    assert_eq!(map.get("large").unwrap().len(), 100_000);
}

#[test]
fn maps_are_printed() {
    let mut map = Map::new();
    assert_eq!(format!("{map:?}"), "{}");
    map.put(b"a\0\"", 5).unwrap();
    assert_eq!(format!("{map:?}"), r#"{b"a\x00\"": 5}"#);
    assert_eq!(format!("{:?}", map.snapshot().unwrap()), r#"{b"a\x00\"": 5}"#);
    assert_eq!(format!("{:?}", Shared::from(map)), r#"{b"a\x00\"": 5}"#);
}

#[test]
fn a_full_map_refuses_new_keys_alone() {
    let mut map = Map::new();
    assert_eq!(map.limit(u64::MAX), MOST_PAIRS);
    assert_eq!(map.limit(2), 2);
    map.extend([("a", 1), ("b", 2)]);
    assert_eq!(map.put("c", 3), Err(Error::Full));
    assert_eq!(map.put_if_absent("c", 3), Err(Error::Full));
    assert_eq!(map.try_extend([("a", 4), ("c", 3), ("b", 5)]), Err(Error::Full));
    assert_eq!((map.put("a", 6), map.replace("c", 1)), (Ok(Some(4)), Ok(None)));
    assert_eq!((map.len(), map.get("b")), (2, Some(2)));
    assert_eq!(map.fork().unwrap().put("c", 3), Err(Error::Full));
    assert_eq!(Error::Full.to_string(), "the key is new and the map is full");
    assert_eq!(Error::NoMemory.to_string(), "out of memory");
}

#[test]
fn forks_go_separate_ways() {
    let mut map = Map::default();
    map.put("a", 1).unwrap();
    let mut fork = map.clone();
    fork.put("a", 2).unwrap();
    let snapshot = map.snapshot().unwrap();
    map.remove("a").unwrap();
    assert_eq!(
        (map.get("a"), fork.get("a"), snapshot.get("a")),
        (None, Some(2), Some(1))
    );
    let again = snapshot.to_map().unwrap();
    drop(snapshot);
    assert_eq!(again.get("a"), Some(1));
}

#[test]
fn snapshots_are_read_on_threads_while_the_map_is_written() {
    let mut map: Map = (0..50_000u64).map(|n| (n.to_be_bytes(), n)).collect();
    let snapshot = map.snapshot().unwrap();
    thread::scope(|scope| {
        for _ in 0..4 {
            let snapshot = snapshot.clone();
            scope.spawn(move || {
                for n in 0..50_000u64 {
                    assert_eq!(snapshot.get(n.to_be_bytes()), Some(n));
                }
                assert_eq!(snapshot.iter().map(|(_, value)| value).sum::<u64>(), 49_999 * 25_000);
            });
        }
        for n in 0..50_000u64 {
            map.put(n.to_be_bytes(), n + 1).unwrap();
            map.remove((n / 2).to_be_bytes()).unwrap();
        }
    });
    assert_eq!((map.len(), snapshot.len()), (25_000, 50_000));
}

#[test]
fn threads_share_a_map() {
    let map = Shared::new();
    thread::scope(|scope| {
        for thread in 0..4u64 {
            let map = &map;
            scope.spawn(move || {
                for n in 0..5_000u64 {
                    // all threads put all keys: one of them puts each first
                    map.put_if_absent(n.to_be_bytes(), thread).unwrap();
                }
            });
        }
        let map = &map;
        scope.spawn(move || {
            let mut before = 0;
            for _ in 0..200 {
                let snapshot = map.snapshot().unwrap();
                assert!(snapshot.len() >= before && snapshot.iter().len() == snapshot.len());
                before = snapshot.len();
            }
        });
    });
    assert_eq!(map.len(), 5_000);
    {
        let mut held = map.lock();
        let was = held.get(7u64.to_be_bytes()).unwrap();
        held.put(7u64.to_be_bytes(), was + 10).unwrap();
    }
    assert!(map.get(7u64.to_be_bytes()) >= Some(10) && map.contains_key(8u64.to_be_bytes()));
    assert_eq!(map.replace(7u64.to_be_bytes(), 1).map(|was| was >= Some(10)), Ok(true));
    assert_eq!(map.replace_if(7u64.to_be_bytes(), &1, 2), Ok(true));
    assert_eq!(map.remove_if(7u64.to_be_bytes(), &1), Ok(false));
    assert_eq!(map.remove(7u64.to_be_bytes()), Ok(Some(2)));
    assert_eq!(map.clear(), 4_999);
    assert!(map.is_empty() && map.into_map().is_empty());
}
