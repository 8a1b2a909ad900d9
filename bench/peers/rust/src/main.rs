// What a Rust user would pick instead: a HashMap under a Mutex, dashmap, and the persistent HashMap of im.
// Prints one line a measurement: PEER NAME THREADS NANOSECONDS, the best of the rounds, for N pairs. The words are text or
// u64, for the keys, and then N and the rounds.
use std::collections::HashMap;
use std::sync::Mutex;
use std::time::Instant;

fn key(i: usize) -> Box<[u8]> {
    format!("k{i:07}").into_bytes().into_boxed_slice()
}

fn best(rounds: usize, mut work: impl FnMut() -> u128) -> u128 {
    (0..rounds).map(|_| work()).min().unwrap()
}

fn timed<T>(work: impl FnOnce() -> T) -> u128 {
    let start = Instant::now();
    std::hint::black_box(work());
    start.elapsed().as_nanos()
}

/// The bytes that the process holds in memory now, as Linux tells them.
fn resident() -> usize {
    let text = std::fs::read_to_string("/proc/self/statm").unwrap();
    text.split_whitespace().nth(1).unwrap().parse::<usize>().unwrap() * 4096
}

/// The keys in an order of no order, the same in each run: Fisher and Yates over a xorshift generator.
fn shuffled(keys: &[Box<[u8]>]) -> Vec<&[u8]> {
    let mut order: Vec<&[u8]> = keys.iter().map(|k| &**k).collect();
    let mut state = 0x9e37_79b9_7f4a_7c15u64;
    for i in (1..order.len()).rev() {
        state ^= state << 13;
        state ^= state >> 7;
        state ^= state << 17;
        order.swap(i, (state % (i as u64 + 1)) as usize);
    }
    order
}

fn show(peer: &str, name: &str, threads: usize, ns: u128) {
    println!("{peer} {name} {threads} {ns}");
}

/// How many calls a round of the loads of several threads makes, over all its threads.
const CALLS: usize = 400_000;

/// The calls of one thread: keys by xorshift, the first of ten calls a put.
fn mixed(map: &dashmap::DashMap<Box<[u8]>, i64>, keys: &[Box<[u8]>], calls: usize, thread: u64) -> i64 {
    let mut state = thread + 1;
    let mut sum = 0;
    for call in 0..calls {
        state ^= state << 13;
        state ^= state >> 7;
        state ^= state << 17;
        let place = (state % keys.len() as u64) as usize;
        if call % 10 == 0 {
            map.insert(keys[place].clone(), place as i64);
        } else {
            sum += *map.get(&keys[place]).unwrap();
        }
    }
    sum
}

/// Times the work of several threads, each of which is given its number, for one call.
fn shared(rounds: usize, threads: usize, work: impl Fn(usize) -> i64 + Sync) -> u128 {
    let work = &work;
    let round = || timed(|| std::thread::scope(|scope| {
        for thread in 0..threads {
            scope.spawn(move || std::hint::black_box(work(thread)));
        }
    }));
    best(rounds, round) / CALLS as u128
}

/// Maps whose keys are the numbers from 0, of 64 bits each.
fn numbers(n: usize, rounds: usize) {
    let half = n as i64 / 2;
    let keys: Vec<u64> = (0..n as u64).collect();
    let fill = || {
        let mut map = im_rc::HashMap::<u64, i64>::new();
        for k in &keys {
            map.insert(*k, *k as i64);
        }
        map
    };
    let mut map = fill();
    show("im_rc", "u64_get", 1, best(rounds, || timed(|| keys.iter().map(|k| map[k]).sum::<i64>())));
    show("im_rc", "u64_replace", 1, best(rounds, || timed(|| for k in &keys {
        map.insert(*k, *k as i64);
    })));
    show("im_rc", "u64_count", 1, best(rounds, || timed(|| map.values().filter(|v| **v < half).count())));
    drop(map);
    show("im_rc", "u64_put", 1, best(rounds, || timed(&fill)));
    show("im_rc", "u64_remove", 1, best(rounds, || {
        let mut map = fill();
        timed(|| for k in &keys { map.remove(k); })
    }));
    let fill = || {
        let map = dashmap::DashMap::<u64, i64>::new();
        for k in &keys {
            map.insert(*k, *k as i64);
        }
        map
    };
    let map = fill();
    show("dashmap", "u64_get", 1, best(rounds, || timed(|| keys.iter().map(|k| *map.get(k).unwrap()).sum::<i64>())));
    show("dashmap", "u64_replace", 1, best(rounds, || timed(|| for k in &keys {
        map.insert(*k, *k as i64);
    })));
    show("dashmap", "u64_count", 1, best(rounds, || timed(|| map.iter().filter(|e| *e.value() < half).count())));
    drop(map);
    show("dashmap", "u64_put", 1, best(rounds, || timed(&fill)));
    show("dashmap", "u64_remove", 1, best(rounds, || {
        let map = fill();
        timed(|| for k in &keys { map.remove(k); })
    }));
}

fn main() {
    let args: Vec<String> = std::env::args().skip(1).collect();
    let (n, rounds) = (args[1].parse().unwrap(), args[2].parse().unwrap());
    if args[0] == "u64" {
        numbers(n, rounds);
    } else {
        texts(n, rounds);
    }
}

/// Maps whose keys are the texts `k0000000`, `k0000001` and so on.
fn texts(n: usize, rounds: usize) {
    let before_keys = resident();
    let keys: Vec<Box<[u8]>> = (0..n).map(key).collect();
    // what the keys take beside the 16 bytes by which a table holds each
    let key_bytes = resident() as isize - before_keys as isize - 16 * n as isize;
    let at_random = shuffled(&keys);

    // im: persistent, a snapshot is a clone of the root. Its first map is measured first, on a heap that is whole.
    let fill = || {
        let mut map = im_rc::HashMap::<Box<[u8]>, i64>::new();
        for (i, k) in keys.iter().enumerate() {
            map.insert(k.clone(), i as i64);
        }
        map
    };
    let before = resident();
    let mut map = fill();
    // the map has its own copies of the keys
    let bytes = resident() as isize - before as isize - key_bytes;
    show("im_rc", "bytes_a_pair", 1, (bytes.max(0) as usize / n) as u128);
    show("im_rc", "get", 1, best(rounds, || timed(|| keys.iter().map(|k| map[k]).sum::<i64>())));
    show("im_rc", "get_random", 1, best(rounds, || timed(|| at_random.iter().map(|k| map[*k]).sum::<i64>())));
    show("im_rc", "replace", 1, best(rounds, || timed(|| for (i, k) in keys.iter().enumerate() {
        map.insert(k.clone(), i as i64);
    })));
    show("im_rc", "walk", 1, best(rounds, || timed(|| map.values().sum::<i64>())));
    show("im_rc", "count", 1, best(rounds, || timed(|| map.values().filter(|v| *v % 2 == 0).count())));
    drop(map);
    show("im_rc", "put", 1, best(rounds, || timed(&fill)));
    let mut map = fill();
    show("im_rc", "scattered_get", 1, best(rounds, || timed(|| keys.iter().map(|k| map[k]).sum::<i64>())));
    show("im_rc", "scattered_replace", 1, best(rounds, || timed(|| for (i, k) in keys.iter().enumerate() {
        map.insert(k.clone(), i as i64);
    })));
    let writes = 1000;
    show("im_rc", "snapshot_then_put", 1, best(rounds, || timed(|| for i in 0..writes {
        let copy = map.clone();
        map.insert(keys[i % n].clone(), i as i64);
        std::hint::black_box(copy.len());
    })) / writes as u128);
    show("im_rc", "remove", 1, best(rounds, || {
        let mut map = fill();
        timed(|| for k in &keys { map.remove(k); })
    }));
    drop(map);
    // two maps of half the keys each
    {
        let half = |keys: &[Box<[u8]>]| keys.iter().map(|k| (k.clone(), 1i64)).collect::<im_rc::HashMap<_, _>>();
        let (low, high) = (half(&keys[..n / 2]), half(&keys[n / 2..]));
        show("im_rc", "merge", 1, best(rounds, || timed(|| low.clone().union(high.clone()))));
    }

    // std: a HashMap under one Mutex; its snapshot is a clone
    let fill = || {
        let map = Mutex::new(HashMap::<Box<[u8]>, i64>::new());
        for (i, k) in keys.iter().enumerate() {
            map.lock().unwrap().insert(k.clone(), i as i64);
        }
        map
    };
    show("mutex_hashmap", "put", 1, best(rounds, || timed(&fill)));
    let map = fill();
    show("mutex_hashmap", "get", 1, best(rounds, || timed(|| keys.iter().map(|k| map.lock().unwrap()[k]).sum::<i64>())));
    show("mutex_hashmap", "count", 1, best(rounds, || timed(|| map.lock().unwrap().values().filter(|v| *v % 2 == 0).count())));
    show("mutex_hashmap", "snapshot_then_put", 1, best(rounds, || timed(|| {
        let copy = map.lock().unwrap().clone();
        map.lock().unwrap().insert(keys[0].clone(), 1);
        copy.len()
    })));

    drop(map);

    // dashmap: no snapshot
    let dash = dashmap::DashMap::<Box<[u8]>, i64>::new();
    show("dashmap", "put", 1, best(1, || timed(|| for (i, k) in keys.iter().enumerate() {
        dash.insert(k.clone(), i as i64);
    })));
    show("dashmap", "get", 1, best(rounds, || timed(|| keys.iter().map(|k| *dash.get(k).unwrap()).sum::<i64>())));
    show("dashmap", "count", 1, best(rounds, || timed(|| dash.iter().filter(|e| *e.value() % 2 == 0).count())));
    for threads in [1, 2, 4] {
        let calls = |thread| mixed(&dash, &keys, CALLS / threads, thread as u64);
        show("dashmap", "mixed", threads, shared(rounds, threads, calls));
    }
    // one key, which all threads get, and then put
    let (one, place) = (&keys[n - 1], n as i64 - 1);
    for threads in [1, 4] {
        let gets = |_| (0..CALLS / threads).map(|_| *dash.get(one).unwrap()).sum();
        show("dashmap", "one_key_reads", threads, shared(rounds, threads, gets));
    }
    for threads in [1, 4] {
        let puts = |_| (0..CALLS / threads).map(|_| dash.insert(one.clone(), place).unwrap()).sum();
        show("dashmap", "one_key_writes", threads, shared(rounds, threads, puts));
    }
}
