//! A map in memory that threads share: lookups and calls of many threads, as `jc_bench` does and prints them.
//!
//!     maps dashmap|mutex KIND ROWS THREADS WRITERS CALLS

mod clock;
mod map;

use clock::processor_nanoseconds;
use dashmap::DashMap;
use map::{Key, Map};
use std::collections::HashMap;
use std::sync::atomic::{AtomicUsize, Ordering};
use std::sync::{Barrier, Mutex};
use std::time::Instant;

struct Size {
    rows: usize,
    threads: usize,
    writers: usize,
    calls: u64,
}

/// How often a try succeeded and failed.
#[derive(Default)]
struct Counts {
    yes: u64,
    no: u64,
}

impl Counts {
    fn add(&mut self, succeeded: bool) {
        *(if succeeded { &mut self.yes } else { &mut self.no }) += 1;
    }
}

fn numbered(front: &str, count: usize) -> Vec<Key> {
    (0..count).map(|i| (0, format!("{front}-{i:06}"))).collect()
}

fn value() -> Vec<u8> {
    vec![b'v']
}

fn ask<M: Map>(map: &M, kind: &str, key: &Key) -> bool {
    match kind {
        "lookup" | "miss" => map.has(key),
        "get" => map.get(key).is_some(),
        _ => {
            map.put(key.clone(), value());
            true
        }
    }
}

fn ask_often<M: Map>(map: &M, kind: &str, keys: &[Key], calls: u64, first: u64) -> Counts {
    let mut counts = Counts::default();
    let mut number = first;
    for _ in 0..calls {
        number = number.wrapping_mul(6364136223846793005).wrapping_add(1442695040888963407);
        counts.add(ask(map, kind, &keys[(number >> 33) as usize % keys.len()]));
    }
    counts
}

fn write_meanwhile<M: Map>(map: &M, keys: &[Key], busy: &AtomicUsize) -> Counts {
    let mut counts = Counts::default();
    for round in 0.. {
        if busy.load(Ordering::SeqCst) == 0 {
            break;
        }
        map.put(keys[round % keys.len()].clone(), value());
        map.remove(&keys[(round + keys.len() / 2) % keys.len()]);
        counts.yes += 2;
    }
    counts
}

/// Does the work when all threads are ready, and prints what came of it and how long it took.
fn timed(name: &str, ready: &Barrier, work: impl FnOnce() -> Counts) {
    ready.wait();
    let (start, used) = (Instant::now(), processor_nanoseconds());
    let Counts { yes, no } = work();
    let (processor, wall) = (processor_nanoseconds() - used, start.elapsed().as_nanos());
    println!("{name} yes={yes} no={no} unsure=0 refused=0 wall={wall} processor={processor}");
}

fn play<M: Map>(map: M, kind: &str, size: &Size) {
    for key in numbered("key", size.rows) {
        map.put(key, value());
    }
    let keys = numbered(if kind == "miss" { "mis" } else { "key" }, size.rows);
    let own = numbered("own", 64);
    let (ready, busy) = (Barrier::new(size.threads + size.writers), AtomicUsize::new(size.threads));
    let (map, keys, own, ready, busy) = (&map, &keys, &own, &ready, &busy);
    std::thread::scope(|scope| {
        for first in 0..size.threads as u64 {
            scope.spawn(move || {
                timed(kind, ready, || ask_often(map, kind, keys, size.calls, first));
                busy.fetch_sub(1, Ordering::SeqCst);
            });
        }
        for _ in 0..size.writers {
            scope.spawn(move || timed("write", ready, || write_meanwhile(map, own, busy)));
        }
    });
}

fn main() {
    let words: Vec<String> = std::env::args().collect();
    let number = |at: usize| words[at].parse::<usize>().unwrap();
    let size = Size { rows: number(3), threads: number(4), writers: number(5), calls: number(6) as u64 };
    match words[1].as_str() {
        "dashmap" => play(DashMap::new(), &words[2], &size),
        _ => play(Mutex::new(HashMap::new()), &words[2], &size),
    }
}
