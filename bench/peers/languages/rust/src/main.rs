//! Gets that hit and puts of keys that are there, from Rust: prints the nanoseconds of the processor that one takes.
//!
//!     calls CONTENDER
use dashmap::DashMap;
use jcache::{Configuration, Error, Manager};
use std::collections::HashMap;
use std::sync::{Mutex, PoisonError};

#[path = "../../../rust/src/maps/clock.rs"]
mod clock;

const COUNT: usize = 5_000;
const WARM: usize = 100_000;
const CALLS: usize = 1_000_000;

/// What one call takes, of so many with keys that follow each other without a pattern.
fn each(times: usize, call: &dyn Fn(usize)) -> u64 {
    let began = clock::processor_nanoseconds();
    let mut key = 0;
    for _ in 0..times {
        call(key);
        key = (key + 1_237) % COUNT;
    }
    (clock::processor_nanoseconds() - began) / times as u64
}

fn measure(get: &dyn Fn(usize), put: &dyn Fn(usize)) {
    each(COUNT, put);
    each(WARM, get);
    each(WARM, put);
    println!("{} {}", each(CALLS, get), each(CALLS, put));
}

fn main() -> Result<(), Error> {
    let keys: Vec<String> = (0..COUNT).map(|i| format!("user:{}", 1_000_000 + i)).collect();
    let values: Vec<Vec<u8>> = (0..COUNT).map(|i| format!("{:100}", format!("value {i}")).into_bytes()).collect();
    match std::env::args().nth(1).as_deref() {
        Some("jcache") => {
            let cache = Manager::new()?.create_cache("calls", Configuration::new(10_000))?;
            let get = |i: usize| assert!(cache.get(&keys[i]).is_ok_and(|value| value.is_some()));
            measure(&get, &|i| cache.put(&keys[i], &values[i]).expect("a put is done"));
        }
        Some("dashmap") => {
            let map = DashMap::new();
            let get = |i: usize| assert!(map.get(&keys[i]).map(|value: dashmap::mapref::one::Ref<_, Vec<u8>>| value.clone()).is_some());
            measure(&get, &|i| drop(map.insert(keys[i].clone(), values[i].clone())));
        }
        _ => {
            let map: Mutex<HashMap<String, Vec<u8>>> = Mutex::default();
            let held = || map.lock().unwrap_or_else(PoisonError::into_inner);
            let get = |i: usize| assert!(held().get(&keys[i]).cloned().is_some());
            measure(&get, &|i| drop(held().insert(keys[i].clone(), values[i].clone())));
        }
    }
    Ok(())
}
