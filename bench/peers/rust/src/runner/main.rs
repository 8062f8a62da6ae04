//! What a Rust user would write by hand: serde_json, std's `HashMap` and a CLOCK ring for each cache, no transcript.
//!
//!     runner [--typed] CONFIG SCRIPT
//!
//! Lines are read as `serde_json::Value`, as jcache reads them, or with `--typed` into a struct. All lines are read
//! before the first call.

mod cache;
mod script;

use cache::Cache;
use script::{Call, Op};
use std::collections::HashMap;
use std::io::Write;

/// Names and capacities: of a configuration the benchmark uses no more.
fn caches(config: &str) -> Vec<(String, u32)> {
    let mut found = Vec::new();
    let mut name = String::new();
    for line in config.lines() {
        match line.split_once(" = ") {
            Some(("name", text)) => name = text.trim_matches('"').to_string(),
            Some(("capacity", number)) => found.push((name.clone(), number.parse().unwrap())),
            _ => {}
        }
    }
    found
}

fn quoted(report: &mut Vec<u8>, text: &str) {
    serde_json::to_writer(report, text).unwrap();
}

fn get(cache: &mut Cache, key: &str) {
    match cache.get(key) {
        None => cache.report.extend_from_slice(b"get none\n"),
        Some(slot) => {
            cache.report.extend_from_slice(b"get some ");
            quoted(&mut cache.report, &cache.slots[slot as usize].value);
            cache.report.push(b'\n');
        }
    }
}

fn entries(cache: &mut Cache) {
    let pairs = cache.entries();
    cache.report.extend_from_slice(b"entries pairs");
    for slot in pairs {
        cache.report.push(b' ');
        quoted(&mut cache.report, &cache.slots[slot as usize].key);
        cache.report.push(b'=');
        quoted(&mut cache.report, &cache.slots[slot as usize].value);
    }
    cache.report.push(b'\n');
}

fn stats(cache: &mut Cache) {
    let c = &cache.counts;
    let (h, m, p, r, e) = (c.hits, c.misses, c.puts, c.removals, c.evictions);
    writeln!(cache.report, "stats {h} {m} {p} {r} {e}").unwrap();
}

fn run(cache: &mut Cache, call: Call) {
    write!(cache.report, "{} ", call.session).unwrap();
    match call.op {
        Op::Get(key) => get(cache, &key),
        Op::Contains(key) => {
            let there = cache.contains(&key);
            writeln!(cache.report, "contains {there}").unwrap();
        }
        Op::Put(key, value) => {
            cache.put(key, value);
            cache.report.extend_from_slice(b"put ok\n");
        }
        Op::Remove(key) => {
            let gone = cache.remove(&key);
            writeln!(cache.report, "remove {gone}").unwrap();
        }
        Op::Stats => stats(cache),
        Op::Entries => entries(cache),
        Op::RemoveAll => {
            cache.clear(true);
            cache.report.extend_from_slice(b"remove_all ok\n");
        }
        Op::Clear => {
            cache.clear(false);
            cache.report.extend_from_slice(b"clear ok\n");
        }
    }
}

fn report(config: &[(String, u32)], bytes: &[u8], is_typed: bool) -> Result<Vec<u8>, String> {
    let ids: HashMap<&str, u32> = config.iter().enumerate().map(|(i, c)| (c.0.as_str(), i as u32)).collect();
    let calls = script::read(bytes, &ids, is_typed)?;
    let mut caches: Vec<Cache> = config.iter().map(|c| Cache::new(c.1)).collect();
    for call in calls {
        run(&mut caches[call.cache as usize], call);
    }
    let mut report = Vec::new();
    for (cache, (name, _)) in caches.iter().zip(config) {
        writeln!(report, "cache {name}").unwrap();
        report.extend_from_slice(&cache.report);
    }
    Ok(report)
}

fn main() {
    let mut words: Vec<String> = std::env::args().skip(1).collect();
    let is_typed = words[0] == "--typed";
    let paths = words.split_off(is_typed as usize);
    let config = caches(&std::fs::read_to_string(&paths[0]).unwrap());
    match report(&config, &std::fs::read(&paths[1]).unwrap(), is_typed) {
        Ok(report) => std::io::stdout().write_all(&report).unwrap(),
        Err(fault) => {
            eprintln!("{fault}");
            std::process::exit(1);
        }
    }
}
