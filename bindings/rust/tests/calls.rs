//! The binding: each call, each hook, what fails and from what, clocks, walks, moka's names, and threads.
use jcache::{
    BoxError, Cache, Configuration, Entry, Error, Event, EventKind, Expiry, FixedClock, Manager, Row, Statistics,
};
use std::collections::HashMap;
use std::panic::{catch_unwind, AssertUnwindSafe};
use std::sync::{Arc, Mutex};
use std::time::Duration;

type Outcome = Result<(), Error>;

fn bytes(text: &str) -> Option<Vec<u8>> {
    Some(text.as_bytes().to_vec())
}

#[test]
fn plain_calls() -> Outcome {
    let manager = Manager::new()?;
    let cache = manager.create_cache("plain", Configuration::new(2))?;
    let long = "v".repeat(65_535);
    assert_eq!(cache.get("k")?, None);
    cache.put("k", &long)?;
    assert_eq!(cache.peek("k")?.map(|row| row.value), bytes(&long));
    assert_eq!((cache.get("k")?, cache.get_and_put("k", "")?), (bytes(&long), bytes(&long)));
    assert_eq!((cache.get("k")?, cache.contains_key("k")?), (bytes(""), true));
    assert_eq!(
        (cache.put_if_absent("k", "w")?, cache.replace("k", "w")?, cache.replace("n", "w")?),
        (false, true, false)
    );
    assert_eq!((cache.replace_if("k", "v", "x")?, cache.replace_if("k", "w", "x")?), (false, true));
    assert_eq!((cache.get_and_replace("k", "y")?, cache.get_and_replace("n", "y")?), (bytes("x"), None));
    assert_eq!((cache.remove_if("k", "x")?, cache.remove_if("k", "y")?, cache.remove("k")?), (false, true, false));
    assert_eq!(cache.get_and_remove("k")?, None);
    cache.put_all(&[("a", b"1"), ("bü", b"22")])?;
    let both = vec![("a".to_string(), b"1".to_vec()), ("bü".to_string(), b"22".to_vec())];
    assert_eq!(
        (cache.get_all(&["a", "c", "bü"])?, cache.entries()?, cache.get_all(&[])?),
        (both.clone(), both, vec![])
    );
    cache.remove_keys(&["a", "c"])?;
    cache.remove_all()?;
    cache.put("a", "1")?;
    cache.clear()?;
    assert_eq!((cache.entries()?, cache.statistics()?.removals), (vec![], 3));
    cache.clear_statistics()?;
    cache.get("k")?;
    assert_eq!(cache.statistics()?, Statistics { misses: 1, ..Statistics::default() });
    Ok(())
}

#[test]
fn bounds_in_bytes() -> Outcome {
    let manager = Manager::with_seed(7, || 0)?;
    let loads = |key: &str| Ok(Some(key.as_bytes().to_vec()));
    let cache = manager.create_cache("bounds", Configuration::new(3).max_value(4).loader(loads))?;
    cache.put("a", "1234")?;
    assert!(matches!(cache.put("a", "12345"), Err(Error::BadValue)));
    assert!(matches!(cache.get("longer"), Err(Error::BadValue)));
    assert_eq!((cache.get("a")?, cache.byte_count()?, cache.configuration().max_value), (bytes("1234"), 5, 4));
    assert_eq!((cache.get("bu")?, cache.byte_count()?), (bytes("bu"), 9));
    Ok(())
}

#[test]
fn caches_of_a_manager() -> Outcome {
    let manager = Manager::new()?;
    let expiry = Expiry::Touched(Duration::from_millis(5));
    let first = manager.create_cache("first", Configuration::new(3).expiry(expiry).loader(|_| Ok(None)))?;
    assert_eq!((first.name(), first.configuration().capacity, first.configuration().expiry), ("first", 3, expiry));
    manager.create_cache("second", Configuration::new(3))?;
    assert_eq!(manager.cache_names()?, ["first", "second"]);
    assert!(matches!(manager.create_cache("first", Configuration::new(3)), Err(Error::DuplicateName)));
    assert!(matches!(manager.create_cache("none", Configuration::new(0)), Err(Error::BadCapacity)));
    assert!(matches!(manager.create_cache("", Configuration::new(3)), Err(Error::BadKey)));
    let heard = (0..300).fold(Configuration::new(3), |made, _| made.listener(|_| ()));
    assert!(matches!(manager.create_cache("none", heard), Err(Error::TooManyListeners)));
    manager.destroy_cache("first")?;
    manager.destroy_cache("first")?;
    assert!(matches!(first.get("k"), Err(Error::NoSuchCache)));
    assert!(manager.get_cache("first")?.is_none() && manager.get_cache("second")?.is_some());
    assert!(!manager.is_closed());
    let second = manager.get_cache("second")?;
    manager.close();
    manager.close();
    assert!(manager.is_closed() && matches!(manager.get_cache("second"), Err(Error::Closed)));
    assert!(matches!(second.map(|cache| cache.get("k")), Some(Err(Error::Closed))));
    assert_eq!(jcache::version() / 10_000, 0);
    Ok(())
}

#[test]
fn refused_arguments() -> Outcome {
    let manager = Manager::new()?;
    let cache = manager.create_cache("plain", Configuration::new(2))?;
    assert!(matches!(cache.get(""), Err(Error::BadKey)) && matches!(cache.get(&"k".repeat(64)), Err(Error::BadKey)));
    assert!(matches!(cache.put("k", "v".repeat(65_536)), Err(Error::BadValue)));
    assert!(matches!(cache.get_all(&["a", "a"]), Err(Error::DuplicateKey)));
    let many: Vec<String> = (0..65).map(|n| n.to_string()).collect();
    let many: Vec<&str> = many.iter().map(String::as_str).collect();
    assert!(matches!(cache.remove_keys(&many), Err(Error::TooManyKeys)));
    assert_eq!(cache.statistics()?, Statistics::default());
    Ok(())
}

#[test]
fn clocks() -> Outcome {
    let clock = FixedClock::new(5);
    let manager = Manager::with_clock(clock.reader())?;
    let expiry = Expiry::Created(Duration::from_millis(10));
    let cache = manager.create_cache("moments", Configuration::new(2).expiry(expiry))?;
    cache.put("k", "v")?;
    clock.advance(Duration::from_millis(9));
    let row = Row { key: "k".into(), value: b"v".to_vec(), expires: Some(15) };
    assert_eq!((cache.contains_key("k")?, cache.peek("k")?), (true, Some(row)));
    clock.set(15);
    assert_eq!((cache.contains_key("k")?, cache.peek("k")?, cache.at(14).get("k")?), (false, None, bytes("v")));
    let wall = jcache::WallClock::new();
    let before = wall.now();
    assert!(before > 1_700_000_000_000 && wall.now() >= before);
    Ok(())
}

/// What lies behind a cache, and what its listener has heard.
#[derive(Clone, Default)]
struct Behind {
    rows: Arc<Mutex<HashMap<String, Vec<u8>>>>,
    heard: Arc<Mutex<Vec<Event>>>,
}

impl Behind {
    fn load(&self, key: &str) -> Result<Option<Vec<u8>>, BoxError> {
        if key == "worse" {
            return Err("no such row".into());
        }
        Ok(self.rows.lock().unwrap().get(key).cloned())
    }

    fn write(&self, key: &str, value: Option<&[u8]>) -> Result<(), BoxError> {
        let mut rows = self.rows.lock().unwrap();
        match (key, value) {
            ("locked", _) => return Err("the row is locked".into()),
            (_, Some(value)) => rows.insert(key.into(), value.into()),
            (_, None) => rows.remove(key),
        };
        Ok(())
    }
}

/// A cache with all hooks, at moment 0.
fn hooked(manager: &Manager) -> Result<(Cache, Behind), Error> {
    let behind = Behind::default();
    behind.rows.lock().unwrap().insert("ann".into(), b"Ann".to_vec());
    let (loads, writes, hears) = (behind.clone(), behind.clone(), behind.clone());
    let configuration = Configuration::new(10)
        .expiry(Expiry::Touched(Duration::from_millis(100)))
        .loader(move |key| loads.load(key))
        .writer(move |key, value| writes.write(key, value))
        .listener(move |event| hears.heard.lock().unwrap().push(event.clone()));
    Ok((manager.create_cache("hooked", configuration)?.at(0), behind))
}

fn append(entry: &mut Entry, more: &str) -> Result<Vec<u8>, BoxError> {
    let before = entry.value().ok_or("no value")?.to_vec();
    entry.set([&before, more.as_bytes()].concat());
    Ok(before)
}

#[test]
fn hooks() -> Outcome {
    let manager = Manager::new()?;
    let (cache, behind) = hooked(&manager)?;
    let Behind { rows, heard } = behind;
    assert_eq!((cache.get("ann")?, cache.get("bob")?), (bytes("Ann"), None));
    let created = Event { kind: EventKind::Created, key: "ann".into(), value: bytes("Ann"), before: None };
    assert_eq!(*heard.lock().unwrap(), [created]);
    cache.put("eve", "Eve")?;
    assert_eq!(rows.lock().unwrap().get("eve").cloned(), bytes("Eve"));
    assert_eq!(cache.invoke("eve", |entry| append(entry, "!"))?, b"Eve");
    let results = cache.invoke_all(&["eve", "none"], |entry| append(entry, "?"))?;
    assert_eq!(results.iter().map(|(key, _)| key.as_str()).collect::<Vec<_>>(), ["eve", "none"]);
    assert_eq!(results[0].1.as_ref().ok().cloned(), bytes("Eve!"));
    assert_eq!(results[1].1.as_ref().err().map(ToString::to_string), Some("no value".into()));
    rows.lock().unwrap().insert("kim".into(), b"Kim".to_vec());
    assert!(!cache.invoke_without_load("kim", |entry| Ok(entry.exists()))?);
    assert_eq!(cache.get_and_remove("eve")?, bytes("Eve!?"));
    assert!(!rows.lock().unwrap().contains_key("eve"));
    assert_eq!(cache.at(500).get("ann")?, bytes("Ann"));
    let kinds: Vec<_> = heard.lock().unwrap().iter().map(|event| event.kind).collect();
    use EventKind::{Created, Expired, Removed, Updated};
    assert_eq!(kinds, [Created, Created, Updated, Updated, Removed, Expired, Created]);
    cache.invoke("ann", |entry| {
        entry.remove();
        Ok(())
    })?;
    assert!(rows.lock().unwrap().get("ann").is_none());
    Ok(())
}

#[test]
fn failures_have_a_source() -> Outcome {
    let manager = Manager::new()?;
    let (cache, _) = hooked(&manager)?;
    let source = |error: Error| std::error::Error::source(&error).map(ToString::to_string).unwrap_or_default();
    let failed = cache.load_all(&["ann", "worse"], true);
    assert!(matches!(failed, Err(Error::LoaderFailed { done: Some(1), .. })));
    assert_eq!(failed.map_err(source), Err("no such row".into()));
    let failed = cache.put("locked", "");
    assert!(matches!(failed, Err(Error::WriterFailed { done: None, .. })));
    assert_eq!(failed.map_err(source), Err("the row is locked".into()));
    let failed = cache.invoke("none", |entry| append(entry, ""));
    assert!(matches!(failed, Err(Error::ProcessorFailed { .. })));
    assert_eq!(failed.map_err(source), Err("no value".into()));
    assert_eq!((cache.contains_key("locked")?, cache.get("ann")?), (false, bytes("Ann")));
    Ok(())
}

#[test]
fn a_panic_or_a_refused_answer_gives_the_call_up() -> Outcome {
    let manager = Manager::new()?;
    let load = |key: &str| if key == "long" { Ok(Some(vec![0; 65_536])) } else { panic!("a loader") };
    let cache = manager.create_cache("c", Configuration::new(2).loader(load))?;
    assert!(catch_unwind(AssertUnwindSafe(|| cache.get("k"))).is_err());
    assert!(matches!(cache.get("long"), Err(Error::BadValue)));
    cache.put("k", "v")?;
    assert_eq!(cache.get("k")?, bytes("v"));
    Ok(())
}

#[test]
fn a_hook_may_look_at_its_cache_and_not_call_it() -> Outcome {
    let manager = Manager::new()?;
    let cache = manager.create_cache("c", Configuration::new(2))?;
    cache.put("old", "v")?;
    cache.invoke("k", |_| {
        assert!(matches!(cache.get("old"), Err(Error::Busy)));
        assert!(matches!(manager.destroy_cache("c"), Err(Error::Busy)));
        assert_eq!((cache.entry_count()?, cache.iter().count()), (1, 1));
        assert_eq!(cache.peek("old")?.map(|row| row.value), bytes("v"));
        Ok(())
    })
}

#[test]
fn walks_give_each_live_entry_once() -> Outcome {
    let manager = Manager::new()?;
    let expiry = Expiry::Created(Duration::from_millis(10));
    let cache = manager.create_cache("c", Configuration::new(1000).expiry(expiry))?;
    let rows: HashMap<String, Vec<u8>> = (0..1000).map(|n| (format!("key {n}"), vec![7; n * 97 % 2000])).collect();
    for (place, key) in (0..1000).map(|n| format!("key {n}")).enumerate() {
        cache.at(place as u64 % 2).put(&key, &rows[&key])?;
    }
    let mut walked = 0;
    for row in cache.at(9).iter() {
        assert_eq!(rows.get(&row.key), Some(&row.value));
        walked += 1;
    }
    let live: HashMap<String, Option<u64>> = (&cache.at(10)).into_iter().map(|row| (row.key, row.expires)).collect();
    assert_eq!((walked, live.len(), cache.entry_count()?), (1000, 500, 1000));
    assert!(live.values().all(|expires| *expires == Some(11)));
    assert_eq!(cache.statistics()?.hits, 0);
    Ok(())
}

#[test]
fn the_names_of_moka() -> Outcome {
    let manager = Manager::new()?;
    let cache = manager.create_cache("c", Configuration::new(2))?;
    assert_eq!(
        (cache.get_with("k", || "made")?, cache.get_with("k", || "again")?),
        (b"made".to_vec(), b"made".to_vec())
    );
    assert!(matches!(cache.try_get_with("n", || Err::<&str, _>("none".into())), Err(Error::ProcessorFailed { .. })));
    cache.insert("n", "v")?;
    cache.invalidate("k")?;
    assert_eq!((cache.get("k")?, cache.get("n")?, cache.entry_count()?), (None, bytes("v"), 1));
    Ok(())
}

#[test]
fn four_threads() -> Outcome {
    fn is_shared<T: Send + Sync>() {}
    is_shared::<(Manager, Cache, Error, jcache::Iter)>();
    let manager = Manager::new()?;
    let caches = [manager.create_cache("a", Configuration::new(1))?, manager.create_cache("b", Configuration::new(1))?];
    let count = |entry: &mut Entry| {
        let before: u32 = std::str::from_utf8(entry.value().unwrap_or(b"0"))?.parse()?;
        entry.set((before + 1).to_string());
        Ok(())
    };
    std::thread::scope(|scope| {
        for n in 0..4 {
            let cache = &caches[n % 2];
            scope.spawn(move || (0..250).for_each(|_| cache.invoke("n", count).unwrap()));
        }
    });
    assert_eq!((caches[0].get("n")?, caches[1].get("n")?), (bytes("500"), bytes("500")));
    Ok(())
}
