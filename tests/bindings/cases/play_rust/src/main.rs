//! Plays cases.jsonl, whose form README.md tells, and prints how many calls it made.
//!
//!     play CASES
use jcache::{BoxError, Cache, Configuration, Entry, Error, Event, EventKind, Expiry, FixedClock, Manager};
use serde_json::{json, Value};
use std::sync::{Arc, Mutex};
use std::time::Duration;

/// What the hooks were asked since the last call.
#[derive(Clone, Default)]
struct Asked(Arc<Mutex<Vec<Value>>>);

impl Asked {
    fn note(&self, asked: Value) {
        self.0.lock().unwrap().push(asked);
    }

    fn load(&self, key: &str) -> Result<Option<Vec<u8>>, BoxError> {
        self.note(json!(["load", key]));
        match key.chars().next() {
            Some('!') => Err("a loader".into()),
            Some('-') => Ok(None),
            _ => Ok(Some(key.into())),
        }
    }

    fn write(&self, key: &str, value: Option<&[u8]>) -> Result<(), BoxError> {
        self.note(match value {
            Some(_) => json!(["write", key, text(value)]),
            None => json!(["delete", key]),
        });
        if key.starts_with('!') {
            return Err("a writer".into());
        }
        Ok(())
    }

    fn hear(&self, event: &Event) {
        let kind = match event.kind {
            EventKind::Created => "created",
            EventKind::Updated => "updated",
            EventKind::Removed => "removed",
            EventKind::Expired => "expired",
        };
        self.note(json!([kind, event.key, text(event.value.as_deref()), text(event.before.as_deref())]));
    }

    fn process(&self, cache: &Cache, entry: &mut Entry, line: &Line) -> Result<Option<Vec<u8>>, BoxError> {
        let value = entry.value().map(<[u8]>::to_vec);
        self.note(json!(["process", entry.key(), text(value.as_deref())]));
        match line.text("f") {
            "fail" => return Err("a function".into()),
            "save" => self.note(json!(["save", cache.save().map_or_else(|error| refused(&error), |_| json!(0))])),
            "drop" => entry.remove(),
            "append" => {
                entry.set([&value.unwrap_or_default(), line.text("arg").as_bytes()].concat());
                return Ok(entry.value().map(<[u8]>::to_vec));
            }
            _ => (),
        }
        Ok(value)
    }
}

fn text(value: Option<&[u8]>) -> Value {
    value.map_or(Value::Null, |value| json!(String::from_utf8_lossy(value)))
}

fn value(found: Option<Vec<u8>>) -> Value {
    json!({ "value": text(found.as_deref()) })
}

fn pairs(found: &[(String, Vec<u8>)]) -> Value {
    let pairs: Vec<Value> = found.iter().map(|(key, value)| json!([key, text(Some(value))])).collect();
    json!({ "pairs": pairs })
}

/// The number of a refusal in the header.
fn refused(error: &Error) -> Value {
    match error {
        Error::Busy => json!(33),
        Error::BadCapacity => json!(49),
        Error::DuplicateName => json!(52),
        Error::BadKey => json!(66),
        Error::BadValue => json!(67),
        Error::DuplicateKey => json!(70),
        Error::BadSave { .. } => json!(74),
        Error::OtherVersion { .. } => json!(75),
        other => json!(other.to_string()),
    }
}

fn hex(bytes: &[u8]) -> String {
    bytes.iter().map(|byte| format!("{byte:02x}")).collect()
}

/// A line of the cases.
struct Line(Value);

impl Line {
    fn text(&self, name: &str) -> &str {
        self.0[name].as_str().unwrap_or_default()
    }

    fn is(&self, name: &str) -> bool {
        self.0[name].as_bool().unwrap_or_default()
    }

    fn keys(&self) -> Vec<&str> {
        self.0["ks"].as_array().into_iter().flatten().filter_map(Value::as_str).collect()
    }

    fn bytes(&self) -> Option<Vec<u8>> {
        let digits = self.0["bytes"].as_str()?.as_bytes();
        let byte = |pair: &[u8]| u8::from_str_radix(std::str::from_utf8(pair).ok()?, 16).ok();
        digits.chunks(2).map(byte).collect()
    }

    fn configuration(&self, asked: &Asked) -> Configuration {
        let after = Duration::from_millis(self.0["duration"].as_u64().unwrap_or_default());
        let expiry = match self.text("expiry") {
            "created" => Expiry::Created(after),
            "accessed" => Expiry::Accessed(after),
            "modified" => Expiry::Modified(after),
            "touched" => Expiry::Touched(after),
            _ => Expiry::Eternal,
        };
        let capacity = self.0["capacity"].as_u64().unwrap_or_default();
        let max_value = self.0["max_value"].as_u64().unwrap_or(65_535);
        let made = Configuration::new(u32::try_from(capacity).unwrap_or(u32::MAX))
            .expiry(expiry)
            .max_value(u32::try_from(max_value).unwrap_or(u32::MAX));
        let hooks = self.0["hooks"].as_array().into_iter().flatten().filter_map(Value::as_str);
        hooks.fold(made, |made, hook| {
            let asked = asked.clone();
            match hook {
                "loader" => made.loader(move |key| asked.load(key)),
                "writer" => made.writer(move |key, value| asked.write(key, value)),
                _ => made.listener(move |event| asked.hear(event)),
            }
        })
    }
}

/// Capacity, policy by its number in the header, and duration.
fn settings(of: &Configuration) -> Value {
    let (policy, after) = match of.expiry {
        Expiry::Eternal => (0, Duration::ZERO),
        Expiry::Created(after) => (1, after),
        Expiry::Accessed(after) => (2, after),
        Expiry::Modified(after) => (3, after),
        Expiry::Touched(after) => (4, after),
    };
    json!([of.capacity, policy, u64::try_from(after.as_millis()).unwrap_or(u64::MAX)])
}

/// A manager with the cache of one case.
struct Player {
    clock: FixedClock,
    manager: Manager,
    cache: Cache,
    asked: Asked,
    saved: Vec<u8>,
}

impl Player {
    fn new(line: &Line) -> Result<Player, Error> {
        let (clock, asked) = (FixedClock::new(0), Asked::default());
        let manager = Manager::with_seed(7, clock.reader())?;
        let cache = manager.create_cache("case", line.configuration(&asked))?;
        Ok(Player { clock, manager, cache, asked, saved: Vec::new() })
    }

    /// What a call comes to, as a case says it.
    fn call(&mut self, line: &Line) -> Value {
        let cache = line.0["at"].as_u64().map_or(self.cache.clone(), |now| self.cache.at(now));
        let outcome = self.of_manager(line).and_then(|outcome| match outcome {
            None => self.of_one(line, &cache),
            some => Ok(some),
        });
        let outcome = outcome.and_then(|outcome| match outcome {
            None => self.of_many(line, &cache),
            some => Ok(some),
        });
        let failed = |who: &str, done: Option<u64>| match done {
            Some(done) => json!({ "failed": who, "done": done }),
            None => json!({ "failed": who }),
        };
        match outcome {
            Ok(outcome) => outcome.unwrap_or_else(|| json!("no such op")),
            Err(Error::LoaderFailed { done, .. }) => failed("loader", done),
            Err(Error::WriterFailed { done, .. }) => failed("writer", done),
            Err(Error::ProcessorFailed { .. }) => failed("function", None),
            Err(error) => match error {
                Error::BadSave { place } | Error::OtherVersion { place } => {
                    json!({ "refused": refused(&error), "place": place })
                }
                _ => json!({ "refused": refused(&error) }),
            },
        }
    }

    /// What is the manager's, and what makes the cache that is called from then on.
    fn of_manager(&mut self, line: &Line) -> Result<Option<Value>, Error> {
        let name = line.text("name");
        match line.text("op") {
            "clock" => self.clock.set(line.0["at"].as_u64().unwrap_or_default()),
            "create" => drop(self.manager.create_cache(name, line.configuration(&self.asked))?),
            "destroy" => self.manager.destroy_cache(name)?,
            "names" => return Ok(Some(json!({ "names": self.manager.cache_names()? }))),
            "save" => {
                self.saved = self.cache.save()?;
                return Ok(Some(json!({ "saved": hex(&self.saved) })));
            }
            "restore" => {
                let own = line.bytes();
                let saved = own.as_ref().unwrap_or(&self.saved);
                self.cache = self.manager.restore(name, saved, line.configuration(&self.asked))?;
            }
            _ => return Ok(None),
        }
        Ok(Some(json!("done")))
    }

    fn of_one(&self, line: &Line, cache: &Cache) -> Result<Option<Value>, Error> {
        let (k, v, expected) = (line.text("k"), line.text("v"), line.text("expect"));
        let done = |()| json!("done");
        Ok(Some(match line.text("op") {
            "get" => value(cache.get(k)?),
            "contains" => json!(cache.contains_key(k)?),
            "put" => done(cache.put(k, v)?),
            "get_and_put" => value(cache.get_and_put(k, v)?),
            "get_and_replace" => value(cache.get_and_replace(k, v)?),
            "get_and_remove" => value(cache.get_and_remove(k)?),
            "put_if_absent" => json!(cache.put_if_absent(k, v)?),
            "replace" => json!(cache.replace(k, v)?),
            "replace_if" => json!(cache.replace_if(k, expected, v)?),
            "remove" => json!(cache.remove(k)?),
            "remove_if" => json!(cache.remove_if(k, expected)?),
            "invoke" => {
                let run = |entry: &mut Entry| self.asked.process(cache, entry, line);
                value(if line.is("loads") { cache.invoke(k, run)? } else { cache.invoke_without_load(k, run)? })
            }
            _ => return Ok(None),
        }))
    }

    fn of_many(&self, line: &Line, cache: &Cache) -> Result<Option<Value>, Error> {
        let done = |()| json!("done");
        Ok(Some(match line.text("op") {
            "get_all" => pairs(&cache.get_all(&line.keys())?),
            "put_all" => {
                let both = |pair: &'_ Value| {
                    (pair[0].as_str().unwrap_or_default().to_owned(), pair[1].as_str().unwrap_or_default().to_owned())
                };
                let owned: Vec<_> = line.0["kvs"].as_array().into_iter().flatten().map(both).collect();
                let kvs: Vec<_> = owned.iter().map(|(key, value)| (key.as_str(), value.as_bytes())).collect();
                done(cache.put_all(&kvs)?)
            }
            "remove_keys" => done(cache.remove_keys(&line.keys())?),
            "load_all" => done(cache.load_all(&line.keys(), line.is("replace"))?),
            "remove_all" => done(cache.remove_all()?),
            "clear" => done(cache.clear()?),
            "clear_stats" => done(cache.clear_statistics()?),
            "entries" => pairs(&cache.entries()?),
            "invoke_all" => {
                let run = |entry: &mut Entry| self.asked.process(cache, entry, line);
                let given = cache.invoke_all(&line.keys(), run)?;
                let result =
                    |(key, answer): (String, Result<_, _>)| json!([key, text(answer.unwrap_or(None).as_deref())]);
                json!({ "results": given.into_iter().map(result).collect::<Vec<_>>() })
            }
            "settings" => json!({ "settings": settings(cache.configuration()) }),
            "rows" => json!({ "rows": cache.entry_count()? }),
            "bytes" => json!({ "bytes": cache.byte_count()? }),
            "walk" => {
                let mut found: Vec<_> = cache.iter().map(|row| (row.key, row.value)).collect();
                found.sort();
                pairs(&found)
            }
            "peek" => {
                json!({ "row": cache.peek(line.text("k"))?.map(|row| json!([text(Some(&row.value)), row.expires])) })
            }
            "stats" => {
                let is = cache.statistics()?;
                json!({ "counters": [is.hits, is.misses, is.puts, is.removals, is.evictions] })
            }
            _ => return Ok(None),
        }))
    }
}

fn main() -> Result<(), BoxError> {
    let path = std::env::args().nth(1).ok_or("the cases are named")?;
    let (mut player, mut calls) = (None, 0);
    for said in std::fs::read_to_string(path)?.lines() {
        let line = Line(serde_json::from_str(said)?);
        if line.0.get("case").is_some() {
            player = Some(Player::new(&line)?);
            continue;
        }
        let player = player.as_mut().ok_or("a case begins with its name")?;
        let outcome = player.call(&line);
        let asked = Value::Array(std::mem::take(&mut player.asked.0.lock().unwrap()));
        if outcome != line.0["is"] || asked != *line.0.get("asks").unwrap_or(&json!([])) {
            return Err(format!("{said}\ncame to {outcome}, asked {asked}").into());
        }
        calls += 1;
    }
    println!("{calls} calls");
    Ok(())
}
