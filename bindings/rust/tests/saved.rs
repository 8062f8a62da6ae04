//! Saved caches: random calls on a cache that is cut, saved and restored elsewhere again and again, beside one that stays where
//! it is; bytes with a change or an end in them; hooks that differ; threads.
use jcache::{Cache, Configuration, Entry, Error, Expiry, Manager};
use std::sync::{mpsc, Arc, Mutex};
use std::time::Duration;

type Outcome = Result<(), Error>;

/// Numbers that are drawn by a seed.
struct Draw(u64);

impl Draw {
    fn below(&mut self, end: u64) -> u64 {
        self.0 = self.0.wrapping_mul(6_364_136_223_846_793_005).wrapping_add(1_442_695_040_888_963_407);
        (self.0 >> 33) % end
    }

    fn key(&mut self) -> String {
        match self.below(12) {
            0 => "ü".into(),
            _ => format!("k{}", self.below(9)),
        }
    }
}

/// What hooks were asked.
type Heard = Arc<Mutex<Vec<String>>>;

/// Hooks that note what they are asked. Some keys fail.
fn hooks(heard: &Heard, which: u64) -> Configuration {
    let after = Duration::from_millis(which % 20);
    let expiry = match which % 5 {
        0 => Expiry::Eternal,
        1 => Expiry::Created(after),
        2 => Expiry::Accessed(after),
        3 => Expiry::Modified(after),
        _ => Expiry::Touched(after),
    };
    let mut made = Configuration::new(1 + which as u32 % 7).expiry(expiry);
    if which & 1 == 1 {
        let heard = heard.clone();
        made = made.loader(move |key| {
            heard.lock().unwrap().push(format!("load {key}"));
            match key {
                "k1" => Err("no such row".into()),
                "k2" => Ok(None),
                _ => Ok(Some(key.into())),
            }
        });
    }
    if which & 2 == 2 {
        let heard = heard.clone();
        made = made.writer(move |key, value| {
            heard.lock().unwrap().push(format!("write {key} {value:?}"));
            if key == "k3" {
                return Err("the row is locked".into());
            }
            Ok(())
        });
    }
    (0..which % 3).fold(made, |made, _| {
        let heard = heard.clone();
        made.listener(move |event| heard.lock().unwrap().push(format!("{event:?}")))
    })
}

/// A call by its number, at a moment: what it comes to.
fn outcome(cache: &Cache, call: u64, key: &str, value: &str) -> String {
    let append = |entry: &mut Entry| {
        let before = entry.value().unwrap_or_default().to_vec();
        entry.set([&before[..before.len().min(9)], value.as_bytes()].concat());
        if key == "k4" {
            return Err("no".into());
        }
        Ok(before)
    };
    match call {
        0 | 1 => format!("{:?}", cache.get(key)),
        2 | 3 => format!("{:?}", cache.put(key, value)),
        4 => format!("{:?}", cache.get_and_put(key, value)),
        5 => format!("{:?}", cache.put_if_absent(key, value)),
        6 => format!("{:?}", cache.replace(key, value)),
        7 => format!("{:?}", cache.replace_if(key, value, "new")),
        8 => format!("{:?}", cache.remove(key)),
        9 => format!("{:?}", cache.get_and_remove(key)),
        10 => format!("{:?}", cache.invoke(key, append)),
        11 => format!("{:?}", cache.get_all(&[key, "k0", "other"])),
        12 => format!("{:?}", cache.load_all(&[key, "other"], true)),
        13 => format!("{:?}", cache.entries()),
        _ => format!("{:?}", cache.statistics()),
    }
}

/// A cache that moves between two managers is seen as one that stays.
fn moves(seed: u64) -> Outcome {
    let mut draw = Draw(seed);
    let (at_home, elsewhere) = (Heard::default(), Heard::default());
    let (home, managers) = (Manager::with_seed(seed, || 0)?, [Manager::new()?, Manager::new()?]);
    let stays = home.create_cache("stays", hooks(&at_home, seed))?;
    let mut moving = managers[0].create_cache("0", hooks(&elsewhere, seed))?;
    let (mut now, mut moved) = (0, 0);
    for number in 0..2_000 {
        now += draw.below(4);
        let (key, call) = (draw.key(), draw.below(15));
        let value = "v".repeat(if draw.below(9) == 0 { 300 } else { draw.below(3) as usize });
        let (one, other) = (stays.at(now), moving.at(now));
        assert_eq!(outcome(&one, call, &key, &value), outcome(&other, call, &key, &value), "{seed} {number}");
        assert_eq!(*at_home.lock().unwrap(), *elsewhere.lock().unwrap(), "{seed} {number}");
        if draw.below(20) > 0 {
            continue;
        }
        let (saved, last) = (moving.save()?, moved.to_string());
        moved += 1;
        moving = managers[moved % 2].restore(&moved.to_string(), &saved, hooks(&elsewhere, seed))?;
        managers[1 - moved % 2].destroy_cache(&last)?;
        assert_eq!((moving.save()?, stays.save()?), (saved.clone(), saved), "{seed} {number}");
        let configured = |cache: &Cache| (cache.configuration().capacity, cache.configuration().expiry);
        assert_eq!((configured(&moving), managers[moved % 2].cache_names()?.len()), (configured(&stays), 1));
    }
    Ok(())
}

#[test]
fn a_cache_that_moves_is_seen_as_one_that_stays() -> Outcome {
    (0..42).try_for_each(moves)
}

/// Bytes with an end or a change in them are refused with their place, or are a cache that saves to the same bytes.
#[test]
fn damaged_bytes() -> Outcome {
    let (manager, mut draw) = (Manager::new()?, Draw(1));
    let expiry = Expiry::Touched(Duration::from_millis(50));
    let cache = manager.create_cache("whole", Configuration::new(9).expiry(expiry))?;
    for number in 0..7 {
        cache.at(number).put(&format!("key {number}"), "v".repeat(7 * number as usize))?;
    }
    cache.at(9).get("key 1")?;
    let saved = cache.save()?;
    let mut damaged: Vec<Vec<u8>> = (0..saved.len()).map(|end| saved[..end].to_vec()).collect();
    for _ in 0..10_000 {
        let mut text = saved.clone();
        text[draw.below(saved.len() as u64) as usize] ^= 1 + draw.below(255) as u8;
        damaged.push(text);
    }
    let mut restored = 0;
    for text in damaged {
        match manager.restore("damaged", &text, Configuration::default()) {
            Ok(cache) => {
                assert_eq!((text.len(), cache.save()?), (saved.len(), text));
                manager.destroy_cache("damaged")?;
                restored += 1;
            }
            Err(Error::BadSave { place } | Error::OtherVersion { place }) => assert!(place <= text.len()),
            Err(error) => assert!(matches!(error, Error::HooksDiffer)),
        }
    }
    assert!(restored > 1_000 && restored < 10_000 && manager.cache_names()? == ["whole"]);
    Ok(())
}

#[test]
fn refused_bytes() -> Outcome {
    let manager = Manager::new()?;
    let loads = || Configuration::new(3).loader(|key| Ok(Some(key.into())));
    let cache = manager.create_cache("loads", loads())?;
    let saved = cache.save()?;
    let longer = [&saved[..], b"!"].concat();
    let place = saved.len();
    let restored = manager.restore("again", longer, loads());
    assert!(matches!(restored, Err(Error::BadSave { place: found }) if found == place));
    assert!(matches!(manager.restore("again", b"JCS2", loads()), Err(Error::OtherVersion { place: 3 })));
    assert!(matches!(manager.restore("loads", &saved, loads()), Err(Error::DuplicateName)));
    assert!(matches!(manager.restore("again", &saved, Configuration::default()), Err(Error::HooksDiffer)));
    assert!(matches!(manager.restore("again", &saved, loads().listener(|_| ())), Err(Error::HooksDiffer)));
    let without_processors = [b"JCS1\x01".as_slice(), &[0; 52]].concat();
    let restored = manager.restore("again", without_processors, Configuration::default());
    assert!(matches!(restored, Err(Error::HooksDiffer)));
    assert!(manager.get_cache("again")?.is_none());
    let again = manager.restore("again", &saved, loads().max_value(2))?;
    assert_eq!((again.name(), again.configuration().capacity, manager.cache_names()?.len()), ("again", 3, 2));
    assert_eq!(again.get("k1")?, Some(b"k1".to_vec()));
    assert!(matches!(again.get("long"), Err(Error::BadValue)));
    manager.close();
    assert!(matches!(manager.restore("again", &saved, loads()), Err(Error::Closed)));
    assert!(matches!((again.save(), manager.cache_names()), (Err(Error::Closed), Err(Error::Closed))));
    Ok(())
}

#[test]
fn saving_waits_for_an_open_call() -> Outcome {
    let manager = Manager::new()?;
    let cache = manager.create_cache("shared", Configuration::new(3))?;
    cache.invoke("a", |_| {
        assert!(matches!(cache.save(), Err(Error::Busy)));
        Ok(())
    })?;
    let (began, begins) = mpsc::channel();
    let (goes_on, waits) = mpsc::channel();
    let saved = std::thread::scope(|scope| {
        let cache = &cache;
        scope.spawn(move || {
            cache.invoke("k", |entry| {
                began.send(())?;
                waits.recv()?;
                entry.set("late");
                Ok(())
            })
        });
        begins.recv().unwrap();
        let saver = scope.spawn(move || cache.save());
        goes_on.send(()).unwrap();
        saver.join().unwrap()
    })?;
    assert_eq!(manager.restore("again", &saved, Configuration::default())?.get("k")?, Some(b"late".to_vec()));
    Ok(())
}
