//! A cache whose loader is ours: the first get of a name loads its greeting, the next one finds it.
use jcache::{Configuration, Error, Expiry, FixedClock, Manager};
use std::time::Duration;

fn main() -> Result<(), Error> {
    let clock = FixedClock::new(0);
    let manager = Manager::with_clock(clock.reader())?;
    let minute = Expiry::Created(Duration::from_secs(60));
    let load = |name: &str| {
        println!("loads {name}");
        Ok(Some(format!("Hello, {name}!").into_bytes()))
    };
    let greetings = manager.create_cache("greetings", Configuration::new(100).expiry(minute).loader(load))?;
    for now in [0, 59_999, 60_000] {
        clock.set(now);
        if let Some(greeting) = greetings.get("ann")? {
            println!("{now} {}", String::from_utf8_lossy(&greeting));
        }
    }
    Ok(())
}
