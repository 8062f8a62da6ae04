//! The maps. A key is a cache's number and a text, as with jcache, and `get` hands out a value of its own.
use dashmap::DashMap;
use std::collections::HashMap;
use std::sync::Mutex;

pub type Key = (u32, String);

type Value = Vec<u8>;

pub trait Map: Sync {
    fn has(&self, key: &Key) -> bool;
    fn get(&self, key: &Key) -> Option<Value>;
    fn put(&self, key: Key, value: Value);
    fn remove(&self, key: &Key);
}

impl Map for DashMap<Key, Value> {
    fn has(&self, key: &Key) -> bool {
        self.contains_key(key)
    }

    fn get(&self, key: &Key) -> Option<Value> {
        DashMap::get(self, key).map(|value| value.clone())
    }

    fn put(&self, key: Key, value: Value) {
        self.insert(key, value);
    }

    fn remove(&self, key: &Key) {
        DashMap::remove(self, key);
    }
}

impl Map for Mutex<HashMap<Key, Value>> {
    fn has(&self, key: &Key) -> bool {
        self.lock().unwrap().contains_key(key)
    }

    fn get(&self, key: &Key) -> Option<Value> {
        self.lock().unwrap().get(key).cloned()
    }

    fn put(&self, key: Key, value: Value) {
        self.lock().unwrap().insert(key, value);
    }

    fn remove(&self, key: &Key) {
        self.lock().unwrap().remove(key);
    }
}
