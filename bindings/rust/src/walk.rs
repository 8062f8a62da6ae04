//! Walks through the entries of a cache.
use crate::library::WALK_ROOM;
use crate::{Cache, Row};
use std::collections::VecDeque;

/// The entries of a cache, one after the other: see [`Cache::iter`].
#[derive(Debug)]
pub struct Iter {
    cache: Cache,
    from: u32,
    rows: VecDeque<Row>,
    room: Vec<u8>,
}

impl Iter {
    pub(crate) fn new(cache: Cache) -> Iter {
        Iter { cache, from: 0, rows: VecDeque::new(), room: vec![0; WALK_ROOM] }
    }

    /// Reads the next rows; whether there were some.
    fn step(&mut self) -> bool {
        let asking = &self.cache.asking;
        let Some((len, next)) = asking.library.walk(asking.id, self.from, &mut self.room) else {
            return false;
        };
        self.from = next;
        let now = self.cache.now();
        let mut left = &self.room[..len];
        while let Some((row, rest)) = row_of(left) {
            left = rest;
            if row.expires.is_none_or(|expires| expires > now) {
                self.rows.push_back(row);
            }
        }
        true
    }
}

impl Iterator for Iter {
    type Item = Row;

    fn next(&mut self) -> Option<Row> {
        while self.rows.is_empty() {
            if !self.step() {
                return None;
            }
        }
        self.rows.pop_front()
    }
}

/// The first row of a walk's bytes, as `jc_walk` writes them, and the bytes behind it.
fn row_of(bytes: &[u8]) -> Option<(Row, &[u8])> {
    let (expires, rest) = bytes.split_first_chunk::<8>()?;
    let ([key, low, high], rest) = rest.split_first_chunk::<3>()?;
    let (key, rest) = rest.split_at_checked(usize::from(*key))?;
    let (value, rest) = rest.split_at_checked(usize::from(u16::from_le_bytes([*low, *high])))?;
    let key = String::from_utf8_lossy(key).into_owned();
    Some((Row { key, value: value.to_vec(), expires: moment(u64::from_le_bytes(*expires)) }, rest))
}

/// A moment of the header as one, or nothing where it is never.
pub(crate) fn moment(expires: u64) -> Option<u64> {
    (expires != u64::MAX).then_some(expires)
}
