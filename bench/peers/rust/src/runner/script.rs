//! Reading a script: every line, or the first fault.
use serde::Deserialize;
use serde_json::Value;
use std::borrow::Cow;
use std::collections::HashMap;

const KEY_BYTES: usize = 63;
const VALUE_BYTES: usize = 65_535;

pub struct Call {
    pub session: u32,
    pub cache: u32,
    pub op: Op,
}

pub enum Op {
    Get(String),
    Contains(String),
    Put(String, String),
    Remove(String),
    Stats,
    Entries,
    RemoveAll,
    Clear,
}

/// The members of a line, each where it is there and of its kind.
struct Members<'l> {
    session: Option<u64>,
    cache: Option<Cow<'l, str>>,
    at: Option<u64>,
    op: Option<Cow<'l, str>>,
    key: Option<Cow<'l, str>>,
    value: Option<Cow<'l, str>>,
}

#[derive(Deserialize)]
struct Typed<'l> {
    s: Option<u64>,
    #[serde(borrow)]
    c: Option<Cow<'l, str>>,
    at: Option<u64>,
    #[serde(borrow)]
    op: Option<Cow<'l, str>>,
    #[serde(borrow)]
    k: Option<Cow<'l, str>>,
    #[serde(borrow)]
    v: Option<Cow<'l, str>>,
}

fn typed(piece: &[u8], line: usize) -> Result<Members<'_>, String> {
    let it: Typed = serde_json::from_slice(piece).map_err(|_| format!("script line {line}: not JSON"))?;
    Ok(Members {
        session: it.s,
        cache: it.c,
        at: it.at,
        op: it.op,
        key: it.k,
        value: it.v,
    })
}

fn untyped(object: &Value) -> Members<'_> {
    let number = |member| object.get(member).and_then(Value::as_u64);
    let text = |member| object.get(member).and_then(Value::as_str).map(Cow::Borrowed);
    Members {
        session: number("s"),
        cache: text("c"),
        at: number("at"),
        op: text("op"),
        key: text("k"),
        value: text("v"),
    }
}

fn text(member: Option<Cow<str>>, least: usize, most: usize) -> Option<String> {
    member.filter(|it| (least..=most).contains(&it.len())).map(Cow::into_owned)
}

fn call(members: Members, ids: &HashMap<&str, u32>, line: usize) -> Result<Call, String> {
    let bad = |member| format!("script line {line}: bad {member}");
    let session = members.session.filter(|s| *s < 64).ok_or_else(|| bad("s"))? as u32;
    let cache = members.cache.and_then(|name| ids.get(&*name).copied()).ok_or_else(|| bad("c"))?;
    members.at.ok_or_else(|| bad("at"))?;
    let key = || text(members.key, 1, KEY_BYTES).ok_or_else(|| bad("k"));
    let value = || text(members.value, 0, VALUE_BYTES).ok_or_else(|| bad("v"));
    let op = match members.op.as_deref() {
        Some("get") => Op::Get(key()?),
        Some("contains") => Op::Contains(key()?),
        Some("put") => Op::Put(key()?, value()?),
        Some("remove") => Op::Remove(key()?),
        Some("stats") => Op::Stats,
        Some("entries") => Op::Entries,
        Some("remove_all") => Op::RemoveAll,
        Some("clear") => Op::Clear,
        _ => return Err(bad("op")),
    };
    Ok(Call { session, cache, op })
}

pub fn read(bytes: &[u8], ids: &HashMap<&str, u32>, is_typed: bool) -> Result<Vec<Call>, String> {
    let mut calls = Vec::new();
    for (i, piece) in bytes.split(|b| *b == b'\n').enumerate() {
        if piece.iter().all(|b| matches!(b, b' ' | b'\t' | b'\r')) {
            continue;
        }
        if is_typed {
            calls.push(call(typed(piece, i + 1)?, ids, i + 1)?);
        } else {
            let object: Value = serde_json::from_slice(piece).map_err(|_| format!("script line {}: not JSON", i + 1))?;
            if !object.is_object() {
                return Err(format!("script line {}: not an object", i + 1));
            }
            calls.push(call(untyped(&object), ids, i + 1)?);
        }
    }
    Ok(calls)
}
