//! A plain store: what commands do to a map, and what they answer.
use std::collections::BTreeMap;

pub type Bytes = Vec<u8>;
pub type Map = BTreeMap<Bytes, Bytes>;

/// When a key is set.
#[derive(Debug, Clone, Copy, PartialEq, Eq)]
pub enum When {
    Always,
    Absent,
    Present,
}

/// A command.
#[derive(Debug, Clone, PartialEq, Eq)]
pub enum Command {
    Get(Bytes),
    Set {
        key: Bytes,
        value: Bytes,
        when: When,
        gives: bool,
    },
    Del(Vec<Bytes>),
    Exists(Vec<Bytes>),
    Add(Bytes, i64),
    Append(Bytes, Bytes),
    StrLen(Bytes),
    MGet(Vec<Bytes>),
    MSet(Vec<(Bytes, Bytes)>),
    DbSize,
    Keys,
    FlushAll,
    Ping,
    Echo(Bytes),
    /// Its words are not those of such a command.
    Wrong(&'static str),
}

/// What one request comes to: something that is just said, a command, or those of a queue.
#[derive(Debug, Clone)]
pub enum Work {
    Say(Bytes),
    One(Command),
    Each(Vec<Command>),
}

/// The keys that are looked at.
pub enum Looked {
    All,
    These(Vec<Bytes>),
}

pub fn error(words: &str) -> Bytes {
    format!("-{words}\r\n").into_bytes()
}

pub fn simple(word: &str) -> Bytes {
    format!("+{word}\r\n").into_bytes()
}

fn integer(number: impl std::fmt::Display) -> Bytes {
    format!(":{number}\r\n").into_bytes()
}

fn bulk(value: Option<&Bytes>) -> Bytes {
    match value {
        None => b"$-1\r\n".to_vec(),
        Some(value) => [format!("${}\r\n", value.len()).as_bytes(), value, b"\r\n"].concat(),
    }
}

fn array(parts: impl ExactSizeIterator<Item = Bytes>) -> Bytes {
    let head = format!("*{}\r\n", parts.len()).into_bytes();
    std::iter::once(head).chain(parts).flatten().collect()
}

/// The number that a text is of, as it is written in its shortest form.
pub fn number_of(text: &[u8]) -> Option<i64> {
    let number: i64 = std::str::from_utf8(text).ok()?.parse().ok()?;
    (number.to_string().as_bytes() == text).then_some(number)
}

impl Command {
    pub fn may_write(&self) -> bool {
        use Command::{Add, Append, Del, FlushAll, MSet, Set};
        matches!(self, Set { .. } | Del(_) | Add(..) | Append(..) | MSet(_) | FlushAll)
    }

    fn looked(&self) -> Looked {
        use Command::{Add, Append, DbSize, Del, Exists, FlushAll, Get, Keys, MGet, Set, StrLen};
        match self {
            DbSize | Keys | FlushAll => Looked::All,
            Get(key) | Add(key, _) | Append(key, _) | StrLen(key) => Looked::These(vec![key.clone()]),
            Set { key, when, gives, .. } if *when != When::Always || *gives => Looked::These(vec![key.clone()]),
            Del(keys) | Exists(keys) | MGet(keys) => Looked::These(keys.clone()),
            _ => Looked::These(Vec::new()),
        }
    }

    /// Does it, and notes each key that it writes; its reply.
    fn run(&self, map: &mut Map, wrote: &mut Vec<Bytes>) -> Bytes {
        let mut put = |map: &mut Map, key: &Bytes, value: Bytes| {
            wrote.push(key.clone());
            map.insert(key.clone(), value);
        };
        match self {
            Command::Get(key) => bulk(map.get(key)),
            Command::Set { key, value, when, gives } => {
                let had = map.get(key).cloned();
                let sets = match when {
                    When::Always => true,
                    When::Absent => had.is_none(),
                    When::Present => had.is_some(),
                };
                if sets {
                    put(map, key, value.clone());
                }
                match (gives, sets) {
                    (true, _) => bulk(had.as_ref()),
                    (false, true) => simple("OK"),
                    (false, false) => bulk(None),
                }
            }
            Command::Del(keys) => {
                let gone: Vec<_> = keys.iter().filter(|it| map.remove(*it).is_some()).collect();
                wrote.extend(gone.iter().copied().cloned());
                integer(gone.len())
            }
            Command::Exists(keys) => integer(keys.iter().filter(|it| map.contains_key(*it)).count()),
            Command::Add(key, by) => {
                let Some(number) = map.get(key).map_or(Some(0), |it| number_of(it)) else {
                    return error("ERR value is not an integer or out of range");
                };
                let Some(sum) = number.checked_add(*by) else {
                    return error("ERR increment or decrement would overflow");
                };
                put(map, key, sum.to_string().into_bytes());
                integer(sum)
            }
            Command::Append(key, more) => {
                let all = [map.get(key).map_or(&[][..], |it| it), more].concat();
                let count = all.len();
                put(map, key, all);
                integer(count)
            }
            Command::StrLen(key) => integer(map.get(key).map_or(0, Vec::len)),
            Command::MGet(keys) => array(keys.iter().map(|it| bulk(map.get(it)))),
            Command::MSet(pairs) => {
                pairs.iter().for_each(|(key, value)| put(map, key, value.clone()));
                simple("OK")
            }
            Command::DbSize => integer(map.len()),
            Command::Keys => array(map.keys().map(|it| bulk(Some(it)))),
            Command::FlushAll => {
                wrote.extend(std::mem::take(map).into_keys());
                simple("OK")
            }
            Command::Ping => simple("PONG"),
            Command::Echo(text) => bulk(Some(text)),
            Command::Wrong(words) => error(words),
        }
    }
}

impl Work {
    fn commands(&self) -> &[Command] {
        match self {
            Work::Say(_) => &[],
            Work::One(command) => std::slice::from_ref(command),
            Work::Each(commands) => commands,
        }
    }

    /// Whether a log has it.
    pub fn may_write(&self) -> bool {
        self.commands().iter().any(Command::may_write)
    }

    pub fn looked(&self) -> Looked {
        let mut keys = Vec::new();
        for command in self.commands() {
            match command.looked() {
                Looked::All => return Looked::All,
                Looked::These(these) => keys.extend(these),
            }
        }
        Looked::These(keys)
    }

    /// Does it, and notes each key that it writes; its answer.
    pub fn run(&self, map: &mut Map, wrote: &mut Vec<Bytes>) -> Bytes {
        match self {
            Work::Say(text) => text.clone(),
            Work::One(command) => command.run(map, wrote),
            Work::Each(commands) => {
                let replies: Vec<_> = commands.iter().map(|it| it.run(map, wrote)).collect();
                array(replies.into_iter())
            }
        }
    }
}
