//! What is asked of the engine: reads, and transactions that do one thing or, where their guards don't hold, read.
use super::http2::{Connection, Hears};
use super::proto::{fields, Message, Value};
use hidewillow::engine::Answer;
use std::io;
use std::sync::atomic::{AtomicU64, Ordering};
use std::sync::{Arc, Mutex, MutexGuard};
use std::time::Duration;

const RANGE: &str = "/etcdserverpb.KV/Range";
const TXN: &str = "/etcdserverpb.KV/Txn";
const COMPACT: &str = "/etcdserverpb.KV/Compact";
const GRANT: &str = "/etcdserverpb.Lease/LeaseGrant";
const KEEP: &str = "/etcdserverpb.Lease/LeaseKeepAlive";
const REVOKE: &str = "/etcdserverpb.Lease/LeaseRevoke";
const STATUS: &str = "/etcdserverpb.Maintenance/Status";
/// Results and targets of comparisons.
const EQUAL: u64 = 0;
const LESS: u64 = 2;
const CREATED: u64 = 1;
const CHANGED: u64 = 2;
const VALUE: u64 = 3;

/// How long it may take a member to say whether it leads the others.
const SHORT: Duration = Duration::from_millis(500);

type Asked = (usize, Option<Arc<Connection>>);

/// The members of the engine: one is asked, until it errs, and the next from then on.
pub struct Members {
    addresses: Vec<String>,
    asked: Mutex<Asked>,
    cluster: Cluster,
}

/// The cluster that the first answer was of. One of another isn't heard.
#[derive(Clone, Default)]
struct Cluster(Arc<AtomicU64>);

impl Cluster {
    fn of(&self, answer: io::Result<Vec<u8>>) -> io::Result<Vec<u8>> {
        let answer = answer?;
        let header = fields(&answer)?.into_iter().find(|(field, _)| *field == 1).ok_or_else(not_whole)?.1;
        let of = number(header.bytes(), 1)?;
        match self.0.compare_exchange(0, of, Ordering::AcqRel, Ordering::Acquire) {
            Err(first) if first != of => {
                Err(io::Error::other("a member is of another cluster than the first that answered"))
            }
            _ => Ok(answer),
        }
    }
}

/// A request that may be asked again with the same bytes.
pub struct Request(&'static str, Vec<u8>);

/// A key, with the revisions at which it was made and last changed.
#[derive(Clone, Debug, Default, PartialEq, Eq)]
pub struct Entry {
    pub key: Vec<u8>,
    pub created: u64,
    pub changed: u64,
    pub value: Vec<u8>,
}

/// What a read found, as of one revision.
#[derive(Debug, Default)]
pub struct Found {
    pub entries: Vec<Entry>,
    pub revision: u64,
    pub has_more: bool,
}

/// What a transaction is told: whether it did what it was to do, else what its reads found, one after the other.
#[derive(Debug)]
pub struct Did {
    pub done: bool,
    found: Vec<Option<Entry>>,
    pub revision: u64,
}

impl Did {
    pub fn found(&self, place: usize) -> Option<&Entry> {
        self.found.get(place)?.as_ref()
    }

    /// Whether it was done, else what was seen.
    pub fn answer<S>(&self, seen: S) -> Answer<S> {
        if self.done {
            Answer::Done
        } else {
            Answer::Seen(seen)
        }
    }
}

/// The number that a field has, or 0.
fn number(message: &[u8], wanted: u64) -> io::Result<u64> {
    Ok(fields(message)?.into_iter().find(|(field, _)| *field == wanted).map_or(0, |(_, value)| value.number()))
}

fn revision(header: Value) -> io::Result<u64> {
    number(header.bytes(), 3)
}

fn entry(bytes: &[u8]) -> io::Result<Entry> {
    let mut entry = Entry::default();
    for (field, value) in fields(bytes)? {
        match field {
            1 => entry.key = value.bytes().into(),
            2 => entry.created = value.number(),
            3 => entry.changed = value.number(),
            5 => entry.value = value.bytes().into(),
            _ => (),
        }
    }
    Ok(entry)
}

fn not_whole() -> io::Error {
    io::Error::other("an answer is not whole")
}

/// What a read tells.
pub fn found(bytes: &[u8]) -> io::Result<Found> {
    let mut found = Found::default();
    for (field, value) in fields(bytes)? {
        match field {
            1 => found.revision = revision(value)?,
            2 => found.entries.push(entry(value.bytes())?),
            3 => found.has_more = value.number() != 0,
            _ => (),
        }
    }
    if found.revision == 0 {
        Err(not_whole())
    } else {
        Ok(found)
    }
}

/// What a transaction tells, which reads so many keys where its guards don't hold.
pub fn did(bytes: &[u8], reads: usize) -> io::Result<Did> {
    let mut did = Did { done: false, found: Vec::new(), revision: 0 };
    for (field, value) in fields(bytes)? {
        match field {
            1 => did.revision = revision(value)?,
            2 => did.done = value.number() != 0,
            // An answer to one of its requests: the first kind is that of a read.
            3 => match fields(value.bytes())?.first() {
                Some((1, of)) => did.found.push(found(of.bytes())?.entries.pop()),
                _ => did.found.push(None),
            },
            _ => (),
        }
    }
    if did.revision == 0 || !did.done && did.found.len() != reads {
        Err(not_whole())
    } else {
        Ok(did)
    }
}

/// Guards: a key was made at a revision (at 0 it is absent), has a value, was last changed at a revision, or before one.
pub fn is_made(key: &[u8], at: u64) -> Message {
    Message::default().number(1, EQUAL).number(2, CREATED).bytes(3, key).number(5, at)
}

pub fn has_value(key: &[u8], value: &[u8]) -> Message {
    Message::default().number(1, EQUAL).number(2, VALUE).bytes(3, key).bytes(7, value)
}

pub fn is_changed(key: &[u8], at: u64) -> Message {
    Message::default().number(1, EQUAL).number(2, CHANGED).bytes(3, key).number(6, at)
}

pub fn is_older(key: &[u8], than: u64) -> Message {
    Message::default().number(1, LESS).number(2, CHANGED).bytes(3, key).number(6, than)
}

/// What a transaction does.
pub fn put(key: &[u8], value: &[u8], lease: u64) -> Message {
    let put = Message::default().bytes(1, key).bytes(2, value).number(3, lease);
    Message::default().bytes(2, &put.0)
}

pub fn read(key: &[u8]) -> Message {
    Message::default().bytes(1, &Message::default().bytes(1, key).0)
}

/// Deletes all keys from one up to another, which stays.
pub fn delete(from: &[u8], to: &[u8]) -> Message {
    Message::default().bytes(3, &Message::default().bytes(1, from).bytes(2, to).0)
}

/// If all guards hold it does the first, else the second.
pub fn transaction<const G: usize, const D: usize, const E: usize>(
    guards: [Message; G],
    does: [Message; D],
    other: [Message; E],
) -> Request {
    Request(TXN, Message::default().each(1, guards).each(2, does).each(3, other).0)
}

/// Reads keys from one on up to another, or one alone where that is empty, so many at most, as of a revision, or as of now where that is 0:
/// then the engine takes care that nothing which was decided before is missed.
pub fn range(from: &[u8], to: &[u8], most: u64, at: u64) -> Request {
    let range = Message::default().bytes(1, from).number(3, most).number(4, at);
    // An end that is there and empty would be the end of all keys.
    Request(RANGE, if to.is_empty() { range } else { range.bytes(2, to) }.0)
}

/// A request with one number.
fn of(path: &'static str, number: u64) -> Request {
    Request(path, Message::default().number(1, number).0)
}

impl Members {
    pub fn new(addresses: Vec<String>) -> Members {
        Members { addresses, asked: Mutex::new((0, None)), cluster: Cluster::default() }
    }

    /// The same, to be asked beside.
    pub fn beside(&self) -> Members {
        Members { addresses: self.addresses.clone(), asked: Mutex::new((0, None)), cluster: self.cluster.clone() }
    }

    fn asked(&self) -> MutexGuard<'_, Asked> {
        self.asked.lock().expect("no thread ends that has it")
    }

    /// The connection to the member that is asked, or to the next where there is none.
    fn connection(&self) -> io::Result<Arc<Connection>> {
        let mut asked = self.asked();
        if let Some(connection) = asked.1.as_ref().filter(|connection| !connection.is_over()) {
            return Ok(connection.clone());
        }
        asked.0 = if asked.1.take().is_some() { asked.0 + 1 } else { asked.0 } % self.addresses.len();
        let connection = Connection::new(&self.addresses[asked.0]).inspect_err(|_| asked.0 += 1)?;
        asked.1 = Some(connection.clone());
        Ok(connection)
    }

    /// Has another member asked from now on, where that says that it leads the others: what these are asked goes by it anyway.
    pub fn prefer(&self) -> io::Result<()> {
        let leads = |connection: &Connection| {
            let answer = self.cluster.of(connection.call(STATUS, &[], SHORT))?;
            let header = fields(&answer)?.into_iter().find(|(field, _)| *field == 1).ok_or_else(not_whole)?.1;
            Ok::<_, io::Error>(number(header.bytes(), 2)? == number(&answer, 4)?)
        };
        let asked = self.connection()?;
        if leads(&asked).unwrap_or(false) {
            return Ok(());
        }
        for (place, address) in self.addresses.iter().enumerate() {
            let Ok(connection) = Connection::new(address) else { continue };
            if leads(&connection).unwrap_or(false) {
                *self.asked() = (place, Some(connection));
                asked.end("another member leads");
                return Ok(());
            }
            connection.end("it doesn't lead");
        }
        Ok(())
    }

    /// Has the member that is asked carry out a request, and the answer told. An error says nothing of what became of it: it may be carried out
    /// at any later time.
    pub fn begin(&self, Request(path, message): &Request, hears: Hears) {
        // Nobody waits for one who connects.
        let asked = self.asked.try_lock().ok().and_then(|asked| asked.1.clone());
        let Some(connection) = asked else { return hears(Err(io::ErrorKind::NotConnected.into())) };
        let (ends, cluster) = (connection.clone(), self.cluster.clone());
        let tell = move |answer| hears(cluster.of(answer).inspect_err(|error| ends.end(&error.to_string())));
        connection.ask(path, message, Box::new(tell));
    }

    /// Has it carry out a request, and waits for the answer.
    pub fn ask(&self, Request(path, message): &Request, patience: Duration) -> io::Result<Vec<u8>> {
        let connection = self.connection()?;
        let answer = self.cluster.of(connection.call(path, message, patience));
        answer.inspect_err(|error| connection.end(&error.to_string()))
    }

    pub fn carry_out(&self, transaction: &Request, reads: usize, patience: Duration) -> io::Result<Did> {
        did(&self.ask(transaction, patience)?, reads)
    }

    pub fn read(&self, from: &[u8], to: &[u8], most: u64, at: u64, patience: Duration) -> io::Result<Found> {
        found(&self.ask(&range(from, to, most, at), patience)?)
    }

    /// A lease of so many seconds.
    pub fn grant(&self, seconds: u64, patience: Duration) -> io::Result<u64> {
        match number(&self.ask(&of(GRANT, seconds), patience)?, 2)? {
            0 => Err(io::Error::other("no lease")),
            lease => Ok(lease),
        }
    }

    /// Has a lease run anew, for so many seconds; 0 where it is over.
    pub fn keep(&self, lease: u64, patience: Duration) -> io::Result<u64> {
        number(&self.ask(&of(KEEP, lease), patience)?, 3)
    }

    pub fn revoke(&self, lease: u64, patience: Duration) -> io::Result<()> {
        self.ask(&of(REVOKE, lease), patience).map(drop)
    }

    /// Has the engine forget what keys had before a revision.
    pub fn compact(&self, at: u64, patience: Duration) -> io::Result<()> {
        self.ask(&of(COMPACT, at), patience).map(drop)
    }
}

impl Drop for Members {
    fn drop(&mut self) {
        if let Ok((_, Some(connection))) = self.asked.get_mut() {
            connection.end("nobody asks any more");
        }
    }
}
