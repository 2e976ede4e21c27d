//! A client with cached copies of a remote store, each of whose next keys depends on what it read. It goes on from a copy under a
//! guess, and the server's reply commits or fails that. The server is simulated, in time of its own: a reply takes 5 ms, an
//! operation of the client 1 us, and some copies are stale. Printed is how many times faster that is than to wait for each reply.
//!
//!     cargo run --release --example remote_cache
use hidewillow::speculator::{Decided, Guess, Refusal, Speculator};
use std::collections::{HashMap, VecDeque};
use std::fmt::Write;

type Wrong = Box<dyn std::error::Error + Send + Sync>;

const KEYS: u64 = 1000;
const OPERATIONS: u64 = 2000;
/// How long a reply takes, and an operation, in microseconds.
const TRIP: u64 = 5000;
const WORK: u64 = 1;
/// Where the client keeps what it has come to: its next key, and how many operations it has made.
const CURSOR: &str = "cursor";

/// Numbers that look random.
struct Dice(u64);

impl Dice {
    fn next(&mut self) -> u64 {
        self.0 = self.0.wrapping_mul(6_364_136_223_846_793_005).wrapping_add(1_442_695_040_888_963_407);
        self.0 >> 33
    }
}

/// What each key has at the server.
struct Server {
    values: HashMap<u64, u64>,
    dice: Dice,
}

impl Server {
    fn value(&self, key: u64) -> u64 {
        self.values.get(&key).copied().unwrap_or(key)
    }

    /// Someone else changes a value now and then, just before the client looks at its copy.
    fn maybe_edit(&mut self, key: u64, percent: u64) {
        if self.dice.next() % 100 < percent {
            let value = self.dice.next();
            self.values.insert(key, value);
        }
    }
}

fn cursor_bytes(key: u64, made: u64) -> Vec<u8> {
    [key.to_le_bytes(), made.to_le_bytes()].concat()
}

/// The key that an operation looks at behind one that read this.
fn next_key(key: u64, value: u64) -> u64 {
    (key.wrapping_mul(31) ^ value).wrapping_mul(0x9E37_79B9_7F4A_7C15) % KEYS
}

fn numbers(bytes: &[u8]) -> (u64, u64) {
    let at = |place: usize| {
        let mut number = [0; 8];
        number.copy_from_slice(&bytes[place..place + 8]);
        u64::from_le_bytes(number)
    };
    (at(0), if bytes.len() > 8 { at(8) } else { 0 })
}

fn copy_of(key: u64) -> Vec<u8> {
    [b"copy ".as_slice(), &key.to_le_bytes()].concat()
}

/// A guess that waits for its reply.
struct Asked {
    guess: Guess,
    key: u64,
    copy: u64,
    answer: u64,
    arrives: u64,
}

struct Client {
    spec: Speculator,
    server: Server,
    now: u64,
    requests: u64,
    /// How many operations were begun, those that are redone counted once.
    furthest: u64,
}

impl Client {
    fn new(percent: u64) -> Result<Client, Refusal> {
        let mut spec = Speculator::open(1024, percent)?;
        spec.step(|s| {
            s.put(CURSOR, cursor_bytes(0, 0));
            for key in 0..KEYS {
                s.put(copy_of(key), key.to_le_bytes());
            }
            Ok(())
        })?;
        let dice = Dice(7);
        let values = HashMap::new();
        let server = Server { values, dice };
        Ok(Client { spec, server, now: 0, requests: 0, furthest: 0 })
    }

    fn cursor(&self) -> Result<(u64, u64), Refusal> {
        Ok(numbers(&self.spec.value(CURSOR)?.unwrap_or_default()))
    }

    /// Goes on from a copy under a guess, and asks the server.
    fn operate(&mut self, percent: u64) -> Result<Asked, Refusal> {
        let (key, made) = self.cursor()?;
        if made >= self.furthest {
            self.furthest = made + 1;
            self.server.maybe_edit(key, percent);
        }
        self.now += WORK;
        self.requests += 1;
        let (copy, guess) = self.spec.guess(|s| {
            let (key, made) = numbers(&s.get(CURSOR)?.unwrap_or_default());
            let (copy, _) = numbers(&s.get(copy_of(key))?.unwrap_or_default());
            s.put(CURSOR, cursor_bytes(next_key(key, copy), made + 1));
            s.say(0, copy.to_le_bytes())?;
            Ok(copy)
        })?;
        let answer = self.server.value(key);
        Ok(Asked { guess, key, copy, answer, arrives: self.now + TRIP })
    }

    /// Takes a reply: the guess holds, or it fails and the copy is made fresh.
    fn reply(&mut self, asked: Asked) -> Result<bool, Wrong> {
        self.now = self.now.max(asked.arrives);
        if asked.copy == asked.answer {
            return Ok(matches!(self.spec.commit(asked.guess)?, Decided::Committed { .. }));
        }
        let failed = self.spec.fail(asked.guess)? != Decided::Gone;
        self.spec.step(|s| {
            s.put(copy_of(asked.key), asked.answer.to_le_bytes());
            Ok(())
        })?;
        Ok(!failed)
    }

    /// All operations, with so many guesses open; the time that they take.
    fn run(&mut self, open: usize, percent: u64) -> Result<u64, Wrong> {
        let mut asked = VecDeque::new();
        loop {
            let (_, made) = self.cursor()?;
            if made < OPERATIONS && asked.len() < open {
                asked.push_back(self.operate(percent)?);
            } else if let Some(first) = asked.pop_front() {
                if !self.reply(first)? {
                    self.forget(&mut asked)?;
                }
            } else {
                return Ok(self.now);
            }
        }
    }

    /// The guesses behind a failed one are struck: nobody waits for their replies.
    fn forget(&mut self, asked: &mut VecDeque<Asked>) -> Result<(), Wrong> {
        for it in asked.drain(..) {
            let decided = self.spec.commit(it.guess)?;
            assert_eq!(decided, Decided::Gone, "it rests on the cursor");
        }
        Ok(())
    }

    /// The outputs are those of the operations that hold, and of no other.
    fn outputs(&mut self) -> Result<u64, Wrong> {
        let mut count = 0;
        while self.spec.released(0)?.is_some() {
            count += 1;
        }
        Ok(count)
    }
}

fn main() -> Result<(), Wrong> {
    println!("{OPERATIONS} operations; gain over waiting, and requests an operation");
    println!("stale  W = 4        16           64");
    for percent in [0, 1, 10] {
        let mut row = format!("{percent:>3} %");
        for open in [4, 16, 64] {
            let mut client = Client::new(percent)?;
            let time = client.run(open, percent)?;
            assert_eq!(client.outputs()?, OPERATIONS);
            let gain = (OPERATIONS * (TRIP + WORK)) as f64 / time as f64;
            let requests = client.requests as f64 / OPERATIONS as f64;
            let _ = write!(row, "  {gain:5.1} ({requests:.2})");
        }
        println!("{row}");
    }
    Ok(())
}
