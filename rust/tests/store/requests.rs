//! Requests of a run, as typed lines over few keys, and what a channel alone reads of them.
use crate::dice::Dice;
use crate::plain::{error, number_of, simple, Bytes, Command, When, Work};

/// The keys of a run.
pub const KEYS: [u8; 6] = *b"abcdef";

/// What a request begins with, and how many keys and words follow, in pairs first.
const FORMS: [(&str, usize, usize); 25] = [
    ("GET", 1, 0),
    ("SET", 1, 1),
    ("SET", 1, 1),
    ("INCR", 1, 0),
    ("INCR", 1, 0),
    ("DECR", 1, 0),
    ("INCRBY", 1, 1),
    ("APPEND", 1, 1),
    ("STRLEN", 1, 0),
    ("GETSET", 1, 1),
    ("DEL", 2, 0),
    ("EXISTS", 2, 0),
    ("MGET", 3, 0),
    ("MSET", 2, 2),
    ("DBSIZE", 0, 0),
    ("KEYS *", 0, 0),
    ("FLUSHALL", 0, 0),
    ("MULTI", 0, 0),
    ("EXEC", 0, 0),
    ("EXEC", 0, 0),
    ("DISCARD", 0, 0),
    ("PING", 0, 0),
    ("ECHO hello", 0, 0),
    ("NONE", 0, 0),
    ("INCRBY a", 0, 0),
];

/// What SET may have behind it.
const OPTIONS: [&str; 5] = ["", "", " NX", " XX", " GET"];

/// A queue takes so many bytes at most, of which each word has so many beside its own.
const QUEUED: usize = 4000;
const WORD: usize = 64;

/// A request, as a typed line.
fn any_request(dice: &mut Dice) -> String {
    let (word, keys, values) = dice.pick(&FORMS);
    let mut text = String::from(word);
    for turn in 0..keys {
        text.push(' ');
        text.push(char::from(dice.pick(&KEYS)));
        if turn < values {
            text.push(' ');
            text.push(dice.pick(&['x', '1', '2', '3', '4', '5', '6', '7', '8', '9', '9', '9']));
        }
    }
    if word == "SET" {
        text.push_str(dice.pick(&OPTIONS));
    }
    text + "\r\n"
}

/// The bytes of one to three requests.
pub fn any_bytes(dice: &mut Dice) -> Bytes {
    (0..=dice.roll(3)).flat_map(|_| any_request(dice).into_bytes()).collect()
}

/// What a line asks for.
enum Order {
    Run(Command),
    Multi,
    Exec,
    Discard,
    Fault(&'static str),
}

fn increment(key: &str, text: &str) -> Command {
    match number_of(text.as_bytes()) {
        Some(by) => Command::Add(key.into(), by),
        None => Command::Wrong("ERR value is not an integer or out of range"),
    }
}

fn order(words: &[&str]) -> Order {
    let all = |words: &[&str]| words.iter().map(|it| Bytes::from(*it)).collect::<Vec<_>>();
    let set = |key: &str, value: &str, when, gives| Command::Set { key: key.into(), value: value.into(), when, gives };
    Order::Run(match *words {
        ["GET", key] => Command::Get(key.into()),
        ["SET", key, value] => set(key, value, When::Always, false),
        ["SET", key, value, "NX"] => set(key, value, When::Absent, false),
        ["SET", key, value, "XX"] => set(key, value, When::Present, false),
        ["SET", key, value, "GET"] | ["GETSET", key, value] => set(key, value, When::Always, true),
        ["INCR", key] => Command::Add(key.into(), 1),
        ["DECR", key] => Command::Add(key.into(), -1),
        ["INCRBY", key, text] => increment(key, text),
        ["INCRBY", _] => return Order::Fault("ERR wrong number of arguments for 'incrby' command"),
        ["APPEND", key, more] => Command::Append(key.into(), more.into()),
        ["STRLEN", key] => Command::StrLen(key.into()),
        ["DEL", ref keys @ ..] => Command::Del(all(keys)),
        ["EXISTS", ref keys @ ..] => Command::Exists(all(keys)),
        ["MGET", ref keys @ ..] => Command::MGet(all(keys)),
        ["MSET", ref pairs @ ..] => Command::MSet(pairs.chunks(2).map(|it| (it[0].into(), it[1].into())).collect()),
        ["DBSIZE"] => Command::DbSize,
        ["KEYS", "*"] => Command::Keys,
        ["FLUSHALL"] => Command::FlushAll,
        ["PING"] => Command::Ping,
        ["ECHO", text] => Command::Echo(text.into()),
        ["MULTI"] => return Order::Multi,
        ["EXEC"] => return Order::Exec,
        ["DISCARD"] => return Order::Discard,
        _ => return Order::Fault("ERR unknown command"),
    })
}

/// Commands that wait for EXEC.
struct Queue {
    commands: Vec<Command>,
    is_spoiled: bool,
    bytes: usize,
}

/// What a channel alone reads of the bytes that come on it.
#[derive(Default)]
pub struct Reader {
    line: Bytes,
    queue: Option<Queue>,
    pub is_posed: bool,
    /// How many tickets were given.
    pub given: u64,
}

impl Reader {
    /// How many of these bytes are taken: up to the end of a line, or all; none while the host is asked.
    pub fn takes(&self, bytes: &[u8]) -> usize {
        match bytes.iter().position(|it| *it == b'\n') {
            _ if self.is_posed => 0,
            Some(place) => place + 1,
            None => bytes.len(),
        }
    }

    /// Takes so many bytes; what they ask for, where they end a request that is not the host's.
    pub fn take(&mut self, bytes: &[u8]) -> Option<Work> {
        self.line.extend_from_slice(bytes);
        if self.line.last() != Some(&b'\n') {
            return None;
        }
        let line = String::from_utf8(std::mem::take(&mut self.line)).expect("a typed line");
        let words: Vec<_> = line.split_ascii_whitespace().collect();
        if self.queue.is_none() && words == ["NONE"] {
            self.is_posed = true;
            return None;
        }
        self.given += 1;
        Some(self.work(&words))
    }

    /// How many bytes the queue takes, if one is open.
    pub fn queued(&self) -> usize {
        self.queue.as_ref().map_or(0, |queue| queue.bytes)
    }

    /// The host told what it is asked.
    pub fn tell(&mut self) {
        assert!(self.is_posed, "the host is asked");
        self.is_posed = false;
        self.given += 1;
    }

    fn work(&mut self, words: &[&str]) -> Work {
        let order = order(words);
        let Some(queue) = &mut self.queue else {
            return match order {
                Order::Run(command) => Work::One(command),
                Order::Multi => {
                    self.queue = Some(Queue { commands: Vec::new(), is_spoiled: false, bytes: 0 });
                    Work::Say(simple("OK"))
                }
                Order::Exec => Work::Say(error("ERR EXEC without MULTI")),
                Order::Discard => Work::Say(error("ERR DISCARD without MULTI")),
                Order::Fault(words) => Work::Say(error(words)),
            };
        };
        let bytes = queue.bytes + words.iter().map(|it| it.len() + WORD).sum::<usize>();
        if !matches!(order, Order::Exec | Order::Discard) {
            if bytes > QUEUED {
                queue.is_spoiled = true;
                return Work::Say(error("ERR the commands that wait for EXEC take as many bytes as may"));
            }
            queue.bytes = bytes;
        }
        match order {
            Order::Run(command) => {
                queue.commands.push(command);
                Work::Say(simple("QUEUED"))
            }
            Order::Multi => Work::Say(error("ERR MULTI calls can not be nested")),
            Order::Fault(words) => {
                queue.is_spoiled = true;
                Work::Say(error(words))
            }
            Order::Exec => match self.queue.take() {
                Some(queue) if !queue.is_spoiled => Work::Each(queue.commands),
                _ => Work::Say(error("EXECABORT Transaction discarded because of previous errors.")),
            },
            Order::Discard => {
                self.queue = None;
                Work::Say(simple("OK"))
            }
        }
    }
}
