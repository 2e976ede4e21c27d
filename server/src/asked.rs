//! What clients ask the server itself: requests that the store hands to its host, which answers each in its turn.
use crate::ahead::Ahead;
use crate::door::{self, Wait};
use crate::resp::{error, part, plain, wrong_number, Reply, OK};
use crate::server::Server;
use crate::trusted::system;
use crate::{settings, table};
use std::mem;

/// So many bytes of the words behind an unknown name are told.
const TOLD: usize = 128;

fn is_name(word: &[u8]) -> bool {
    !word.is_empty() && word.iter().all(|byte| byte.is_ascii_alphanumeric() || b"-_".contains(byte))
}

/// That nobody knows a command of this name, and what stood behind it.
fn unknown(name: &[u8], rest: &[&[u8]]) -> Reply {
    let mut args = String::new();
    for word in rest {
        if args.len() >= TOLD {
            break;
        }
        let word = &word[..word.len().min(TOLD - args.len())];
        args.push_str(&format!("'{}' ", plain(word)));
    }
    error(format!("unknown command '{}', with args beginning with: {args}", plain(name)))
}

/// Answers what asks for commands that were slow, and for what took long: none are kept.
fn of_slow(name: &str, words: &[&[u8]]) -> Result<Reply, Reply> {
    let none = Reply::List(Vec::new());
    if name == "SLOWLOG" {
        return Ok(match part(name, words, &[("GET", -2), ("LEN", 2), ("RESET", 2)])? {
            "GET" => none,
            "LEN" => Reply::Number(0),
            _ => OK,
        });
    }
    Ok(match part(name, words, &[("LATEST", 2), ("HISTORY", 3), ("RESET", -2), ("DOCTOR", 2)])? {
        "RESET" => Reply::Number(0),
        "DOCTOR" => Reply::Text("No latencies are kept here.\n".into()),
        _ => none,
    })
}

/// The database that is chosen: there is one.
fn select(number: &[u8]) -> Reply {
    match plain(number).parse::<i64>() {
        Ok(0) => OK,
        Ok(_) => error("DB index is out of range"),
        Err(_) => error("value is not an integer or out of range"),
    }
}

impl Server {
    /// Answers what a channel asks, if that can be told now.
    pub fn answer(&mut self, channel: u16) {
        let words = self.channels.asked(channel);
        let words: Vec<&[u8]> = words.iter().map(Vec::as_slice).collect();
        if let Some(told) = self.told(channel, &words) {
            self.reply(channel, &told);
        }
    }

    /// Tells a reply to what a channel asks.
    pub fn reply(&mut self, channel: u16, reply: &Reply) {
        let Some(version) = self.guest(channel).map(|guest| guest.version()) else { return };
        self.tell(channel, &reply.bytes(version));
        if door::is_wrong(reply) {
            self.delay(channel);
        }
    }

    /// The answer of what a channel asks, or nothing where that is told later.
    fn told(&mut self, channel: u16, words: &[&[u8]]) -> Option<Reply> {
        let (word, rest) = words.split_first()?;
        let name = word.to_ascii_uppercase();
        if let Some(row) = table::row(word).filter(|row| !row.takes(words.len())) {
            return Some(wrong_number(row.0));
        }
        let did = match name.as_slice() {
            b"NOROOM" => Err(Reply::Error("IOERR there is no room on the disk, nothing of it was done".into())),
            b"NOMEMORY" => Err(Reply::Error("OOM as much memory is used as may be, nothing of it was done".into())),
            b"SPEC" | b"WAITALL" | b"HELLO" | b"RESET" => return self.told_later(channel, &name, rest),
            b"SAVE" | b"SNAPSHOT" => return self.wish(channel, None),
            b"BGSAVE" => Ok(self.wish(u16::MAX, None).unwrap_or(Reply::Line("Background saving started"))),
            b"BACKUP" if is_name(rest[0]) => return self.wish(channel, Some(&plain(rest[0]))),
            b"BACKUP" => Err(error("a backup has one name, of letters, digits, - and _")),
            b"INFO" => Ok(Reply::Text(self.info(rest))),
            b"COMMAND" => table::answer(rest),
            b"SELECT" => Ok(select(rest[0])),
            b"CONFIG" => self.configure(rest),
            b"CLIENT" => self.of_clients(channel, rest),
            b"MEMORY" => match part("MEMORY", rest, &[("USAGE", -3)]) {
                Ok(_) => return self.wait(channel, Wait::Weighs(rest[1].into())),
                Err(fault) => Err(fault),
            },
            b"SLOWLOG" => of_slow("SLOWLOG", rest),
            b"LATENCY" => of_slow("LATENCY", rest),
            _ => Ok(self.greeted(channel, words)),
        };
        Some(did.unwrap_or_else(|fault| fault))
    }

    /// What is told once all before is: a client that was answered nothing ahead waits for nothing.
    fn told_later(&mut self, channel: u16, name: &[u8], rest: &[&[u8]]) -> Option<Reply> {
        let is_ahead = self.guest(channel)?.ahead.is_some();
        self.wait(
            channel,
            match name {
                b"WAITALL" if !is_ahead => return Some(OK),
                b"HELLO" => Wait::Begins(rest.iter().map(|word| word.to_vec()).collect()),
                b"RESET" => Wait::Resets,
                _ => Wait::All,
            },
        )
    }

    fn wait(&mut self, channel: u16, wait: Wait) -> Option<Reply> {
        self.waits(channel, wait);
        None
    }

    /// What is said at the door by one who is in, or is unknown.
    fn greeted(&mut self, channel: u16, words: &[&[u8]]) -> Reply {
        if words[0].eq_ignore_ascii_case(b"QUIT") {
            self.end(channel);
        }
        let client = self.channels.client(channel);
        let told = client.and_then(|client| client.guest.greeted(words, &self.house.options));
        told.unwrap_or_else(|| unknown(words[0], &words[1..]))
    }

    /// What is set, or is to be.
    fn configure(&mut self, words: &[&[u8]]) -> Result<Reply, Reply> {
        let options = &self.house.options;
        if part("CONFIG", words, &[("GET", -3), ("SET", -4)])? == "GET" {
            return Ok(settings::get(options, &words[1..]));
        }
        let changed = settings::set(options, &words[1..])?;
        let most = changed.most_clients(system::raise_handles());
        if changed.clients > options.clients && changed.clients > most {
            return Err(error(format!("The system allows {most} clients at once")));
        }
        self.house.options = changed;
        self.weigh();
        Ok(OK)
    }

    /// Answers those who wait until all before is decided.
    pub fn answer_waiting(&mut self) {
        for channel in mem::take(&mut self.house.waiting) {
            let decided = self.settled();
            let Some(guest) = self.guest(channel) else { continue };
            let Some((batch, wait)) = guest.waits.take() else { continue };
            let is_over = guest.ahead.as_ref().map_or(decided >= batch, |ahead| ahead.waiting.is_empty());
            if let Some(wait) = if is_over { self.wait_is_over(channel, wait) } else { Some(wait) } {
                let _ = self.guest(channel).map(|guest| guest.waits = Some((batch, wait)));
                self.house.waiting.push(channel);
            }
        }
    }

    /// All before is decided for one who waits; or what it waits for yet.
    fn wait_is_over(&mut self, channel: u16, wait: Wait) -> Option<Wait> {
        let decided = self.settled();
        self.take(channel);
        match wait {
            Wait::All => {
                let undone = self.guest(channel)?.ahead.take().unwrap_or_default().undone;
                let numbers: String = undone.iter().map(|number| format!(" {number}")).collect();
                let told = if undone.is_empty() { OK } else { Reply::Error(format!("UNDONE{numbers}")) };
                self.reply(channel, &told);
            }
            Wait::Begins(words) => {
                let words: Vec<&[u8]> = [&b"HELLO"[..]].into_iter().chain(words.iter().map(Vec::as_slice)).collect();
                let told = self.greeted(channel, &words);
                self.reply(channel, &told);
                return None;
            }
            Wait::Resets => {
                let is_in = self.house.options.password.is_empty();
                if !self.channels.reset(channel, decided, is_in, b"+RESET\r\n") {
                    return Some(Wait::Resets);
                }
                self.is_told(channel, true);
                return None;
            }
            Wait::Weighs(key) => {
                let Some(bytes) = self.channels.decided_bytes(&key) else { return Some(Wait::Weighs(key)) };
                let told = bytes.map_or(Reply::Null, |bytes| Reply::Number((key.len() + bytes) as i64));
                self.reply(channel, &told);
                return None;
            }
        }
        self.take(channel);
        let _ = self.guest(channel).map(|guest| guest.ahead = Some(Ahead::default()));
        None
    }
}
