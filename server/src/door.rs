//! The door: what of a client's bytes comes to the store. One that has not said the password is answered here, and nothing of it does.
use crate::ahead::Ahead;
use crate::guests::named;
use crate::options::Options;
use crate::request::Does;
use crate::resp::{bulk, error, plain, wrong_number, Nulls, Reply, Version, OK};
use crate::server::State;
use hidewillow::store::log::Room;
use std::hint::black_box;
use std::mem;
use std::time::Instant;

/// No request at the door is longer; and no other is longer than its words by more.
pub const LONGEST: usize = 1 << 14;
const WRONG: &str = "WRONGPASS invalid username-password pair or user is disabled.";
const NOT_IN: &str =
    "NOAUTH HELLO must be called with the client already authenticated, otherwise the HELLO <proto> AUTH <user> \
<pass> option can be used to authenticate the client and select the RESP protocol version at the same time";
const NO_PASSWORD: &str = "AUTH <password> called without any password configured for the default user. \
Are you sure your configuration is correct?";

/// What was queued since MULTI: whether some of it may write, and the bytes of what all of it is to be told.
#[derive(Clone, Copy, Default)]
pub struct Queue {
    pub writes: bool,
    pub shows: usize,
}

/// What a client waits for, until all before is decided: no more than that, or then to begin by `HELLO`, to be as a new one, or to be told
/// how much a key has.
pub enum Wait {
    All,
    Begins(Vec<Vec<u8>>),
    Resets,
    Weighs(Vec<u8>),
}

/// What stands beside knows of a client.
pub struct Guest {
    /// A number that no other has or had; when it came, what it is called, and the library that it has, with its version.
    pub id: u64,
    pub born: Instant,
    pub name: Vec<u8>,
    pub library: [String; 2],
    /// How what goes out is told, where it speaks version 3.
    pub nulls: Option<Nulls>,
    /// Whether it said the password, or needn't; said at the door that it goes; and has just said a wrong one.
    pub is_in: bool,
    pub leaves: bool,
    pub is_wrong: bool,
    /// Whether it sends nothing more; and when it last sent something, or took what it was sent.
    pub has_ended: bool,
    pub heard: Instant,
    /// What it waits for, and what is waited for of its socket: to be read and to be written.
    pub state: State,
    pub asks: (bool, bool),
    /// The batch up to which all is to be decided before it is answered, what it was sent ahead, and what it queues.
    pub waits: Option<(u64, Wait)>,
    pub ahead: Option<Ahead>,
    pub queue: Option<Queue>,
}

impl Guest {
    pub fn new(id: u64, is_in: bool) -> Guest {
        let (state, heard) = (State::Free, Instant::now());
        let (leaves, is_wrong, has_ended, asks) = (false, false, false, (false, false));
        let (waits, ahead, queue) = (None, None, None);
        let (born, name, library, nulls) = (heard, Vec::new(), Default::default(), None);
        #[rustfmt::skip]
        let guest = Guest {
            id, born, name, library, nulls, is_in, leaves, is_wrong, has_ended, heard, state, asks, waits, ahead, queue,
        };
        guest
    }

    /// The version of the protocol that it speaks.
    pub fn version(&self) -> Version {
        self.nulls.as_ref().map_or(Version::Two, |_| Version::Three)
    }

    /// It is as a new one.
    pub fn forget(&mut self) {
        (self.name, self.library, self.nulls, self.ahead) = (Vec::new(), Default::default(), None, None);
    }

    /// Answers the request of a client that is not in.
    pub fn greet(&mut self, words: &[&[u8]], options: &Options) -> Vec<u8> {
        self.leaves = words.first().is_some_and(|word| word.eq_ignore_ascii_case(b"QUIT"));
        let Some(told) = self.greeted(words, options) else { return Vec::new() };
        self.is_wrong = is_wrong(&told);
        told.bytes(self.version())
    }

    /// What is answered to what is said at the door, also by one who is in; nothing where it is not of the door.
    pub fn greeted(&mut self, words: &[&[u8]], options: &Options) -> Option<Reply> {
        let (word, rest) = words.split_first()?;
        Some(match (word.to_ascii_uppercase().as_slice(), rest) {
            (b"AUTH", [_]) if options.password.is_empty() => error(NO_PASSWORD),
            (b"AUTH", [word]) => self.says(b"default", word, options),
            (b"AUTH", [user, word]) => self.says(user, word, options),
            (b"AUTH", []) => wrong_number("auth"),
            (b"AUTH", _) => error("syntax error"),
            (b"HELLO", rest) => self.begins(rest, options).unwrap_or_else(|fault| fault),
            (b"QUIT", _) => OK,
            _ if self.is_in => return None,
            (b"PING", []) => Reply::Line("PONG"),
            (b"RESET", []) => {
                self.forget();
                Reply::Line("RESET")
            }
            _ => Reply::Error("NOAUTH Authentication required.".into()),
        })
    }

    /// It says a password: who is in stays so.
    fn says(&mut self, user: &[u8], word: &[u8], options: &Options) -> Reply {
        let is_right = (user == b"default") & (options.password.is_empty() | is_password(options, word));
        self.is_in |= is_right;
        if is_right {
            OK
        } else {
            Reply::Error(WRONG.into())
        }
    }

    /// It begins, by the words behind `HELLO`: with a version, a password and a name, or none of them; nothing is so where one is at fault.
    fn begins(&mut self, words: &[&[u8]], options: &Options) -> Result<Reply, Reply> {
        let (version, mut rest) = match words {
            [] => (self.version(), words),
            [b"2", rest @ ..] => (Version::Two, rest),
            [b"3", rest @ ..] => (Version::Three, rest),
            [word, ..] if plain(word).parse::<i64>().is_ok() => {
                return Err(Reply::Error("NOPROTO unsupported protocol version".into()))
            }
            _ => return Err(error("Protocol version is not an integer or out of range")),
        };
        let (mut name, mut says) = (None, None);
        while let [what, behind @ ..] = rest {
            rest = match (what.to_ascii_uppercase().as_slice(), behind) {
                (b"AUTH", [user, word, behind @ ..]) => {
                    says = Some((user, word));
                    behind
                }
                (b"SETNAME", [word, behind @ ..]) => {
                    name = Some(named(word)?);
                    behind
                }
                _ => return Err(error(format!("Syntax error in HELLO option '{}'", plain(what)))),
            };
        }
        match says.map(|(user, word)| self.says(user, word, options)) {
            Some(fault @ Reply::Error(_)) => return Err(fault),
            _ if !self.is_in => return Err(Reply::Error(NOT_IN.into())),
            _ => (),
        }
        self.name = name.unwrap_or(mem::take(&mut self.name));
        self.nulls = (version == Version::Three).then(|| self.nulls.take().unwrap_or_default());
        Ok(self.hello())
    }

    /// What it is told of the server.
    fn hello(&self) -> Reply {
        let (proto, id) = (Reply::Number(self.version().number()), Reply::Number(self.id as i64));
        let of = [
            ("server", bulk("hidewillow")),
            ("version", bulk(env!("CARGO_PKG_VERSION"))),
            ("proto", proto),
            ("id", id),
            ("mode", bulk("standalone")),
            ("role", bulk("master")),
            ("modules", Reply::List(Vec::new())),
        ];
        Reply::Map(of.map(|(name, it)| (bulk(name), it)).into())
    }

    /// What is fed in the place of a request for which there is no room, or no memory: a queue takes none then, whatever it does.
    pub fn instead(&self, does: Does, room: Room, is_heavy: bool) -> Option<&'static [u8]> {
        match does {
            Does::Adds | Does::TakesAway if room == Room::Lacks => Some(b"NOROOM\r\n"),
            Does::Adds if is_heavy => Some(b"NOMEMORY\r\n"),
            Does::TakesAway | Does::Shows | Does::Else if is_heavy && self.queue.is_some() => Some(b"NOMEMORY\r\n"),
            _ => None,
        }
    }

    /// What was queued by a request that was carried out.
    pub fn has_queued(&mut self, does: Does, shows: usize) {
        match (does, &mut self.queue) {
            (Does::Queues, queue) => _ = queue.get_or_insert_default(),
            (Does::Drops | Does::CarriesOut, queue) => *queue = None,
            (_, Some(queue)) => {
                queue.writes |= matches!(does, Does::Adds | Does::TakesAway);
                queue.shows += shows;
            }
            (_, None) => (),
        }
    }
}

/// Whether what a client is told is that its password is wrong.
pub fn is_wrong(told: &Reply) -> bool {
    matches!(told, Reply::Error(words) if words == WRONG)
}

/// Whether a word is the password. How long that takes tells nothing of it.
pub fn is_password(options: &Options, word: &[u8]) -> bool {
    let wanted = options.password.iter().chain(&[0]).cycle();
    let differs = word.iter().zip(wanted).fold(0, |differs, (it, wanted)| black_box(differs | (it ^ wanted)));
    (differs == 0) & (word.len() == options.password.len())
}
