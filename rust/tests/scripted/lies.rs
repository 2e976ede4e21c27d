//! Random desks whose server lies: replies of the wrong number or kind, replies that are false, twice or late.
use crate::desk::{all_met, Answer, Ask, Desk, Request, KINDS};
use crate::dice::{runs, Dice, Named};
use crate::runs::{any_process, same};
use crate::scenarios::{any_kernel, Declared, Manner};
use crate::state::{Content, Path};
use crate::step::LAST_VERSION;
use hidewillow::desk as door;
use hidewillow::Lease;
use std::collections::BTreeSet;

struct Talk {
    dice: Dice,
    door: door::Desk,
    desk: Desk,
    leases: usize,
}

/// A request that was read, but for its process, which no bytes tell.
fn read(bytes: &[u8], pid: u64) -> Request {
    let it = door::Request::of(bytes).expect("a request");
    Request {
        number: it.number,
        pid,
        name: String::from_utf8(it.name.to_vec()).expect("a name"),
        ask: match it.ask {
            door::Ask::Get => Ask::Get,
            door::Ask::Check(version) => Ask::Check(version),
            door::Ask::Store(version, bytes) => Ask::Store(version, bytes.to_vec()),
        },
        guess: it.guess,
        rests: it.rests.into_iter().collect(),
        settled: it.settled,
    }
}

/// The bytes of a reply.
fn written(number: u64, answer: &Answer) -> Vec<u8> {
    let of = |it: &Content| door::Content { version: it.version, bytes: it.bytes.clone() };
    let answer = match answer {
        Answer::Yes => door::Answer::Yes,
        Answer::No(content) => door::Answer::No(of(content)),
        Answer::Copy(content) => door::Answer::Copy(of(content)),
        Answer::Dropped => door::Answer::Dropped,
    };
    door::Reply { number, answer }.bytes()
}

impl Talk {
    fn new(number: u64, manner: Manner) -> Talk {
        let mut dice = Dice(number);
        let text = any_kernel(&mut dice, manner) + "world\n";
        Talk {
            door: door::Desk::open(&text).expect("a scenario"),
            desk: Desk::new(Declared::of(&text)),
            dice,
            leases: 0,
        }
    }

    /// Any content, also of the last version.
    fn content(&mut self) -> Content {
        let version = match self.dice.roll(16) {
            0 => LAST_VERSION,
            roll => roll as u64 % 4,
        };
        let bytes: &[u8] = self.dice.pick(&[&b""[..], b"lie", b"w"]);
        Content { version, bytes: bytes.to_vec() }
    }

    /// Gives any reply, mostly one that is due.
    fn give(&mut self) {
        let due = self.desk.expected();
        assert_eq!(self.door.expected(), due, "the request whose reply is next");
        let number = match self.dice.roll(8) {
            0 => due.saturating_sub(1),
            1 => due + 1,
            2 => self.dice.roll(8) as u64,
            _ => due,
        };
        let answer = match self.dice.roll(8) {
            0 => Answer::Dropped,
            1 | 2 => Answer::No(self.content()),
            3 | 4 => Answer::Copy(self.content()),
            _ => Answer::Yes,
        };
        let told = self.door.reply(&written(number, &answer));
        let wanted = self.desk.give(number, &answer).map_err(|why| door::Refusal::Refused(why as u64));
        assert_eq!(told, wanted, "a reply to {number}: {answer:?}");
    }

    fn take(&mut self) {
        let told = self.door.request().expect("memory");
        let wanted = self.desk.take();
        let pid = wanted.map_or(0, |it| it.pid);
        assert_eq!(told.map(|it| read(&it, pid)).as_ref(), wanted, "the next request");
    }

    fn lease(&mut self) {
        let pid = any_process(&mut self.dice, &self.desk.record);
        let most = self.dice.roll(6) as u32;
        let wanted = self.desk.lease(pid, most);
        assert_eq!(self.door.lease(&Path(pid).to_string(), most), Ok(wanted));
        self.leases += usize::from(matches!(wanted, Lease::Ran(count) if count > 0));
    }

    fn turn(&mut self) {
        let pid = any_process(&mut self.dice, &self.desk.record);
        let told = self.door.turn(&Path(pid).to_string());
        let wanted = self.desk.turn(pid).map_err(|why| door::Refusal::Refused(why as u64));
        assert_eq!(told, wanted, "a turn of {}", Path(pid));
    }

    fn any(&mut self) {
        match self.dice.roll(16) {
            0 | 1 => self.take(),
            2..=5 => self.give(),
            6 | 7 => self.lease(),
            _ => self.turn(),
        }
    }

    fn judge(&mut self) {
        assert_eq!(self.door.pending(), self.desk.pending(), "requests without a reply");
        same(&self.door.report().expect("a report"), &self.desk.record.report());
    }
}

/// Makes random desks, in which some requests have replies, and some leases do something.
fn all(part: u64, manner: Manner) {
    let (mut made, mut leases, mut met) = (0, 0, BTreeSet::new());
    for number in runs(part, DESKS) {
        let _named = Named("desk", number);
        let mut talk = Talk::new(number, manner);
        for _ in 0..20 + talk.dice.roll(60) {
            talk.any();
            talk.judge();
        }
        made += 1;
        leases += talk.leases;
        met.extend(talk.desk.met);
    }
    assert!(made < 100 || leases > 0, "no lease did anything");
    all_met(made, &met, KINDS.into_iter().filter(|it| !OF_WORLDS.contains(it)));
}

const DESKS: u64 = 1_250;

/// What is met in worlds, or by a test of its own.
const OF_WORLDS: [&str; 2] = ["an epoch forgets a kept answer", "a kept answer is forgotten for a signal"];

#[test]
fn replies_that_lie_1() {
    all(0, Manner::Any);
}

#[test]
fn replies_that_lie_2() {
    all(1, Manner::Any);
}

#[test]
fn replies_that_lie_3() {
    all(2, Manner::Any);
}

#[test]
fn replies_that_lie_4() {
    all(3, Manner::Any);
}

#[test]
fn replies_that_lie_to_guesses_1() {
    all(4, Manner::Guessing);
}

#[test]
fn replies_that_lie_to_guesses_2() {
    all(5, Manner::Guessing);
}

#[test]
fn replies_that_lie_to_guesses_3() {
    all(6, Manner::Guessing);
}

#[test]
fn replies_that_lie_to_guesses_4() {
    all(7, Manner::Guessing);
}
