//! Random worlds: a client whose processes take turns, its server, and writes of others.
use crate::desk::{all_met, Answer, Desk, Server, KINDS};
use crate::dice::{runs, Dice, Named};
use crate::runs::{any_process, refused, same};
use crate::scenarios::{any_world, Declared, Manner};
use crate::state::{literal, Content, Path, Pid};
use hidewillow::desk::{Given, Turn};
use hidewillow::{Epoch, Play};
use std::collections::{BTreeSet, VecDeque};

/// How often each event comes: so many of 128. The others are turns.
#[derive(Clone, Copy)]
struct Pace {
    serves: usize,
    replies: usize,
    edits: usize,
}

pub struct World {
    dice: Dice,
    play: Play,
    pub desk: Desk,
    pub server: Server,
    /// Answers that are on their way.
    replies: VecDeque<(u64, Answer)>,
}

impl World {
    fn new(number: u64, manner: Manner) -> World {
        let mut dice = Dice(number);
        let text = any_world(&mut dice, manner);
        World::of(&text, dice)
    }

    /// The world that a text declares.
    pub fn of(text: &str, dice: Dice) -> World {
        let declared = Declared::of(text);
        World {
            play: Play::open(text).expect("a scenario"),
            server: Server::new(declared.files.clone()),
            desk: Desk::new(declared),
            dice,
            replies: VecDeque::new(),
        }
    }

    /// Makes an event, which is answered so.
    fn event(&mut self, line: &str, wanted: &str) {
        let answer = self.play.line(line).expect("an event").expect("no comment");
        assert_eq!(answer.text.as_deref(), Some(wanted), "what `{line}` is answered");
    }

    fn turn(&mut self) {
        let pid = any_process(&mut self.dice, &self.desk.record);
        self.turn_of(pid);
    }

    /// A turn of a process; what it is answered.
    pub fn turn_of(&mut self, pid: Pid) -> String {
        let wanted = match self.desk.turn(pid) {
            Ok(Turn::Stepped) => "stepped".to_string(),
            Ok(Turn::Guessed(guess)) => format!("guessed {guess}"),
            Ok(Turn::Asked(number)) => format!("asked {number}"),
            Err(refusal) => refused(refusal),
        };
        self.event(&format!("turn {}", Path(pid)), &wanted);
        wanted
    }

    /// Whether there was a request to serve.
    pub fn serve(&mut self) -> bool {
        let Some(request) = self.desk.take() else {
            self.event("serve", "idle");
            return false;
        };
        let answer = self.server.answer(request);
        let number = request.number;
        let wanted = match &answer {
            Answer::Yes => "yes".to_string(),
            Answer::No(content) => format!("no {}", content.version),
            Answer::Copy(content) => format!("copy {}", content.version),
            Answer::Dropped => "dropped".to_string(),
        };
        self.replies.push_back((number, answer));
        self.event("serve", &wanted);
        true
    }

    /// Whether there was a reply to give.
    pub fn reply(&mut self) -> bool {
        let Some((number, answer)) = self.replies.pop_front() else {
            self.event("reply", "idle");
            return false;
        };
        let wanted = match self.desk.give(number, &answer).expect("a reply in its turn") {
            Given::Committed(guess) => format!("committed {guess}"),
            Given::Failed(guess) => format!("failed {guess}"),
            Given::Gone(guess) => format!("gone {guess}"),
            Given::Taken(number) => format!("taken {number}"),
            Given::Forgotten(number) => format!("forgotten {number}"),
        };
        self.event("reply", &wanted);
        true
    }

    /// Another client writes a file, mostly of the version that it has.
    fn edit(&mut self) {
        let name = self.dice.pick(&["/x", "/y", "/z"]);
        let is_ahead = self.dice.once_in(8);
        let version = self.server.version(name) + u64::from(is_ahead);
        let bytes: &[u8] = self.dice.pick(&[&b""[..], b"foreign", b"w"]);
        self.edit_of(name, version, bytes);
    }

    /// Another client writes a file, where it has this version.
    pub fn edit_of(&mut self, name: &str, version: u64, bytes: &[u8]) {
        let wanted = match self.server.fits(name, version) {
            false => "refused 1 Version".to_string(),
            true => format!("edited {}", self.server.write(name, bytes.to_vec()).version),
        };
        self.event(&format!("edit {name} {version} {}", literal(bytes)), &wanted);
    }

    /// An epoch begins where each request has its reply.
    fn epoch(&mut self) {
        let told = self.play.new_epoch().expect("memory");
        let wanted = match self.desk.pending() {
            0 => Epoch::Begun(self.desk.begin_epoch() as u64),
            _ => Epoch::Refused(2),
        };
        assert_eq!(told, wanted, "an epoch");
    }

    fn any(&mut self, pace: Pace) {
        if self.dice.once_in(24) {
            return self.epoch();
        }
        let roll = self.dice.roll(128);
        if roll < pace.serves {
            self.serve();
        } else if roll < pace.serves + pace.replies {
            self.reply();
        } else if roll < pace.serves + pace.replies + pace.edits {
            self.edit();
        } else {
            self.turn();
        }
    }

    pub fn judge(&mut self) {
        let file = |(name, it): (&String, &Content)| format!("remote {name} {} {}\n", it.version, literal(&it.bytes));
        let files: String = self.server.files.iter().map(file).collect();
        same(
            &self.play.report().expect("a report"),
            &self.desk.record.report_with(&files, &format!(" pending {}", self.desk.pending())),
        );
    }

    /// Serves every request and gives every reply; then the stores of the record are just the accepted ones, in their order for
    /// each file.
    fn settle(&mut self) {
        while self.serve() {
            self.judge();
        }
        while self.reply() {
            self.judge();
        }
        assert_eq!(self.desk.pending(), 0);
        let sorted = |mut all: Vec<(String, Content)>| {
            all.sort_by(|a, b| (&a.0, a.1.version).cmp(&(&b.0, b.1.version)));
            all
        };
        let accepted = sorted(self.server.accepted.clone());
        assert_eq!(sorted(self.desk.record.stores()), accepted, "accepted stores stand, and no others");
    }
}

/// Makes random worlds, in which some stores are accepted.
fn all(part: u64, manner: Manner, serves: usize, replies: usize, edits: usize) {
    let pace = Pace { serves, replies, edits };
    let (mut made, mut accepted, mut met) = (0, 0, BTreeSet::new());
    for number in runs(part, WORLDS) {
        let _named = Named("world", number);
        let mut world = World::new(number, manner);
        for _ in 0..20 + world.dice.roll(60) {
            world.any(pace);
            world.judge();
        }
        world.settle();
        made += 1;
        accepted += world.server.accepted.len();
        met.extend(world.desk.met);
    }
    all_met(made, &met, KINDS.into_iter().filter(|it| !OF_LIES.contains(it)));
    assert!(made < 100 || accepted > 0, "no store was accepted");
}

const WORLDS: u64 = 1_250;

/// What no server that is told the truth comes to.
const OF_LIES: [&str; 5] = [
    "the last version is asked",
    "a reply is out of turn",
    "a reply is of the wrong kind",
    "a request is void",
    "a kept answer is forgotten for a signal",
];

#[test]
fn a_server_that_keeps_pace() {
    all(0, Manner::Any, 24, 24, 8);
}

#[test]
fn a_server_that_keeps_pace_again() {
    all(1, Manner::Any, 24, 24, 8);
}

#[test]
fn a_slow_server() {
    all(2, Manner::Guessing, 8, 8, 6);
}

#[test]
fn a_slow_server_again() {
    all(3, Manner::Guessing, 8, 8, 6);
}

#[test]
fn slow_replies() {
    all(4, Manner::Guessing, 32, 10, 4);
}

#[test]
fn slow_replies_again() {
    all(5, Manner::Guessing, 32, 10, 4);
}

#[test]
fn many_edits() {
    all(6, Manner::Guessing, 20, 20, 24);
}

#[test]
fn many_edits_again() {
    all(7, Manner::Guessing, 20, 20, 24);
}
