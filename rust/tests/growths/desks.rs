//! What grows at a desk.
use crate::{FETCHES, MANY, OFTEN};
use hidewillow::desk::{Answer, Content, Desk, Reply, Request};
use hidewillow::Lease;

/// What is done to a desk.
#[derive(Clone, Copy)]
enum Act {
    /// So many turns of process 1.
    Turns(u32),
    /// So many of the oldest requests are taken, and answered yes.
    Yes(u32),
    /// So many of the oldest requests are taken, and answered no.
    No(u32),
    /// Process 1 is leased, runs so many private instructions, and is handed in.
    Lends(u32),
    /// An epoch begins.
    Epoch,
}

/// An answer that there is a newer version.
pub fn no() -> Answer {
    Answer::No(Content { version: 4, bytes: Vec::new() })
}

/// So many of the oldest requests are taken, and answered so.
pub fn replies(desk: &mut Desk, answer: &Answer, count: u32) {
    for _ in 0..count {
        let bytes = desk.request().expect("a request").expect("one waits");
        let number = Request::of(&bytes).expect("a request").number;
        desk.reply(&Reply { number, answer: answer.clone() }.bytes()).expect("a reply is taken");
    }
}

/// So many turns of a process.
pub fn turns(desk: &mut Desk, process: &str, count: u32) {
    for _ in 0..count {
        desk.turn(process).expect("a turn is taken");
    }
}

fn acts(desk: &mut Desk, act: Act) {
    match act {
        Act::Turns(count) => turns(desk, "1", count),
        Act::Yes(count) => replies(desk, &Answer::Yes, count),
        Act::No(count) => replies(desk, &no(), count),
        Act::Lends(count) => assert_eq!(desk.lease("1", count), Ok(Lease::Ran(count.into()))),
        Act::Epoch => desk.new_epoch().expect("an epoch begins"),
    }
}

/// Acts on a desk, so many times, and then an epoch.
fn grows(declared: &str, times: u32, all: &[Act]) {
    let mut desk = Desk::open(&format!("{declared}world\n")).expect("a desk");
    (0..times).for_each(|_| all.iter().for_each(|act| acts(&mut desk, *act)));
    acts(&mut desk, Act::Epoch);
}

#[test]
fn requests_and_replies() {
    grows(FETCHES, MANY, &[Act::Turns(1), Act::Yes(1), Act::Turns(1)]);
}

#[test]
fn requests_whose_guesses_fail() {
    grows(FETCHES, MANY, &[Act::Turns(1), Act::No(1), Act::Turns(2)]);
}

#[test]
fn as_many_requests_at_once() {
    grows(FETCHES, OFTEN, &[Act::Turns(128), Act::Yes(64)]);
}

#[test]
fn epochs_of_a_desk() {
    grows(FETCHES, MANY, &[Act::Turns(1), Act::Yes(1), Act::Turns(1), Act::Epoch]);
}

#[test]
fn instructions_of_a_desks_lease() {
    let computes = "limit 4000000\nscript a\na:\nset r1 1\njump a\nend\nprocess 1 a 1\n";
    grows(computes, 2, &[Act::Lends(MANY), Act::Epoch]);
}
