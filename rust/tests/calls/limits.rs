//! What a store takes no more of.
use crate::bench::Call::*;
use crate::bench::{plays, Call};
use hidewillow::store::{Decision, NotDone, Refusal, Request};

const BYTES: &[Call] = &[
    Refuses(0, b"GET a\r\n", Refusal::NoChannel),
    Connects(0),
    Feeds(0, b"SET a 1234\r\n", 12, Request::Done),
    Undecided(30),
    Refuses(0, b"GET a\r\n", Refusal::Full),
    Refuses(1, b"GET a\r\n", Refusal::Full),
    Takes(2, 1, 24),
    Synced(2),
    Decides(Some(Decision::Logged(1))),
    Undecided(0),
    Refuses(1, b"GET a\r\n", Refusal::NoChannel),
    Feeds(0, b"GET a\r\n", 7, Request::Done),
    HangsUp(0),
    Refuses(0, b"GET a\r\n", Refusal::NoChannel),
];

#[test]
fn no_bytes_are_taken_at_the_limit() {
    plays(30, 1000, &[BYTES]);
}

const NOT_DONE: &[Call] = &[
    Connects(0),
    Feeds(0, b"SET a 1\r\n", 9, Request::Done),
    Feeds(0, b"SET b 1\r\nGET a\r\n", 9, Request::NotDone(NotDone::Bytes)),
    Lacks(b"b"),
    Feeds(0, b"GET b\r\n", 7, Request::Done),
    Waits(0),
    Takes(2, 1, 24),
    Synced(2),
    Decides(Some(Decision::Logged(1))),
    Says(0, b"+OK\r\n-IOERR the write did not reach the disk, nothing of it was done\r\n$-1\r\n"),
];

#[test]
fn what_is_not_done_is_told_in_its_turn() {
    plays(40, 1000, &[NOT_DONE]);
}

/// A key of 65,537 bytes.
const LONG_KEY: &[Call] = &[
    Connects(0),
    Feeds(0, b"GET ", 4, Request::Part),
    FeedsLetters(0, 65_537),
    Feeds(0, b"\r\n", 2, Request::Done),
    Says(0, b"-ERR a key is longer than 65536 bytes\r\n"),
];

#[test]
fn long_key_is_answered_by_an_error() {
    plays(1000, 1000, &[LONG_KEY]);
}

const COMMANDS: &[Call] = &[
    Connects(0),
    Connects(1),
    Feeds(0, b"SET a 1\r\n", 9, Request::Done),
    Feeds(1, b"GET b\r\n", 7, Request::Done),
    Refuses(0, b"GET a\r\n", Refusal::Full),
    Refuses(1, b"GET a\r\n", Refusal::Full),
    Says(1, b"$-1\r\n"),
    Feeds(1, b"GET a\r\n", 7, Request::Done),
    Refuses(1, b"GET a\r\n", Refusal::Full),
    Takes(2, 1, 24),
    Synced(2),
    Decides(Some(Decision::Logged(1))),
    HangsUp(0),
    Feeds(1, b"GET b\r\n", 7, Request::Done),
    Says(1, b"$1\r\n1\r\n$-1\r\n"),
    Waits(1),
];

#[test]
fn no_more_commands_wait_than_may() {
    plays(1000, 2, &[COMMANDS]);
}

const LOST: &[u8] = b"-IOERR the write did not reach the disk, nothing of it was done\r\n";

/// Each channel of which nothing was done is named, one after another, though none has an answer.
const NAMED: &[Call] = &[
    Connects(0),
    Connects(1),
    Connects(2),
    Ready(None),
    Feeds(0, b"SET a 1\r\n", 9, Request::Done),
    Feeds(1, b"SET b 1\r\n", 9, Request::NotDone(NotDone::Bytes)),
    Feeds(2, b"SET c 1\r\n", 9, Request::NotDone(NotDone::Bytes)),
    Ready(Some(1)),
    Says(1, LOST),
    Ready(Some(2)),
    Says(2, LOST),
    Ready(None),
];

#[test]
fn each_that_was_not_done_is_named() {
    plays(40, 1000, &[NAMED]);
}
