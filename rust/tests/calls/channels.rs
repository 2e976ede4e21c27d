//! What comes on channels.
use crate::bench::Call::*;
use crate::bench::{plays, Call};
use hidewillow::store::{Decision, Request};

const ERRORS: &[Call] = &[
    Connects(0),
    Sends(0, b"SET a 1\r\nGET \xffbatch1\r\nPING\r\n"),
    Waits(0),
    Takes(2, 1, 24),
    Synced(2),
    Decides(Some(Decision::Logged(1))),
    Says(0, b"+OK\r\n-ERR a key begins as those that are kept for batches\r\n"),
    Says(0, b"+PONG\r\n"),
    Waits(0),
    Sends(0, b"*x\r\n"),
    Closed(0),
    Says(0, b"-ERR Protocol error: invalid multibulk length\r\n"),
    Feeds(0, b"PING\r\n", 6, Request::Part),
];

#[test]
fn errors_are_told_in_their_turn() {
    plays(1000, 1000, &[ERRORS]);
}

const NUMBERS: &[Call] = &[
    Connects(0),
    Sends(0, b"SET a 1\r\n"),
    HangsUp(0),
    Connects(1),
    Takes(2, 1, 24),
    Synced(2),
    Decides(Some(Decision::Logged(1))),
    Ready(None),
    Connects(0),
    Has(b"a", b"1"),
];

#[test]
fn numbers_come_again_once_nothing_waits() {
    plays(1000, 1000, &[NUMBERS]);
}

const PARTS: &[Call] = &[
    Connects(0),
    Feeds(0, b"", 0, Request::Part),
    Feeds(0, b"SET a", 5, Request::Part),
    Feeds(0, b" 1\r\nGET a\r\n", 4, Request::Done),
    Has(b"a", b"1"),
    Feeds(0, b"\r\n", 2, Request::Part),
    Feeds(0, b"GET a\r\n", 7, Request::Done),
];

#[test]
fn requests_come_in_parts() {
    plays(1000, 1000, &[PARTS]);
}

const QUEUE: &[Call] = &[
    Connects(0),
    Connects(1),
    Sends(0, b"MULTI\r\nINCR a\r\n"),
    Sends(1, b"SET a 5\r\n"),
    Sends(0, b"INCR a\r\nEXEC\r\n"),
    Takes(2, 1, 24),
    Synced(2),
    Decides(Some(Decision::Logged(1))),
    Says(0, b"+OK\r\n+QUEUED\r\n+QUEUED\r\n*2\r\n:6\r\n:7\r\n"),
    Says(1, b"+OK\r\n"),
    Has(b"a", b"7"),
];

#[test]
fn queue_is_carried_out_as_one() {
    plays(1000, 1000, &[QUEUE]);
}

/// A request of several lines and words is taken in one call.
const WHOLE: &[Call] =
    &[Connects(0), Feeds(0, b"*3\r\n$3\r\nSET\r\n$1\r\na\r\n$1\r\n1\r\nGET a\r\n", 27, Request::Done), Has(b"a", b"1")];

#[test]
fn whole_request_is_taken_in_one_call() {
    plays(1000, 1000, &[WHOLE]);
}
