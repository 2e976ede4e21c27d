//! What waits, what goes out, and what is cut off.
use crate::bench::Call::*;
use crate::bench::{plays, Call};
use hidewillow::store::{Decision, NotDone, Refusal, Request};

/// What is told of a write that did not reach the disk.
const LOST: &[u8] = b"-IOERR the write did not reach the disk, nothing of it was done\r\n";

const OK: &[u8] = b"+OK\r\n";

const NULL: &[u8] = b"$-1\r\n";

const REPLIES_WAIT: &[Call] = &[
    Connects(0),
    Connects(1),
    Sends(0, b"SET a 1\r\nINCR a\r\nGET a\r\nDBSIZE\r\n"),
    Sends(1, b"GET b\r\nGET a\r\nGET b\r\n"),
    Waits(0),
    Says(1, NULL),
    Waits(1),
    Takes(2, 1, 24),
    Waits(0),
    Synced(2),
    Waits(0),
    Decides(Some(Decision::Logged(1))),
    Decides(None),
    Ready(Some(0)),
    Says(0, b"+OK\r\n:2\r\n$1\r\n2\r\n:1\r\n"),
    Ready(Some(1)),
    Says(1, b"$1\r\n2\r\n$-1\r\n"),
    Ready(None),
    Has(b"a", b"2"),
    RestsOn(b"a", 0),
];

#[test]
fn replies_wait_for_what_they_rest_on() {
    plays(1000, 1000, &[REPLIES_WAIT]);
}

const REFUSALS_WAIT: &[Call] = &[
    Connects(0),
    Connects(1),
    Sends(0, b"SET a 1\r\n"),
    Takes(2, 1, 24),
    Synced(2),
    Decides(Some(Decision::Logged(1))),
    Says(0, OK),
    Sends(0, b"SET b 1\r\n"),
    Sends(1, b"GET b\r\nGET a\r\n"),
    Takes(3, 1, 75),
    NoCut,
    Failed(3),
    Decides(None),
    Waits(0),
    Waits(1),
    Ready(None),
    Cuts(3, 2),
    Refuses(0, b"GET b\r\n", Refusal::DecisionDue),
    Decides(Some(Decision::CutOff { batch: 2, keys: 2 })),
    Lacks(b"b"),
    Ready(Some(1)),
    Says(1, LOST),
    Says(1, b"$1\r\n1\r\n"),
    Ready(Some(0)),
    Says(0, LOST),
    Ready(None),
    NoCut,
];

#[test]
fn refusals_wait_for_their_cut() {
    plays(1000, 1000, &[REFUSALS_WAIT]);
}

const KEPT: &[Call] = &[
    Connects(0),
    Connects(1),
    Sends(0, b"SET a 1\r\n"),
    Takes(2, 1, 24),
    Sends(0, b"APPEND a 2\r\n"),
    Sends(1, b"SET b 1\r\n"),
    Takes(3, 1, 75),
    RestsOn(b"a", 2),
    RestsOn(b"b", 1),
    Synced(3),
    Failed(2),
    Waits(1),
    Cuts(2, 2),
    Decides(Some(Decision::CutOff { batch: 1, keys: 2 })),
    Decides(None),
    Lacks(b"a"),
    Has(b"b", b"1"),
    Waits(1),
    Says(0, LOST),
    Says(0, LOST),
    Takes(3, 2, 24),
    Synced(3),
    Decides(Some(Decision::Logged(2))),
    Decides(Some(Decision::Logged(3))),
    Decides(None),
    Says(1, OK),
];

#[test]
fn what_does_not_rest_on_a_cut_is_sent_again() {
    plays(1000, 1000, &[KEPT]);
}

const ANY_ORDER: &[Call] = &[
    Connects(0),
    Connects(1),
    Sends(0, b"SET a 1\r\n"),
    Takes(2, 1, 24),
    Sends(1, b"SET b 1\r\n"),
    Takes(3, 1, 75),
    Synced(3),
    Decides(None),
    Waits(1),
    Synced(2),
    Decides(Some(Decision::Logged(1))),
    Waits(1),
    Says(0, OK),
    Decides(Some(Decision::Logged(2))),
    Says(1, OK),
];

#[test]
fn syncs_come_in_any_order() {
    plays(1000, 1000, &[ANY_ORDER]);
}

const STOPPED: &[Call] = &[
    Connects(0),
    Sends(0, b"SET a 1\r\n"),
    Takes(2, 1, 24),
    Failed(2),
    Stops,
    Decides(None),
    Feeds(0, b"GET a\r\n", 7, Request::Done),
    Feeds(0, b"SET b 1\r\n", 9, Request::NotDone(NotDone::Stopped)),
    TakesNone(Refusal::Stopped),
    Waits(0),
    HangsUp(0),
];

#[test]
fn nothing_is_written_once_it_has_stopped() {
    plays(1000, 1000, &[STOPPED]);
}
