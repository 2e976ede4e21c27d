//! Batches whose frames are told of in any order: what is logged stays, what is cut off is taken back, what is kept behind a cut, and
//! the refusals.
use crate::bench::plays;
use crate::bench::Call::{
    self, Connects, Cuts, CutsNot, Decides, Failed, Feeds, Has, InFlight, Lacks, NoCut, RestsOn, Says, Sends, Sent,
    Stops, Synced, SyncedNot, Takes, TakesNone, TakesShort, Undecided, Waits,
};
use hidewillow::store::{Decision, NotDone, Refusal, Request};

const LOST: &[u8] = b"-IOERR the write did not reach the disk, nothing of it was done\r\n";

/// Batch 1 is synced; 2 fails; of 3 one command depends on it and one does not; 4 depends on 3, and is synced; of 5 one depends on 2.
const FAILED: &[Call] = &[
    Connects(0),
    Connects(1),
    Sends(0, b"SET a a\r\n"),
    Takes(2, 1, 24),
    Sends(1, b"SET b b\r\n"),
    Takes(3, 1, 75),
    Sends(1, b"APPEND b c\r\n"),
    Sends(0, b"APPEND a d\r\n"),
    Takes(4, 1, 126),
    Sends(0, b"APPEND a e\r\n"),
    Takes(5, 1, 210),
    Sends(1, b"MULTI\r\nAPPEND b f\r\nGET a\r\nEXEC\r\n"),
    Sends(0, b"SET g g\r\n"),
    RestsOn(b"b", 5),
    InFlight(4),
    Failed(3),
    Synced(5),
    Synced(4),
    NoCut,
    Waits(0),
];

const CUT: &[Call] = &[
    Synced(2),
    Decides(Some(Decision::Logged(1))),
    Decides(None),
    Says(0, b"+OK\r\n"),
    Waits(0),
    Cuts(3, 2),
    Decides(Some(Decision::CutOff { batch: 2, keys: 2 })),
    Decides(None),
    Lacks(b"b"),
    Has(b"a", b"ade"),
    Takes(4, 2, 24),
    Sent(
        b"*3\r\n$6\r\nappend\r\n$1\r\na\r\n$1\r\nd\r\n*3\r\n$6\r\nappend\r\n$1\r\na\r\n$1\r\ne\r\n\
*3\r\n$3\r\nset\r\n$1\r\ng\r\n$1\r\ng\r\n",
    ),
    Synced(4),
    Waits(0),
    Decides(Some(Decision::Logged(3))),
    Decides(Some(Decision::Logged(4))),
    Decides(Some(Decision::Logged(5))),
    Says(0, b":2\r\n:3\r\n+OK\r\n"),
    Says(1, LOST),
    Says(1, LOST),
    Says(1, b"+OK\r\n+QUEUED\r\n+QUEUED\r\n"),
    Says(1, LOST),
    Undecided(0),
];

#[test]
fn what_does_not_rest_on_a_cut_is_logged_anew() {
    plays(1000, 1000, &[FAILED, CUT]);
}

const STOPPED: &[Call] = &[
    TakesNone(Refusal::Busy),
    Synced(2),
    Stops,
    Feeds(0, b"SET h h\r\n", 9, Request::NotDone(NotDone::Stopped)),
    TakesNone(Refusal::Stopped),
    SyncedNot(3, Refusal::Stopped),
    CutsNot(Refusal::Stopped),
    Decides(Some(Decision::Logged(1))),
    Decides(None),
];

#[test]
fn stops_where_no_cut_could_be_made() {
    plays(1000, 1000, &[FAILED, STOPPED]);
}

const TWO: &[Call] =
    &[Connects(0), Sends(0, b"SET a 1\r\n"), Takes(2, 1, 24), Sends(0, b"INCR a\r\n"), Takes(3, 1, 75), InFlight(2)];

const IN_ORDER: &[Call] = &[
    Synced(3),
    Decides(None),
    Synced(2),
    Decides(Some(Decision::Logged(1))),
    Decides(Some(Decision::Logged(2))),
    Decides(None),
    InFlight(0),
    Undecided(0),
];

#[test]
fn decided_in_order() {
    plays(1000, 1000, &[TWO, IN_ORDER]);
}

const FOUR: &[Call] = &[
    TakesNone(Refusal::Nothing),
    Connects(0),
    Sends(0, b"SET a 1\r\n"),
    Takes(2, 1, 24),
    Sends(0, b"SET a 1\r\n"),
    Takes(3, 1, 75),
    Sends(0, b"SET a 1\r\n"),
    Takes(4, 1, 126),
    Sends(0, b"SET a 1\r\n"),
    Takes(5, 1, 177),
];

const REFUSED: &[Call] = &[
    Sends(0, b"SET a 2\r\n"),
    TakesNone(Refusal::Busy),
    SyncedNot(6, Refusal::Unknown),
    Synced(2),
    SyncedNot(2, Refusal::Unknown),
    CutsNot(Refusal::NoCut),
    Decides(Some(Decision::Logged(1))),
    TakesShort(50),
    Undecided(4 * 27),
    Feeds(0, b"SET a 12\r\n", 10, Request::NotDone(NotDone::Bytes)),
    Feeds(0, b"SET a 3\r\n", 9, Request::Done),
    Undecided(5 * 27),
];

#[test]
fn refusals_in_order() {
    plays(5 * 27, 1000, &[FOUR, REFUSED]);
}

/// Batch 1 fails; through a queue a key of batch 2 depends on it, and another key does not.
const QUEUE_FAILED: &[Call] = &[
    Connects(0),
    Connects(1),
    Sends(0, b"INCR a\r\n"),
    Takes(2, 1, 24),
    Sends(0, b"MULTI\r\nGET a\r\nSET b 2\r\nEXEC\r\n"),
    Sends(1, b"INCR c\r\n"),
    RestsOn(b"b", 2),
    RestsOn(b"c", 1),
    Has(b"b", b"2"),
    Failed(2),
];

const QUEUE_CUT: &[Call] = &[
    Decides(None),
    Cuts(2, 2),
    Decides(Some(Decision::CutOff { batch: 1, keys: 3 })),
    Lacks(b"a"),
    Lacks(b"b"),
    Has(b"c", b"1"),
    Waits(1),
    Takes(3, 2, 24),
    Synced(3),
    Decides(Some(Decision::Logged(2))),
    Says(1, b":1\r\n"),
    Says(0, LOST),
    Says(0, b"+OK\r\n+QUEUED\r\n+QUEUED\r\n"),
    Says(0, LOST),
    Undecided(0),
];

#[test]
fn what_rests_on_a_cut_through_a_queue_is_taken_back() {
    plays(1000, 1000, &[QUEUE_FAILED, QUEUE_CUT]);
}

/// What a command depends on: the batches of the keys that it looks at and writes, and its own where it writes.
const LOOKS: &[Call] = &[
    Connects(0),
    Sends(0, b"MSET x 1 y 1\r\n"),
    Takes(2, 1, 24),
    Sends(0, b"MSET a 1 x 2\r\n"),
    RestsOn(b"a", 2),
    Sends(0, b"SET b 1\r\n"),
    RestsOn(b"b", 1),
    Sends(0, b"MULTI\r\nEXISTS y none\r\nSET c 1\r\nEXEC\r\n"),
    RestsOn(b"c", 2),
    Sends(0, b"MULTI\r\nEXISTS none\r\nSET d 1\r\nEXEC\r\n"),
    RestsOn(b"d", 1),
    Sends(0, b"MULTI\r\nDBSIZE\r\nSET e 1\r\nEXEC\r\n"),
    RestsOn(b"e", 2),
    Sends(0, b"MULTI\r\nKEYS z*\r\nSET f 1\r\nEXEC\r\n"),
    RestsOn(b"f", 2),
    Sends(0, b"DEL a b a\r\n"),
    RestsOn(b"b", 2),
];

#[test]
fn command_depends_on_the_keys_of_its_row() {
    plays(10_000, 1000, &[LOOKS]);
}
