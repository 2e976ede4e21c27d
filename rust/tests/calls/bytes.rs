//! Bytes that come cut at every place, what is said of those that are no request, and what a host is asked.
use crate::bench::Call::{
    self, Asks, Connects, Cuts, Decides, Failed, Feeds, Queued, Says, SaysIn, Sends, Synced, Takes, Tells, TellsNone,
    Waits,
};
use crate::bench::{plays, Bench};
use crate::clients::{Client, SMALL};
use hidewillow::store::{Decision, Request};

/// Requests of both forms, empty ones, words of any bytes, and requests of too many words and of too many bytes.
const STREAM: &[u8] = b"*3\r\n$3\r\nset\r\n$1\r\nk\r\n$4\r\n\r\n\0*\r\nGET k\r\n*0\r\n\r\n  STRLEN   k \n\
*9\r\n$4\r\nMGET\r\n$1\r\na\r\n$1\r\nb\r\n$1\r\nc\r\n$1\r\nd\r\n$1\r\ne\r\n$1\r\nf\r\n$1\r\ng\r\n$1\r\nh\r\n\
*2\r\n$4\r\nECHO\r\n$61\r\n0123456789012345678901234567890123456789012345678901234567890\r\n\
*2\r\n$4\r\nECHO\r\n$0\r\n\r\nPING\r\n";

/// What is replied to them.
const REPLIES: &[u8] = b"+OK\r\n$4\r\n\r\n\0*\r\n:4\r\n-ERR the request is too large\r\n\
-ERR the request is too large\r\n$0\r\n\r\n+PONG\r\n";

/// A queue that a request spoils which is too large, and bytes behind a fault.
const SPOILED: &[u8] = b"*1\r\n$4\r\nPING\r\nGET k\r\n\r\nMULTI\nGET k\n\
*9\r\n$1\r\na\r\n$1\r\nb\r\n$1\r\nc\r\n$1\r\nd\r\n$1\r\ne\r\n$1\r\nf\r\n$1\r\ng\r\n$1\r\nh\r\n$1\r\ni\r\nEXEC\nPING\n\
*1\r\nPING\r\nPING\n";

const SPOILED_REPLIES: &[u8] = b"+PONG\r\n$-1\r\n+OK\r\n+QUEUED\r\n-ERR the request is too large\r\n\
-EXECABORT Transaction discarded because of previous errors.\r\n+PONG\r\n\
-ERR Protocol error: expected '$', got 'P'\r\n";

/// The bytes are replied to so, cut at this place, and the channel is closed or not.
fn is_cut(bytes: &[u8], replies: &[u8], place: usize, is_closed: bool) {
    let mut client = Client::new(&SMALL);
    client.feed(&bytes[..place]);
    client.feed(&bytes[place..]);
    assert_eq!(client.out().escape_ascii().to_string(), replies.escape_ascii().to_string(), "{place}");
    assert_eq!(client.is_closed(), is_closed, "{place}");
}

#[test]
fn bytes_are_read_alike_cut_at_every_place() {
    for place in 0..=STREAM.len() {
        is_cut(STREAM, REPLIES, place, false);
    }
    for place in 0..=SPOILED.len() {
        is_cut(SPOILED, SPOILED_REPLIES, place, true);
    }
}

#[test]
fn bytes_are_read_alike_one_by_one() {
    let mut client = Client::new(&SMALL);
    STREAM.chunks(1).for_each(|byte| client.feed(byte));
    assert_eq!(client.out(), REPLIES);
}

const COUNT: &str = "invalid multibulk length";
const LENGTH: &str = "invalid bulk length";
const END: &str = "expected CRLF behind a bulk";
const MARK: &str = "expected '$', got '+'";
const LINE: &str = "too big inline request";

/// What begins no request, behind one, and what is said of it.
const FAULTS: &[(&[u8], &str)] = &[
    (b"PING\r\n*x\r\n", COUNT),
    (b"PING\r\n*01\r\n", COUNT),
    (b"PING\r\n*-1\r\n", COUNT),
    (b"PING\r\n*2\n", COUNT),
    (b"PING\r\n*1\r\n$x\r\n", LENGTH),
    (b"PING\r\n*1\r\n$-1\r\n", LENGTH),
    (b"PING\r\n*1\r\n+OK\r\n", MARK),
    (b"PING\r\n*1\r\n$4\r\nPINGS\r\n", END),
    (b"PING\r\n*1\r\n$4\r\nPING\n", END),
    (b"PING\r\n*1\r\n$4\r\nPING\r\r", END),
    (b"PING\r\n01234567890123456789012345678901234567890123456789012345678901234\n", LINE),
];

/// Each fault is said, whatever place behind the request that is whole its bytes are cut at.
#[test]
fn faults_are_told_cut_at_every_place() {
    for (bytes, fault) in FAULTS {
        let said = format!("+PONG\r\n-ERR Protocol error: {fault}\r\n");
        (6..bytes.len()).for_each(|place| is_cut(bytes, said.as_bytes(), place, true));
    }
}

/// A queue that has room for one of two commands, and is not carried out then.
const FULL_QUEUE: &[Call] = &[
    Connects(0),
    Sends(0, b"MULTI\r\nGET k\r\n"),
    Queued(0, 132),
    Sends(0, b"GET k\r\n"),
    Queued(0, 132),
    Sends(0, b"EXEC\r\n"),
    Queued(0, 0),
    Says(0, b"+OK\r\n+QUEUED\r\n-ERR the commands that wait for EXEC take as many bytes as may\r\n"),
    Says(0, b"-EXECABORT Transaction discarded because of previous errors.\r\n"),
    Waits(0),
];

#[test]
fn queue_takes_no_more_bytes_than_may() {
    Bench::new(&SMALL).play(FULL_QUEUE);
}

/// The host is asked for what no command is, and nothing behind it is taken until it told.
const ASKED: &[Call] = &[
    Connects(0),
    TellsNone(0),
    Feeds(0, b"INFO all\r\nPING\r\n", 10, Request::Asked),
    Asks(0, &[b"INFO", b"all"]),
    Feeds(0, b"PING\r\n", 0, Request::Asked),
    Tells(0, b"+told\r\n"),
    Asks(0, &[]),
    TellsNone(0),
    Feeds(0, b"PING\r\n", 6, Request::Done),
    Says(0, b"+told\r\n+PONG\r\n"),
];

#[test]
fn host_is_asked() {
    plays(1000, 1000, &[ASKED]);
}

/// In a queue it is the error that it is without a host.
const QUEUED: &[Call] = &[
    Connects(0),
    Feeds(0, b"MULTI\r\n", 7, Request::Done),
    Feeds(0, b"INFO\r\n", 6, Request::Done),
    Asks(0, &[]),
    Says(0, b"+OK\r\n-ERR unknown command\r\n"),
];

#[test]
fn queue_is_not_the_hosts() {
    plays(1000, 1000, &[QUEUED]);
}

/// The first and the last of four are told something, and those between are not done.
const GAPS: &[Call] = &[
    Connects(0),
    Sends(0, b"PING\r\nSET a 1\r\nSET b 1\r\n"),
    Takes(2, 1, 24),
    Sends(0, b"INCRBY c 7\r\n"),
    Failed(2),
    Cuts(2, 2),
    Decides(Some(Decision::CutOff { batch: 1, keys: 3 })),
    Takes(3, 2, 24),
    Synced(3),
    Decides(Some(Decision::Logged(2))),
];

/// What goes out then.
const TOLD: &[u8] = b"+PONG\r\n-IOERR the write did not reach the disk, nothing of it was done\r\n\
-IOERR the write did not reach the disk, nothing of it was done\r\n:7\r\n";

#[test]
fn gaps_are_told_in_pieces_of_any_size() {
    for step in [1, 7, 200] {
        plays(1000, 1000, &[GAPS, &[SaysIn(0, step, TOLD), Waits(0)]]);
    }
}
