//! Random runs of a store over a disk that fails and crashes, each held against a plain store after each call.
//!
//! Up to eight channels ask, with frames in flight that are synced in any order or fail, cuts, crashes that leave any bytes of what
//! was not told as synced, and starts that crash too, or that write a snapshot and begin again behind it. After each call each key
//! has what the plain store has and depends on what its last writer did, and the answer to a request, looked at before it may go
//! out, is the plain store's. What a channel let go of is, whenever it was taken, just what its tickets may be told by then, in
//! order: nothing too early, nothing held too long. A batch is told as logged only where its frame and all before it were synced,
//! and as refused only where it was cut off. After a crash what is read is the plain store after the first of the logged commands
//! that stand, with all of each batch that was told as logged. `RUNS` says how many runs each test makes at most, `RUNS_AFTER`
//! behind which number they begin.
#![allow(clippy::pedantic)] // of tests the usual lints are asked for
mod calls;
#[path = "../dice/mod.rs"]
mod dice;
mod disk;
mod frames;
mod host;
mod model;
mod plain;
mod requests;

use calls::{End, Recovery, Store, StoreLimits};
use dice::{runs, Named};
use host::Host;

/// How many runs each test makes, and how many things happen in each.
const RUNS: u64 = 2_500;
const TURNS: usize = 120;

fn make(part: u64) {
    for number in runs(part, RUNS) {
        let _named = Named("run of the store", number);
        let mut host = Host::new(number);
        (0..TURNS).for_each(|_| host.turn());
    }
}

#[test]
fn a_store_is_what_the_plain_one_is_1() {
    make(0);
}

#[test]
fn a_store_is_what_the_plain_one_is_2() {
    make(1);
}

#[test]
fn a_store_is_what_the_plain_one_is_3() {
    make(2);
}

#[test]
fn a_store_is_what_the_plain_one_is_4() {
    make(3);
}

/// What a request says on a channel of its own, once what it writes is on the disk and decided.
fn asked(store: &mut Store, request: &[u8]) -> Vec<u8> {
    let channel = store.connect();
    assert_eq!(store.feed(channel, request).expect("a request is fed").end, End::Done);
    if let Ok(frame) = store.take_frame() {
        store.synced(frame.place.frame);
        while store.decide().is_some() {}
    }
    let said = store.output(channel);
    store.hang_up(channel);
    said
}

#[test]
fn what_many_keys_leave_is_let_go_in_pieces() {
    let mut recovery = Recovery::open(1);
    recovery.end(0, 0);
    let limits = StoreLimits {
        words: 200,
        bytes: 10_000,
        line: 10_000,
        waiting: 10_000,
        segment: 1 << 20,
        undecided: 10_000,
        commands: 10,
        in_flight: 4,
    };
    let mut store = Store::open(recovery, &limits, 1).0;
    let pairs: String = (10..80).map(|it| format!(" k{it} {it}")).collect();
    assert_eq!(asked(&mut store, format!("MSET{pairs}\r\n").as_bytes()), b"+OK\r\n");
    assert_eq!(asked(&mut store, b"DBSIZE\r\n"), b":70\r\n");
    // Those of the keys, and that of the batch, whatever they had before.
    assert_eq!([50, 0, 50, 50].map(|most| store.let_go(most)), [21, 21, 0, 0]);
    assert_eq!(asked(&mut store, b"SET k10 1\r\n"), b"+OK\r\n");
    assert_eq!(store.let_go(0), 0, "few keys leave nothing");
    assert_eq!(asked(&mut store, b"FLUSHALL\r\n"), b"+OK\r\n");
    assert_eq!(asked(&mut store, b"DBSIZE\r\n"), b":0\r\n");
    assert_eq!(store.let_go(1), 70);
    // What one decision leaves is the most that stays.
    assert_eq!(asked(&mut store, format!("MSET{pairs}\r\n").as_bytes()), b"+OK\r\n");
    assert_eq!(store.let_go(0), 71);
    assert_eq!((store.value(b"k11"), store.let_go(71)), (Some(b"11".to_vec()), 0));
}

#[test]
fn names_tell_what_may_write() {
    let told = |words: &[&str]| words.iter().map(|it| hidewillow::store::may_write(it.as_bytes())).collect::<Vec<_>>();
    assert_eq!(told(&["SET", "del", "IncrBy", "MSET", "APPEND", "FLUSHALL", "exec"]), [Some(true); 7]);
    assert_eq!(told(&["GET", "exists", "MGet", "KEYS", "DBSIZE", "MULTI", "discard"]), [Some(false); 7]);
    assert_eq!(told(&["NONE", ""]), [None; 2]);
}
