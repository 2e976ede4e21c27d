//! What the payloads of a log say, and snapshots.
use crate::bench::limits;
use crate::frames::frame;
use hidewillow::store::{ReadCounts, Recovery, Refusal, Store, HEAD};

/// A log whose first frame in segment 1 has this payload, read to its end.
fn read(payload: &[u8]) -> (Recovery, ReadCounts, Result<(), Refusal>) {
    let mut log = Recovery::new(1).expect("a log is begun");
    let bytes = frame(1, 1, payload);
    assert_eq!(log.head(1, &bytes[..HEAD]), Ok(true));
    log.feed(1, &bytes).expect("a segment comes");
    let (counts, told) = log.end(0, 0);
    (log, counts, told)
}

/// Behind what was read just `a` and `b` are keys.
fn has(mut log: Recovery, a: &[u8], b: &[u8]) {
    let (mut store, ..) = Store::open(&mut log, &limits(1000, 1000)).expect("a store is opened");
    let mut value = |key: &[u8]| store.value(key, &mut Vec::new()).map(<[u8]>::to_vec);
    assert_eq!((value(b"a").as_deref(), value(b"b").as_deref()), (Some(a), Some(b)));
    let channel = store.connect().expect("a channel");
    let mut said = [0; 100];
    store.feed(channel, b"KEYS *\r\n").expect("a request is fed");
    let count = store.output(channel, &mut said).expect("what is said");
    assert_eq!(said[..count], *b"*2\r\n$1\r\na\r\n$1\r\nb\r\n");
}

/// A key is set, and then both of a queue are carried out.
const PAYLOAD: &[u8] = b"*3\r\n$3\r\nset\r\n$1\r\na\r\n$1\r\n1\r\n\
    *1\r\n$5\r\nmulti\r\n*3\r\n$6\r\nincrby\r\n$1\r\na\r\n$1\r\n4\r\n\
    *3\r\n$3\r\nset\r\n$1\r\nb\r\n$2\r\nxy\r\n*1\r\n$4\r\nexec\r\n";

#[test]
fn works_are_carried_out_again() {
    let (log, counts, told) = read(PAYLOAD);
    assert_eq!((told, counts.commands, counts.keys), (Ok(()), 2, 2));
    has(log, b"5", b"xy");
}

/// What is no payload: a fault, no command, EXEC without MULTI, a cut one, and a queue that is open.
const REFUSED: &[&[u8]] = &[
    b"*1\r\n$4\r\nping\r\n*1\r\nping\r\n",
    b"*1\r\n$3\r\nbad\r\n",
    b"*1\r\n$4\r\nexec\r\n",
    b"*1\r\n$4\r\npi",
    b"*1\r\n$5\r\nmulti\r\n",
];

#[test]
fn other_payloads_are_refused() {
    for payload in REFUSED {
        let (_, counts, told) = read(payload);
        assert_eq!(told, Err(Refusal::Damaged), "{payload:?}");
        assert_eq!((counts.frames, counts.place, counts.damaged), (0, 0, 1), "{payload:?}");
    }
}

/// The pieces of a snapshot, each in so much room.
fn pieces(log: &mut Recovery, room: usize) -> Vec<Vec<u8>> {
    let mut into = vec![0; room];
    let next = || log.snapshot(&mut into).expect("a piece").map(|count| into[..count].to_vec());
    std::iter::from_fn(next).collect()
}

/// A log that begins with a snapshot of these pieces, of which the next frame has this number.
fn restored(pieces: &[Vec<u8>], next: u64) -> Recovery {
    let mut log = Recovery::new(next).expect("a log is begun");
    pieces.iter().for_each(|it| log.feed(0, it).expect("a snapshot comes"));
    let (counts, told) = log.end(0, 0);
    assert_eq!((told, counts.frames, counts.keys, counts.next), (Ok(()), 0, 2, next));
    log
}

/// In the shortest room for the longest entry there are two pieces, in a longer one there is one.
#[test]
fn snapshots_have_it_all() {
    let long = [b'5'; 60];
    let set = |key: &[u8]| [b"*3\r\n$3\r\nset\r\n$1\r\n", key, b"\r\n$60\r\n", &long, b"\r\n"].concat();
    let payload = [set(b"a"), set(b"b")].concat();
    for (room, count) in [(88 + 1 + long.len(), 2), (HEAD + payload.len(), 1), (1000, 1)] {
        let (mut log, counts, _) = read(&payload);
        let pieces = pieces(&mut log, room);
        assert_eq!(pieces.len(), count, "{room}");
        has(restored(&pieces, counts.next), &long, &long);
    }
}

#[test]
fn no_piece_goes_into_a_room_that_is_too_short() {
    let (mut log, ..) = read(b"*3\r\n$3\r\nset\r\n$1\r\na\r\n$1\r\n1\r\n");
    assert_eq!(log.snapshot(&mut [0; 88 + 1]), Err(Refusal::Short));
    assert!(matches!(log.snapshot(&mut [0; 88 + 2]), Ok(Some(_))));
    assert_eq!(log.snapshot(&mut [0; 88 + 2]), Ok(None));
}
