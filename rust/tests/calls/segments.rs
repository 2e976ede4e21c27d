//! What is read of the segments of a log, some of which are torn, cut, or another's. Each frame appends a letter to one key.
use crate::bench::limits;
use crate::frames::frame;
use hidewillow::store::{ReadCounts, Recovery, Refusal, Store, HEAD};
use std::iter::once;

/// How long the frame of a letter is.
const FRAME: usize = HEAD + 30;

/// What stands for a payload that says no works, in place of a letter.
const NO_WORKS: u8 = b'!';

/// The bytes that may have been in flight.
const IN_FLIGHT: u64 = 100;

/// The payload that appends a letter.
fn payload_of(letter: u8) -> Vec<u8> {
    match letter {
        NO_WORKS => b"*1\r\n$3\r\nbad\r\n".to_vec(),
        _ => [b"*3\r\n$6\r\nappend\r\n$1\r\na\r\n$1\r\n", &[letter][..], b"\r\n"].concat(),
    }
}

/// Frames behind one another: the segment that they say, the number of the first, and a letter for each.
type Frames = (u64, u64, &'static [u8]);

/// A segment: its number, and what is written to it before 30 zeros.
type Row = (u64, &'static [Frames]);

/// Segments of a log, by their numbers.
type Segments = Vec<(u64, Vec<u8>)>;

fn bytes_of((segment, first, letters): &Frames) -> Vec<u8> {
    let numbers = *first..;
    numbers.zip(*letters).flat_map(|(number, letter)| frame(*segment, number, &payload_of(*letter))).collect()
}

fn segments_of(rows: &[Row]) -> Segments {
    let zeros = vec![0; 30];
    let bytes = |all: &[Frames]| all.iter().map(bytes_of).chain(once(zeros.clone())).flatten().collect();
    rows.iter().map(|(number, all)| (*number, bytes(all))).collect()
}

/// What is read of segments in pieces, the first frame of which is the first, where the frames up to one are known as synced.
fn read(segments: &Segments, piece: usize, known: u64) -> (Recovery, ReadCounts, bool) {
    let mut log = Recovery::new(1).expect("a log is begun");
    for (number, bytes) in segments {
        log.head(*number, &bytes[..bytes.len().min(HEAD)]).expect("a head comes");
    }
    for (number, bytes) in segments {
        bytes.chunks(piece).for_each(|it| log.feed(*number, it).expect("a piece comes"));
    }
    let (counts, told) = log.end(IN_FLIGHT, known);
    assert!(matches!(told, Ok(()) | Err(Refusal::Damaged)), "{told:?}");
    (log, counts, told.is_err())
}

/// The value of a key of a store that goes on behind what was read.
fn value(mut log: Recovery) -> Vec<u8> {
    let (mut store, ..) = Store::open(&mut log, &limits(1000, 1000)).expect("a store is opened");
    store.value(b"a", &mut Vec::new()).unwrap_or_default().to_vec()
}

/// Just the frames of these letters count, and so many bytes are dropped.
fn has(counts: &ReadCounts, letters: usize, dropped: u64) {
    let count = letters as u64;
    assert_eq!((counts.frames, counts.next, counts.dropped), (count, count + 1, dropped), "{counts:?}");
}

/// Just these letters are read of segments, and so many bytes dropped; none is damage.
fn finds(segments: &Segments, letters: &[u8], dropped: u64) -> ReadCounts {
    let (log, counts, is_damaged) = read(segments, 7, 0);
    has(&counts, letters.len(), dropped);
    assert!(!is_damaged, "{counts:?}");
    assert_eq!(value(log), letters);
    counts
}

/// What segments count where they are damaged.
fn damaged(segments: &Segments) -> ReadCounts {
    let (_, counts, is_damaged) = read(segments, 7, 0);
    assert!(is_damaged, "{counts:?}");
    counts
}

const BEHIND: &[Row] = &[(1, &[(1, 1, b"abc")]), (2, &[(2, 4, b"de")])];

#[test]
fn segments_go_on_one_behind_the_other() {
    let counts = finds(&segments_of(BEHIND), b"abcde", 0);
    assert_eq!((counts.segment, counts.place), (2, 2 * FRAME as u64));
}

#[test]
fn segments_are_read_in_pieces_of_any_size() {
    let segments = segments_of(BEHIND);
    for piece in 1..=segments[0].1.len() {
        let (log, counts, is_damaged) = read(&segments, piece, 0);
        has(&counts, 5, 0);
        assert!(!is_damaged);
        assert_eq!(value(log), b"abcde");
    }
}

#[test]
fn stale_frames_behind_a_cut_do_not_count() {
    finds(&segments_of(&[(1, &[(1, 1, b"abcd")]), (2, &[(2, 3, b"xy")])]), b"abxy", 0);
    let twice: &[Row] = &[(1, &[(1, 1, b"abcd")]), (2, &[(2, 4, b"xy")]), (3, &[(3, 2, b"z")])];
    finds(&segments_of(twice), b"az", 0);
}

const WHOLE: &[Row] = &[(1, &[(1, 1, b"abc")])];

/// Of a segment that is torn at a place the frames before are carried out.
#[test]
fn segment_torn_at_each_byte_has_the_frames_before() {
    for place in 0..=3 * FRAME {
        let (letters, dropped) = (&b"abc"[..place / FRAME], (place % FRAME) as u64);
        let mut zeroed = segments_of(WHOLE);
        zeroed[0].1[place..].fill(0);
        finds(&zeroed, letters, dropped);
        let mut short = segments_of(WHOLE);
        short[0].1.truncate(place);
        finds(&short, letters, dropped);
    }
}

/// A byte that is lost is told by how much stands behind it.
#[test]
fn byte_lost_at_each_place_is_told_by_what_follows() {
    for place in 0..3 * FRAME {
        let mut segments = segments_of(WHOLE);
        segments[0].1[place] = 0;
        let (left, before) = (place / FRAME, place / FRAME * FRAME);
        // The last byte is a line feed: without it one byte less is there.
        let dropped = (3 * FRAME - before - usize::from(place == 3 * FRAME - 1)) as u64;
        let (_, counts, is_damaged) = read(&segments, 50, 0);
        has(&counts, left, dropped);
        assert_eq!(is_damaged, dropped > IN_FLIGHT, "{place}");
    }
}

#[test]
fn segment_behind_a_gap_counts_for_nothing() {
    let counts = damaged(&segments_of(&[(1, &[(1, 1, b"ab")]), (2, &[(2, 4, b"de")])]));
    has(&counts, 2, 2 * FRAME as u64);
    assert_eq!((counts.segment, counts.damaged), (1, 0));
}

/// A frame of segment 2 stands in segment 3, and in segment 1 behind its own; and one with another number.
#[test]
fn frame_of_another_segment_or_number_does_not_count() {
    finds(&segments_of(&[(1, &[(1, 1, b"ab")]), (3, &[(2, 3, b"x")])]), b"ab", FRAME as u64);
    finds(&segments_of(&[(1, &[(1, 1, b"ab"), (2, 3, b"x")])]), b"ab", FRAME as u64);
    for number in [1, 2, 4] {
        let segments = vec![(1, [bytes_of(&(1, 1, b"ab")), bytes_of(&(1, number, b"x"))].concat())];
        finds(&segments, b"ab", FRAME as u64);
    }
    for (segment, number) in [(2, 1), (1, 2), (1, 0)] {
        let counts = damaged(&vec![(1, bytes_of(&(segment, number, b"abc")))]);
        has(&counts, 0, 3 * FRAME as u64);
    }
}

/// Of three frames one that is known as synced is missing just where its number is the next, or greater.
#[test]
fn frame_known_as_synced_that_is_missing_is_damage() {
    for known in 0..6 {
        assert_eq!(read(&segments_of(WHOLE), 7, known).2, known > 3, "{known}");
    }
}

#[test]
fn byte_lost_in_the_middle_is_damage() {
    let mut segments = segments_of(&[(1, &[(1, 1, b"abcde")])]);
    segments[0].1[FRAME + 30] = 0;
    let counts = damaged(&segments);
    has(&counts, 1, 4 * FRAME as u64);
    assert_eq!(counts.damaged, 0);
}

#[test]
fn frame_that_says_no_works_is_damage() {
    let counts = damaged(&segments_of(&[(1, &[(1, 1, b"ab!d")]), (2, &[(2, 5, b"e")])]));
    has(&counts, 2, 0);
    assert_eq!((counts.segment, counts.place, counts.damaged), (1, 2 * FRAME as u64, 1));
}
