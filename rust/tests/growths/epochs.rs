//! A desk that goes through as many epochs as the environment says: `EPOCHS` of `ROUNDS` rounds, behind which there are `FILES`
//! files. A round is a guess, 997 steps of another process, the guess's decision, each second one a failure, and the steps that
//! bring its process back. `bench/epochs.py` measures its memory and the time of an epoch.
use crate::desks::{no, replies, turns};
use hidewillow::desk::{Answer, Desk};

/// Process 1 computes, process 2 reads a file of which it has a copy, and process 3 makes files.
const START: &str = "script computes\ntop:\nadd r1 r2\njump top\nend\n\
script fetches\ntop:\nfetch /x\njump top\nend\n\
script makes\ntop:\nmkfile r1\njump top\nend\n\
copy /x 3 \"old\"\nprocess 1 computes 1\nprocess 2 fetches 2\nprocess 3 makes 3\nlimit 101000\nworld\n";

/// How many steps process 1 takes for each guess.
const STEPS: u32 = 997;

/// How many files are made in an epoch at most.
const FILES: u32 = 50_000;

/// The number that the environment says, or another where it says none.
fn number(name: &str, other: u32) -> u32 {
    std::env::var(name).ok().and_then(|it| it.parse().ok()).unwrap_or(other)
}

/// A guess, steps of another process, and its decision; then so many steps bring its process back to its fetch.
fn round(desk: &mut Desk, answer: &Answer, back: u32) {
    turns(desk, "2", 1);
    turns(desk, "1", STEPS);
    replies(desk, answer, 1);
    turns(desk, "2", back);
}

/// Makes so many files.
fn fill(desk: &mut Desk, files: u32) {
    for made in 0..files {
        if made % FILES == FILES - 1 {
            desk.new_epoch().expect("an epoch begins");
        }
        turns(desk, "3", 2);
    }
    desk.new_epoch().expect("an epoch begins");
}

/// One epoch of rounds, in which every second guess is wrong: it has the steps of its rounds.
fn epoch(desk: &mut Desk, rounds: u32) {
    for number in 0..rounds {
        match number % 2 {
            0 => round(desk, &Answer::Yes, 1),
            _ => round(desk, &no(), 2),
        }
    }
    let counts = desk.counts().expect("counts");
    let (all, wrong) = (rounds as usize, rounds as usize / 2);
    let steps = 999 * all + wrong;
    assert_eq!((counts.guesses, counts.failed, counts.steps, counts.taken_back), (all, wrong, steps, wrong));
    desk.new_epoch().expect("an epoch begins");
    assert_eq!(desk.counts().expect("counts").steps, 0);
}

#[test]
fn epochs_of_rounds() {
    let mut desk = Desk::open(START).expect("a desk");
    fill(&mut desk, number("FILES", 10));
    (0..number("EPOCHS", 3)).for_each(|_| epoch(&mut desk, number("ROUNDS", 100)));
}
