//! What the answers of a consensus engine tell a host of leadership 3, of its batch 7, its fence at gap 5 and its round 2,
//! and of tries to lead; and a host's rounds: the C example again.
//!
//!     cargo run --example engine
use hidewillow::engine::{self, Answer, BatchSeen, FenceSeen, Held, LeadAnswer, LeadSeen, RoundRefusal, Rounds};

/// The leaderships of leaders: none, the host's own, and a later one.
const LEADERS: [Option<u64>; 3] = [None, Some(3), Some(4)];

/// The number of an answer, as C has it.
fn number<S>(answer: &Answer<S>) -> u32 {
    match answer {
        Answer::Done => 0,
        Answer::Seen(_) => 1,
        Answer::Unknown => 2,
    }
}

fn batch(answer: Answer<BatchSeen>) {
    let count = number(&answer);
    let (leader, held, snap) = match answer {
        Answer::Seen(seen) => (seen.leader.unwrap_or(0), seen.held as u32, seen.snap),
        _ => (0, 0, 0),
    };
    let word = engine::batch(3, 7, answer);
    println!("batch {count}, leader {leader}, held {held}, snap {snap}: {word:?}");
}

fn fence(answer: Answer<FenceSeen>) {
    let count = number(&answer);
    let (leader, fenced) = match answer {
        Answer::Seen(seen) => (seen.leader.unwrap_or(0), seen.fenced),
        _ => (0, 0),
    };
    let word = engine::fence(3, 5, answer);
    println!("fence {count}, leader {leader}, fenced {fenced}: {word:?}");
}

fn round(answer: Answer<Option<u64>>) {
    let count = number(&answer);
    let leader = match answer {
        Answer::Seen(leader) => leader.unwrap_or(0),
        _ => 0,
    };
    let word = engine::round(3, 2, answer);
    println!("round {count}, leader {leader}: {word:?}");
}

fn lead(answer: LeadAnswer) {
    let (count, leadership, held) = match answer {
        LeadAnswer::Done(leadership) => (0, leadership, 0),
        LeadAnswer::Seen(seen) => (1, seen.leadership, seen.held as u32),
        LeadAnswer::Unknown => (2, 0, 0),
    };
    let word = engine::lead(answer);
    println!("lead {count}, leadership {leadership}, held {held}: {word:?}");
}

fn carry_out(rounds: &mut Rounds) {
    println!("carried out: mark {}", rounds.carried_out());
}

fn take(rounds: &mut Rounds) {
    tell("take", rounds.take());
}

fn still(rounds: &mut Rounds, round: u64) {
    tell(&format!("still {round}"), rounds.still(round).map(|()| 0));
}

/// Prints what a call of rounds is told, a refusal by its number, as C has it.
fn tell(call: &str, told: Result<u64, RoundRefusal>) {
    match told {
        Ok(number) => println!("{call}: done, {number}"),
        Err(why) => println!("{call}: refused, {}", why as u64 + 1),
    }
}

/// Prints of which marks it may be told what has them.
fn show(rounds: &Rounds) {
    let told = (0..3).filter(|mark| rounds.may_tell(*mark));
    let told = told.fold(String::new(), |all, mark| format!("{all} {mark}"));
    println!("may be told:{told}");
}

fn rounds_of_a_host() {
    let mut rounds = Rounds::new();
    take(&mut rounds);
    carry_out(&mut rounds);
    take(&mut rounds);
    carry_out(&mut rounds);
    show(&rounds);
    still(&mut rounds, 2);
    still(&mut rounds, 1);
    show(&rounds);
    take(&mut rounds);
    carry_out(&mut rounds);
    rounds.lost();
    take(&mut rounds);
    still(&mut rounds, 2);
    still(&mut rounds, 1);
    carry_out(&mut rounds);
    show(&rounds);
}

fn main() {
    batch(Answer::Done);
    batch(Answer::Unknown);
    for leader in LEADERS {
        for held in [Held::Absent, Held::Mine, Held::Another] {
            for snap in 6..8 {
                batch(Answer::Seen(BatchSeen { leader, held, snap }));
            }
        }
    }
    fence(Answer::Done);
    fence(Answer::Unknown);
    for leader in LEADERS {
        for fenced in 2..4 {
            fence(Answer::Seen(FenceSeen { leader, fenced }));
        }
    }
    round(Answer::Unknown);
    for leader in LEADERS {
        round(Answer::Seen(leader));
    }
    lead(LeadAnswer::Done(3));
    lead(LeadAnswer::Unknown);
    for held in [Held::Absent, Held::Mine, Held::Another] {
        lead(LeadAnswer::Seen(LeadSeen { leadership: 4, held }));
    }
    rounds_of_a_host();
}
