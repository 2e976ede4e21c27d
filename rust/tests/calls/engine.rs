//! What the answers of a consensus engine tell, row by row, and rounds.
use hidewillow::engine::{
    batch, fence, lead, round, Answer, BatchSeen, FenceSeen, Held, LeadAnswer, LeadSeen, RoundRefusal, Rounds, Word,
};

/// What the seventh batch of leadership 5 is told where it was not put.
fn not_put(leader: Option<u64>, held: Held, snap: u64) -> Word {
    batch(5, 7, Answer::Seen(BatchSeen { leader, held, snap }))
}

#[test]
fn a_batch() {
    assert_eq!(batch(5, 7, Answer::Done), Word::Synced(7));
    assert_eq!(batch(5, 7, Answer::Unknown), Word::Again);
    assert_eq!(not_put(Some(6), Held::Mine, 9), Word::Synced(7));
    assert_eq!(not_put(None, Held::Absent, 6), Word::Lost(7));
    assert_eq!(not_put(Some(6), Held::Another, 6), Word::Lost(7));
    assert_eq!(not_put(Some(6), Held::Absent, 7), Word::Unknowable(7));
    assert_eq!(not_put(None, Held::Another, 8), Word::Unknowable(7));
    assert_eq!(not_put(Some(5), Held::Another, 0), Word::Breach);
    assert_eq!(not_put(Some(5), Held::Absent, 0), Word::Breach);
}

#[test]
fn a_fence() {
    let seen = |leader, fenced| fence(5, 7, Answer::Seen(FenceSeen { leader, fenced }));
    assert_eq!(fence(5, 7, Answer::Done), Word::Serves);
    assert_eq!(fence(5, 7, Answer::Unknown), Word::Again);
    assert_eq!(seen(Some(5), 5), Word::Serves);
    assert_eq!(seen(Some(6), 5), Word::Over);
    assert_eq!(seen(Some(5), 4), Word::Breach);
}

#[test]
fn a_round() {
    let seen = |leader| round(5, 3, Answer::Seen(leader));
    assert_eq!([Some(5), Some(6), None].map(seen), [Word::Still(3), Word::Over, Word::Over]);
    assert_eq!(round(5, 3, Answer::Unknown), Word::Again);
}

#[test]
fn a_claim() {
    let not_led = |held| lead(LeadAnswer::Seen(LeadSeen { leadership: 5, held }));
    assert_eq!(lead(LeadAnswer::Done(5)), Word::Claimed(5));
    assert_eq!(lead(LeadAnswer::Unknown), Word::Again);
    assert_eq!(not_led(Held::Mine), Word::Claimed(5));
    assert_eq!(not_led(Held::Another), Word::Waits);
    assert_eq!(not_led(Held::Absent), Word::Breach);
}

#[test]
fn what_is_told_waits_for_a_later_round() {
    let mut rounds = Rounds::new();
    assert_eq!(rounds.take(), Err(RoundRefusal::Nothing));
    let first = rounds.carried_out();
    assert_eq!(rounds.take(), Ok(1));
    let second = rounds.carried_out();
    assert!(!rounds.may_tell(first));
    assert_eq!(rounds.still(1), Ok(()));
    assert!(rounds.may_tell(first) && !rounds.may_tell(second));
    assert_eq!(rounds.still(2), Err(RoundRefusal::Unknown));
    assert_eq!(rounds.take(), Ok(2));
    assert_eq!(rounds.take(), Err(RoundRefusal::Nothing));
    assert_eq!([2, 1].map(|it| rounds.still(it)), [Ok(()); 2]);
    assert!(rounds.may_tell(second));
}

#[test]
fn nothing_waits_once_the_leadership_is_over() {
    let mut rounds = Rounds::new();
    let before = rounds.carried_out();
    assert_eq!(rounds.take(), Ok(1));
    rounds.lost();
    let after = rounds.carried_out();
    assert_eq!(rounds.take(), Err(RoundRefusal::Over));
    assert_eq!(rounds.still(1), Ok(()));
    assert!(rounds.may_tell(before) && !rounds.may_tell(after));
}
