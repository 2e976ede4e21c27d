//! What the answers of a consensus engine tell a host whose log lies in one: batches under numbers, put by leaderships. Nothing is
//! held, and each answer is told by its numbers alone. Beside them are rounds, by which such a host knows that it still leads.
use crate::Told;
use std::fmt;

// SAFETY: each takes numbers alone, or rounds, which are as here or as it left them; it looks at nothing else, and returns.
unsafe extern "C" {
    safe fn hidewillow_engine_batch(
        leadership: u64,
        number: u64,
        answer: u32,
        leader: u64,
        held: u32,
        snap: u64,
    ) -> Told;
    safe fn hidewillow_engine_fence(leadership: u64, gap: u64, answer: u32, leader: u64, fenced: u64) -> Told;
    safe fn hidewillow_engine_round(leadership: u64, number: u64, answer: u32, leader: u64) -> Told;
    safe fn hidewillow_engine_lead(answer: u32, leadership: u64, held: u32) -> Told;
    safe fn hidewillow_rounds_carried_out(rounds: &mut Rounds) -> u64;
    safe fn hidewillow_rounds_take(rounds: &mut Rounds) -> Told;
    safe fn hidewillow_rounds_still(rounds: &mut Rounds, round: u64) -> Told;
    safe fn hidewillow_rounds_lost(rounds: &mut Rounds);
    safe fn hidewillow_rounds_may_tell(rounds: &Rounds, mark: u64) -> bool;
}

/// What is known of a try.
#[derive(Debug, Clone, Copy, PartialEq, Eq)]
pub enum Answer<S> {
    /// It was carried out.
    Done,
    /// It was not, or it only looked, and this was seen at that moment.
    Seen(S),
    /// Nothing: a time out, a lost connection, any error.
    Unknown,
}

/// What stands under the number of a batch.
#[derive(Debug, Clone, Copy, PartialEq, Eq)]
pub enum Held {
    /// Nothing.
    Absent,
    /// Just the bytes of the batch.
    Mine,
    /// Other bytes.
    Another,
}

/// What was seen where a batch was not put.
#[derive(Debug, Clone, Copy, PartialEq, Eq)]
pub struct BatchSeen {
    /// The leadership of the leader, if there was one; none is 0.
    pub leader: Option<u64>,
    /// What stands under its number.
    pub held: Held,
    /// Up to which number the log was cut.
    pub snap: u64,
}

/// What was seen where a fence was not carried out.
#[derive(Debug, Clone, Copy, PartialEq, Eq)]
pub struct FenceSeen {
    /// The leadership of the leader, if there was one.
    pub leader: Option<u64>,
    /// The leadership that fenced last.
    pub fenced: u64,
}

/// What a host is told.
#[derive(Debug, Clone, Copy, PartialEq, Eq)]
pub enum Word {
    /// The batch of this number stands in the log, and each later leadership reads it.
    Synced(u64),
    /// The batch of this number never will.
    Lost(u64),
    /// Nobody can know whether the batch of this number stood in the log: its clients get no answer.
    Unknowable(u64),
    /// The leadership held at some moment after the round of this number was begun.
    Still(u64),
    /// Nothing stands behind the gap: batches go there.
    Serves,
    /// The leadership is over: no new batch, and those under way wait for words of their own.
    Over,
    /// Nothing is known: the same is to be asked again.
    Again,
    /// The leadership of this number is the host's.
    Claimed(u64),
    /// Another leads.
    Waits,
    /// The engine contradicts itself, so something else writes there: stop, and answer nothing more.
    Breach,
}

impl Word {
    fn of(told: Told) -> Word {
        match told.answer {
            0 => Word::Synced(told.number),
            1 => Word::Lost(told.number),
            2 => Word::Unknowable(told.number),
            3 => Word::Still(told.number),
            4 => Word::Serves,
            5 => Word::Over,
            6 => Word::Again,
            7 => Word::Claimed(told.number),
            8 => Word::Waits,
            _ => Word::Breach,
        }
    }
}

impl<S> Answer<S> {
    /// Its number, and what was seen of the leader and else.
    fn parts(self, of: impl FnOnce(S) -> (Option<u64>, u32, u64)) -> (u32, u64, u32, u64) {
        match self {
            Answer::Done => (0, 0, 0, 0),
            Answer::Seen(seen) => {
                let (leader, held, number) = of(seen);
                (1, leader.unwrap_or(0), held, number)
            }
            Answer::Unknown => (2, 0, 0, 0),
        }
    }
}

/// What an answer to a try of a batch tells, which was to be put under its number.
#[must_use]
pub fn batch(leadership: u64, number: u64, answer: Answer<BatchSeen>) -> Word {
    let (answer, leader, held, snap) = answer.parts(|seen| (seen.leader, seen.held as u32, seen.snap));
    Word::of(hidewillow_engine_batch(leadership, number, answer, leader, held, snap))
}

/// What an answer to a try of a fence tells, by which a new leadership deletes all from the gap on.
#[must_use]
pub fn fence(leadership: u64, gap: u64, answer: Answer<FenceSeen>) -> Word {
    let (answer, leader, _, fenced) = answer.parts(|seen| (seen.leader, 0, seen.fenced));
    Word::of(hidewillow_engine_fence(leadership, gap, answer, leader, fenced))
}

/// What the answer to a round tells, which asked whether a leadership still holds: it has seen the leadership of the leader, if
/// there was one.
#[must_use]
pub fn round(leadership: u64, number: u64, answer: Answer<Option<u64>>) -> Word {
    let (answer, leader, ..) = answer.parts(|leader| (leader, 0, 0));
    Word::of(hidewillow_engine_round(leadership, number, answer, leader))
}

/// What was seen where a host did not come to lead.
#[derive(Debug, Clone, Copy, PartialEq, Eq)]
pub struct LeadSeen {
    /// The leadership of the leader that there was.
    pub leadership: u64,
    /// Whether it has just the word that was to be put.
    pub held: Held,
}

/// What is known of a try to lead.
#[derive(Debug, Clone, Copy, PartialEq, Eq)]
pub enum LeadAnswer {
    /// The word was put: this is its leadership.
    Done(u64),
    /// There was a leader, and this was seen at that moment.
    Seen(LeadSeen),
    /// Nothing.
    Unknown,
}

/// What an answer to one of a host's tries to lead tells, by a word that nobody else puts.
#[must_use]
pub fn lead(answer: LeadAnswer) -> Word {
    Word::of(match answer {
        LeadAnswer::Done(leadership) => hidewillow_engine_lead(0, leadership, 0),
        LeadAnswer::Seen(seen) => hidewillow_engine_lead(1, seen.leadership, seen.held as u32),
        LeadAnswer::Unknown => hidewillow_engine_lead(2, 0, 0),
    })
}

/// The rounds of one leadership, by rising numbers. What was carried out has a mark; it may be told once the host is known to have
/// led at some moment after a round that was taken later. A batch that is sent is as good as a round, where one was taken just before.
#[repr(C)]
#[derive(Debug, Default, PartialEq, Eq)]
pub struct Rounds {
    taken: u64,
    held: u64,
    is_waiting: bool,
    is_over: bool,
}

/// Why a call of rounds was refused. Nothing has changed then.
#[derive(Debug, Clone, Copy, PartialEq, Eq)]
pub enum RoundRefusal {
    /// The host leads no more.
    Over,
    /// Nothing waits for a round.
    Nothing,
    /// The last round was taken.
    NoNumber,
    /// This round was not taken.
    Unknown,
}

impl RoundRefusal {
    fn of(number: u64) -> RoundRefusal {
        match number {
            1 => RoundRefusal::Over,
            2 => RoundRefusal::Nothing,
            3 => RoundRefusal::NoNumber,
            _ => RoundRefusal::Unknown,
        }
    }
}

impl fmt::Display for RoundRefusal {
    fn fmt(&self, f: &mut fmt::Formatter<'_>) -> fmt::Result {
        f.write_str(match self {
            RoundRefusal::Over => "the host leads no more",
            RoundRefusal::Nothing => "nothing waits for a round",
            RoundRefusal::NoNumber => "the last round was taken",
            RoundRefusal::Unknown => "no such round was taken",
        })
    }
}

impl std::error::Error for RoundRefusal {}

impl Rounds {
    /// No round was taken, and nothing waits.
    #[must_use]
    pub fn new() -> Rounds {
        Rounds::default()
    }

    /// Something was carried out, and waits for a round that is taken later. This is its mark.
    pub fn carried_out(&mut self) -> u64 {
        hidewillow_rounds_carried_out(self)
    }

    /// The next round, where something waits for one. It is begun later, or a batch is sent then for the first time.
    ///
    /// # Errors
    /// [`RoundRefusal`]: nothing has changed.
    pub fn take(&mut self) -> Result<u64, RoundRefusal> {
        done(hidewillow_rounds_take(self))
    }

    /// The host led at some moment after this round was taken, and so after each one before it.
    ///
    /// # Errors
    /// [`RoundRefusal`]: nothing has changed.
    pub fn still(&mut self, round: u64) -> Result<(), RoundRefusal> {
        done(hidewillow_rounds_still(self, round)).map(drop)
    }

    /// The host leads no more: no round is taken, and nothing begins to wait. What is known of rounds that were taken may still be
    /// said.
    pub fn lost(&mut self) {
        hidewillow_rounds_lost(self);
    }

    /// Whether what has this mark may be told.
    #[must_use]
    pub fn may_tell(&self, mark: u64) -> bool {
        hidewillow_rounds_may_tell(self, mark)
    }
}

/// The number that a call of rounds is told, or why it was refused.
fn done(told: Told) -> Result<u64, RoundRefusal> {
    const DONE: u32 = 2;
    match told.answer {
        DONE => Ok(told.number),
        _ => Err(RoundRefusal::of(told.number)),
    }
}
