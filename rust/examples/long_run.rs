//! As many events as it is told, ten million where it is told nothing, in bounded memory, by a desk and then by a kernel of
//! scripts: the C example again.
//!
//!     cargo run --release --example long_run -- play 100000000
use hidewillow::desk::{Answer, Content, Desk, Reply, Request};
use hidewillow::{Epoch, Lease, Play};

type Wrong = Box<dyn std::error::Error>;

const START: &str = "script computes\ntop:\nadd r1 r2\njump top\nend\n\
    script reads\ntop:\nfetch /x\nsay\njump top\nend\n\
    copy /x 3 \"old\"\nprocess 1 computes 1\nprocess 2 reads 2\nlimit 101000\n";

/// The steps of a round, of which so many are those of a lease, and the rounds of an epoch.
const STEPS: u32 = 995;
const LEASED: u32 = 500;
const ROUNDS: u64 = 100;

/// More than this, in kilobytes, is not to be taken.
const MEMORY_LIMIT: u64 = 32 * 1024;

/// What was done so far.
#[derive(Default)]
struct Counted {
    events: u64,
    rounds: u64,
    texts: u64,
}

/// The request that waits is answered, and its reply is given.
fn answer(desk: &mut Desk, is_good: bool) -> Result<(), Wrong> {
    let bytes = desk.request()?.ok_or("nothing is asked")?;
    let request = Request::of(&bytes).ok_or("no request")?;
    let answer = if is_good {
        Answer::Yes
    } else {
        let version = request.number + 3;
        let bytes = b"new".to_vec();
        Answer::No(Content { version, bytes })
    };
    let number = request.number;
    desk.reply(&Reply { number, answer }.bytes())?;
    Ok(())
}

/// A guess and what is said under it, steps of another process, and the decision. How many events that were.
fn desk_round(desk: &mut Desk, is_good: bool) -> Result<u64, Wrong> {
    desk.turn("2")?;
    desk.turn("2")?;
    assert_eq!(desk.lease("1", LEASED)?, Lease::Ran(LEASED.into()));
    for _ in LEASED..STEPS {
        desk.turn("1")?;
    }
    answer(desk, is_good)?;
    let again = if is_good { 0 } else { 2 };
    for _ in 0..again {
        desk.turn("2")?;
    }
    desk.turn("2")?;
    Ok(u64::from(STEPS) + 4 + again)
}

/// How many texts the process said in the epoch that ended.
fn texts_left(desk: &mut Desk) -> Result<u64, Wrong> {
    let mut count = 0;
    while desk.left(2, count)?.is_some() {
        count += 1;
    }
    Ok(count as u64)
}

fn run_desk(wanted: u64) -> Result<Counted, Wrong> {
    let mut desk = Desk::open(&[START, "world\n"].concat())?;
    let mut done = Counted::default();
    while done.events < wanted {
        for _ in 0..ROUNDS {
            done.rounds += 1;
            done.events += desk_round(&mut desk, done.rounds % 100 != 0)?;
        }
        desk.new_epoch()?;
        done.texts += texts_left(&mut desk)?;
    }
    assert_eq!(done.texts, done.rounds);
    Ok(done)
}

/// The same round.
fn play_round(kernel: &mut Play, is_good: bool) -> Result<u64, Wrong> {
    let guess = kernel.line("guess 2 good")?.ok_or("no answer")?.number;
    kernel.line("step 2 none")?;
    assert_eq!(kernel.lease("1", LEASED)?, Lease::Ran(LEASED.into()));
    for _ in LEASED..STEPS {
        kernel.line("step 1 none")?;
    }
    let decision = if is_good { "commit" } else { "fail" };
    kernel.line(&format!("{decision} {guess}"))?;
    if is_good {
        kernel.line("step 2 none")?;
    }
    Ok(u64::from(STEPS) + 3 + u64::from(is_good))
}

fn run_play(wanted: u64) -> Result<Counted, Wrong> {
    let mut kernel = Play::open(START)?;
    let mut done = Counted::default();
    while done.events < wanted {
        let mut events = 0;
        for _ in 0..ROUNDS {
            done.rounds += 1;
            events += play_round(&mut kernel, done.rounds % 100 != 0)?;
        }
        done.texts += kernel.drain(2)?.len() as u64;
        done.events += events;
        assert_eq!(kernel.new_epoch()?, Epoch::Begun(events));
    }
    assert_eq!(done.texts, done.rounds - done.rounds / 100);
    Ok(done)
}

/// The most memory that was taken so far, in kilobytes.
fn memory() -> Result<u64, Wrong> {
    let status = std::fs::read_to_string("/proc/self/status")?;
    let line = status.lines().find_map(|it| it.strip_prefix("VmHWM:"));
    let word = line.and_then(|it| it.split_whitespace().next());
    Ok(word.ok_or("no such line")?.parse()?)
}

fn main() -> Result<(), Wrong> {
    let words: Vec<String> = std::env::args().skip(1).collect();
    let wanted = words.get(1).map_or(Ok(10_000_000), |it| it.parse())?;
    let runs: [(_, fn(u64) -> _); 2] = [("desk", run_desk), ("play", run_play)];
    for (name, run) in runs {
        if words.first().is_none_or(|it| it == name) {
            let done: Counted = run(wanted)?;
            let (events, rounds, texts) = (done.events, done.rounds, done.texts);
            println!("{name}: events {events} rounds {rounds} texts {texts}");
        }
    }
    let is_bounded = memory()? < MEMORY_LIMIT;
    println!("{}", if is_bounded { "the memory stayed in its bound" } else { "more memory than there is to be" });
    Ok(())
}
