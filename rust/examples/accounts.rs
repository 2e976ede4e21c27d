//! Accounts over the caller's own keys: transfers under guesses, a failure, and what is shown.
//!
//!     cargo run --release --example accounts
use hidewillow::speculator::{Decided, Failure, Refusal, Speculator, Step};
use std::fmt;

const CHANNEL: u16 = 1;

/// Why a transfer isn't made.
#[derive(Debug)]
enum Unpaid {
    Refused(Refusal),
    /// The account has too little.
    TooLittle(i64),
}

impl fmt::Display for Unpaid {
    fn fmt(&self, f: &mut fmt::Formatter<'_>) -> fmt::Result {
        match self {
            Unpaid::Refused(refusal) => refusal.fmt(f),
            Unpaid::TooLittle(has) => write!(f, "there is only {has}"),
        }
    }
}

impl std::error::Error for Unpaid {}

impl From<Refusal> for Unpaid {
    fn from(refusal: Refusal) -> Unpaid {
        Unpaid::Refused(refusal)
    }
}

type Bank = Speculator<str, i64>;

/// One transfer, as a step.
fn transfer(s: &mut Step<'_, str, i64>, from: &str, to: &str, amount: i64) -> Result<(), Unpaid> {
    let has = s.get(from)?.unwrap_or(0);
    if has < amount {
        return Err(Unpaid::TooLittle(has));
    }
    let more = s.get(to)?.unwrap_or(0) + amount;
    s.put(from, has - amount);
    s.put(to, more);
    Ok(s.say(CHANNEL, format!("{from} pays {to} {amount}"))?)
}

fn show(spec: &mut Bank, when: &str) -> Result<(), Refusal> {
    let mut shown = Vec::new();
    for name in ["ann", "bob", "cy"] {
        let has = spec.value(name)?.unwrap_or(0);
        let tags: Vec<_> = spec.tags(name).iter().map(u64::to_string).collect();
        shown.push(match tags.is_empty() {
            true => format!("{name} {has}"),
            false => format!("{name} {has} if {}", tags.join(",")),
        });
    }
    println!("{when}: {}", shown.join(", "));
    while let Some(line) = spec.released(CHANNEL)? {
        println!("  out: {}", String::from_utf8_lossy(&line));
    }
    Ok(())
}

fn main() -> Result<(), Box<dyn std::error::Error + Send + Sync>> {
    if let Err(refusal) = Bank::open(0, 42) {
        println!("not opened: {refusal}");
    }
    let mut spec = Bank::open(64, 42)?;
    spec.step(|s| {
        s.put("ann", 100);
        s.put("cy", 10);
        Ok(())
    })?;
    show(&mut spec, "paid in")?;
    let ((), wages) = spec.try_guess(|s| transfer(s, "ann", "bob", 30))?;
    let ((), rent) = spec.try_guess(|s| transfer(s, "bob", "cy", 5))?;
    show(&mut spec, "two guesses")?;
    spec.try_step(|s| transfer(s, "cy", "ann", 1))?;
    show(&mut spec, "a step behind them")?;
    if let Err(unpaid) = spec.try_step(|s| transfer(s, "bob", "ann", 1000)) {
        println!("bob can't pay 1000: {unpaid}");
    }
    if let Decided::Failed(Failure { mut keys, struck, outputs, .. }) = spec.fail(wages)? {
        keys.sort();
        println!("the first fails: back to what they had are {}; {} guess struck", keys.join(", "), struck.len());
        for (channel, count) in outputs {
            println!("  never said: {count} of channel {channel}");
        }
    }
    println!("the other is gone: {}", spec.commit(rent)? == Decided::Gone);
    show(&mut spec, "after it")?;
    let ((), dropped) = spec.try_guess(|s| transfer(s, "cy", "ann", 10))?;
    drop(dropped);
    show(&mut spec, "a guess whose token was dropped")?;
    let ((), again) = spec.try_guess(|s| transfer(s, "ann", "bob", 20))?;
    println!("committed for good: {}", spec.commit(again)? == Decided::Committed { firm: true });
    show(&mut spec, "a guess that holds")?;
    Ok(())
}
