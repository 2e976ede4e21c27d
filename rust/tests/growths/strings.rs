//! What grows in a kernel over byte strings, and what its keys leave behind.
use crate::{FEWER, MANY};
use hidewillow::speculator::{Decided, Guess, Refusal, Speculator, Step};

/// How many keys come and go.
const PASSING: u32 = 1_000_000;

/// The key of a number.
fn key(number: u32) -> [u8; 4] {
    number.to_le_bytes()
}

/// A kernel in which so many guesses may be open.
fn open(guesses: u16) -> Speculator {
    Speculator::open(guesses, 1).expect("a kernel")
}

/// Draws a guess.
fn drawn(kernel: &mut Speculator, step: impl FnOnce(&mut Step<'_>) -> Result<(), Refusal>) -> Guess {
    kernel.guess(step).expect("a guess is drawn").1
}

/// A guess whose step looks at many keys, writes as many and removes as many, and as many steps that depend on it, each with a key of
/// its own and an output.
fn grown(channels: u32) -> (Speculator, Guess) {
    let mut kernel = open(u16::MAX);
    let guess = drawn(&mut kernel, |step| {
        // Looks come first: a look goes through what the step wrote.
        for number in 0..MANY {
            step.get(&key(number)[..])?;
        }
        for number in 0..MANY {
            step.put(&key(number)[..], &b"had"[..]);
            step.remove(&key(MANY + number)[..]);
        }
        Ok(())
    });
    for number in 0..MANY {
        let taken = kernel.step(|step| {
            step.get(&key(0)[..])?;
            step.put(&key(2 * MANY + number)[..], &b"had"[..]);
            step.say((number % channels) as u16, &b"said"[..])
        });
        taken.expect("a step is taken");
    }
    (kernel, guess)
}

/// All of them fail at once.
#[test]
fn strings_under_one_guess() {
    let (mut kernel, guess) = grown(1);
    assert_eq!(kernel.waiting(0), u64::from(MANY));
    match kernel.fail(guess) {
        Ok(Decided::Failed(failure)) => assert_eq!(failure.keys.len(), 3 * MANY as usize),
        other => panic!("{other:?}"),
    }
    assert_eq!((kernel.waiting(0), kernel.keys().count()), (0, 0));
}

/// All of them are committed at once, and each of many channels has its outputs.
#[test]
fn strings_and_outputs_of_many_channels() {
    let (mut kernel, guess) = grown(FEWER);
    assert_eq!(kernel.commit(guess).expect("a guess"), Decided::Committed { firm: true });
    assert_eq!(kernel.keys().count(), 2 * MANY as usize);
    for channel in 0..FEWER {
        assert_eq!(kernel.released(channel as u16).expect("no want of memory").as_deref(), Some(&b"said"[..]));
    }
}

/// As many guesses are open as may be, each of which depends on the first key, and one more is one too many.
#[test]
fn strings_and_guesses_up_to_their_limit() {
    let mut kernel = open(u16::MAX);
    let looks = |step: &mut Step<'_>| step.get(&key(0)[..]).map(drop);
    let guesses: Vec<_> = (0..u16::MAX).map(|_| drawn(&mut kernel, looks)).collect();
    assert_eq!(kernel.guess(looks).err(), Some(Refusal::TooMany));
    assert_eq!((guesses.len(), kernel.counts().undecided), (65_535, 65_535));
}

/// Each key comes and goes, by itself and under a guess that is committed or fails: it leaves nothing behind.
#[test]
fn keys_come_and_go() {
    let mut kernel = open(1);
    for number in 0..PASSING {
        let key = key(number);
        let puts = |step: &mut Step<'_>| {
            step.put(&key[..], &b"had"[..]);
            Ok(())
        };
        kernel.step(puts).expect("a step is taken");
        assert_eq!(kernel.counts().keys, 1);
        let removes = |step: &mut Step<'_>| {
            step.remove(&key[..]);
            Ok(())
        };
        kernel.step(removes).expect("a step is taken");
        assert_eq!(kernel.counts().keys, 0);
        let guess = drawn(&mut kernel, puts);
        kernel.step(removes).expect("a step is taken");
        match number % 2 {
            0 => drop(kernel.fail(guess)),
            _ => drop(kernel.commit(guess)),
        }
    }
}

/// A key that is too long is refused, and nothing of its step is done.
#[test]
fn long_key() {
    let mut kernel = open(1);
    let mut takes = |len| {
        kernel.step(|step| {
            step.put(&vec![7; len][..], &b"had"[..]);
            Ok(())
        })
    };
    assert_eq!([65_536, 65_537].map(&mut takes), [Ok(()), Err(Refusal::LongKey)]);
    assert_eq!(kernel.counts().keys, 1);
}
