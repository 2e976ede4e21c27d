//! Random runs of kernels over byte strings, each call and what it told printed: `c/random_runs.c` prints the same of the same runs.
//!
//!     cargo run --release --example random_runs -- 300
use hidewillow::speculator::{Decided, Failure, Guess, Refusal, Speculator, Step};

const LIMIT: u16 = 5;
const CHANNELS: u16 = 3;
const EVENTS: usize = 40;
const KEYS: [usize; 9] = [0, 1, 1, 1, 1, 64, 65, 700, 700];
const VALUES: [usize; 6] = [0, 1, 8, 4096, 4097, 9000];

type Bytes = Vec<u8>;
type Wrong = Box<dyn std::error::Error + Send + Sync>;

/// Numbers that look random (splitmix64).
struct Dice(u64);

impl Dice {
    fn roll(&mut self, below: usize) -> usize {
        self.0 = self.0.wrapping_add(0x9E37_79B9_7F4A_7C15);
        let mut x = self.0;
        x = (x ^ (x >> 30)).wrapping_mul(0xBF58_476D_1CE4_E5B9);
        x = (x ^ (x >> 27)).wrapping_mul(0x94D0_49BB_1331_11EB);
        ((x ^ (x >> 31)) % below as u64) as usize
    }
}

/// A key is so many bytes of its letter.
fn key(place: usize) -> Bytes {
    vec![b'a' + place as u8; KEYS[place]]
}

/// The parts of a step, in the order in which they are handed in.
#[derive(Default)]
struct Parts {
    looked: Vec<Bytes>,
    written: Vec<(Bytes, Bytes)>,
    removed: Vec<Bytes>,
    said: Option<(u16, String)>,
}

impl Parts {
    fn roll(dice: &mut Dice, event: usize) -> Parts {
        let mut parts = Parts::default();
        for _ in 0..dice.roll(4) {
            let key = key(dice.roll(KEYS.len()));
            match dice.roll(4) {
                0 => parts.looked.push(key),
                1 => parts.removed.push(key),
                _ => {
                    let bytes = VALUES[dice.roll(VALUES.len())];
                    let value = vec![b'a' + dice.roll(26) as u8; bytes];
                    parts.written.push((key, value));
                }
            }
        }
        if dice.roll(3) == 0 {
            let channel = dice.roll(CHANNELS.into()) as u16;
            parts.said = Some((channel, format!("at {event}")));
        }
        parts
    }

    fn hand_in(&self, s: &mut Step<'_>) -> Result<(), Refusal> {
        for key in &self.looked {
            s.get(key)?;
        }
        for (key, value) in &self.written {
            s.put(key, value);
        }
        for key in &self.removed {
            s.remove(key);
        }
        match &self.said {
            Some((channel, output)) => s.say(*channel, output.as_str()),
            None => Ok(()),
        }
    }
}

fn decide(dice: &mut Dice, kernel: &mut Speculator, guess: Guess) -> Result<(), Wrong> {
    let decided = match dice.roll(2) {
        0 => kernel.commit(guess)?,
        _ => kernel.fail(guess)?,
    };
    match decided {
        Decided::Committed { .. } => println!("committed"),
        Decided::Gone => println!("gone"),
        Decided::Failed(Failure { keys, struck, .. }) => {
            let places = (0..KEYS.len()).filter(|place| keys.contains(&key(*place)));
            let told = places.fold(String::new(), |all, place| format!("{all} {place}"));
            println!("failed{told}, {} struck", struck.len());
        }
    }
    Ok(())
}

/// Prints what all keys have and depend on, what goes out, and the counts.
fn look_at_all(kernel: &mut Speculator) -> Result<(), Refusal> {
    for place in 0..KEYS.len() {
        match kernel.value(key(place))?.as_deref() {
            None => print!(" absent"),
            Some(value) => {
                let ends = value.first().zip(value.last());
                let told = ends.map(|(first, last)| format!("{}{}", *first as char, *last as char));
                print!(" value:{}{}", value.len(), told.unwrap_or_default());
            }
        }
        for tag in kernel.tags(key(place)) {
            print!("/{tag}");
        }
    }
    for channel in 0..CHANNELS {
        while let Some(output) = kernel.released(channel)? {
            print!(" out{channel}:{}", String::from_utf8_lossy(&output));
        }
    }
    let it = kernel.counts();
    println!(" keys {} undecided {} struck {} settled {}", it.keys, it.undecided, it.struck, it.settled);
    Ok(())
}

fn run(seed: u64) -> Result<(), Wrong> {
    println!("run {seed}");
    let (mut dice, mut kernel, mut guesses) = (Dice(seed), Speculator::open(LIMIT, seed)?, Vec::new());
    for event in 0..EVENTS {
        match dice.roll(10) {
            kind @ 0..=5 => {
                let parts = Parts::roll(&mut dice, event);
                if kind < 3 {
                    kernel.step(|s| parts.hand_in(s))?;
                    println!("stepped");
                    continue;
                }
                match kernel.guess(|s| parts.hand_in(s)) {
                    Ok(((), guess)) => {
                        println!("guess {}", guess.id());
                        guesses.push(guess);
                    }
                    Err(Refusal::TooMany) => println!("refused 3"),
                    Err(refusal) => return Err(refusal.into()),
                }
            }
            6..=8 if !guesses.is_empty() => {
                let guess = guesses.remove(dice.roll(guesses.len()));
                decide(&mut dice, &mut kernel, guess)?;
            }
            _ => look_at_all(&mut kernel)?,
        }
    }
    Ok(look_at_all(&mut kernel)?)
}

fn main() -> Result<(), Wrong> {
    let runs = std::env::args().nth(1).map_or(Ok(300), |it| it.parse())?;
    (1..=runs).try_for_each(run)
}
