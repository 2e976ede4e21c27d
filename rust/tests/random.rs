//! Random runs of a kernel over byte strings, each held against a plain list of the steps that stand: what every key has and
//! depends on, what goes out, and what a failure tells. `RUNS` says how many runs there are, `SEED` with which one they begin.
use hidewillow::speculator::{Decided, Failure, Guess, Refusal, Speculator, Status, Stranger};
use hidewillow::watch::{Fate, Watch};
use std::collections::{BTreeMap, BTreeSet, HashMap, VecDeque};

/// Numbers that look random (splitmix64).
struct Dice(u64);

impl Dice {
    fn roll(&mut self, below: usize) -> usize {
        self.0 = self.0.wrapping_add(0x9E37_79B9_7F4A_7C15);
        let mut x = self.0;
        x = (x ^ (x >> 30)).wrapping_mul(0xBF58_476D_1CE4_E5B9);
        x = (x ^ (x >> 27)).wrapping_mul(0x94D0_49BB_1331_11EB);
        (x ^ (x >> 31)) as usize % below
    }

    fn pick<'a, T>(&mut self, from: &'a [T]) -> &'a T {
        &from[self.roll(from.len())]
    }
}

type Bytes = Vec<u8>;

/// A step as the plain list has it.
#[derive(Clone)]
struct Taken {
    own: Option<u64>,
    written: Vec<(Bytes, Option<Bytes>)>,
    said: Option<(u16, Bytes)>,
    /// The undecided guesses that it depends on.
    rests: BTreeSet<u64>,
    is_committed: bool,
}

/// What a failure takes out.
#[derive(Default)]
struct Fallen {
    keys: BTreeSet<Bytes>,
    struck: BTreeSet<u64>,
    committed: BTreeSet<u64>,
    outputs: BTreeMap<u16, usize>,
}

/// The plain list: the steps that stand, in order.
#[derive(Default)]
struct Plain {
    steps: Vec<Taken>,
    /// How many outputs of each channel are out.
    out: HashMap<u16, usize>,
}

impl Plain {
    fn value(&self, key: &[u8]) -> Option<Bytes> {
        let last = self.steps.iter().rev().find_map(|it| it.written.iter().rev().find(|(k, _)| k == key));
        last.and_then(|(_, value)| value.clone())
    }

    /// What a key depends on: what its last writer does.
    fn rests(&self, key: &[u8]) -> BTreeSet<u64> {
        let last = self.steps.iter().rev().find(|it| it.written.iter().any(|(k, _)| k == key));
        last.map(|it| it.rests.clone()).unwrap_or_default()
    }

    fn take(&mut self, looked: &[Bytes], mut step: Taken) {
        for key in looked.iter().chain(step.written.iter().map(|(key, _)| key)) {
            step.rests.extend(self.rests(key));
        }
        step.rests.extend(step.own);
        self.steps.push(step);
    }

    /// The committed guesses that stand for good since.
    fn commit(&mut self, guess: u64) -> Vec<u64> {
        let mut firm = Vec::new();
        for step in &mut self.steps {
            step.is_committed |= step.own == Some(guess);
            if step.rests.remove(&guess) && step.is_committed && step.rests.is_empty() {
                firm.extend(step.own);
            }
        }
        firm
    }

    /// Takes out what depends on a guess.
    fn fail(&mut self, guess: u64) -> Fallen {
        let (gone, stay): (Vec<_>, Vec<_>) = self.steps.drain(..).partition(|it| it.rests.contains(&guess));
        self.steps = stay;
        let mut fallen = Fallen::default();
        for step in gone {
            fallen.keys.extend(step.written.into_iter().map(|(key, _)| key));
            if let Some((channel, _)) = step.said {
                *fallen.outputs.entry(channel).or_default() += 1;
            }
            let others = if step.is_committed { &mut fallen.committed } else { &mut fallen.struck };
            others.extend(step.own.filter(|own| *own != guess));
        }
        fallen
    }

    /// Whether an output of a channel may go out.
    fn has_output(&self, channel: u16) -> bool {
        let mut said = self.steps.iter().filter(|it| it.said.as_ref().is_some_and(|(c, _)| *c == channel));
        said.nth(self.out.get(&channel).copied().unwrap_or(0)).is_some_and(|it| it.rests.is_empty())
    }

    /// The next output of a channel that may go out.
    fn released(&mut self, channel: u16) -> Option<Bytes> {
        let out = self.out.entry(channel).or_default();
        let said = self.steps.iter().filter(|it| it.said.as_ref().is_some_and(|(c, _)| *c == channel));
        let next = said.clone().nth(*out)?;
        next.rests.is_empty().then(|| {
            *out += 1;
            next.said.as_ref().map(|(_, bytes)| bytes.clone()).unwrap_or_default()
        })
    }
}

/// A key of the run: some are long, one is empty.
fn key(dice: &mut Dice) -> Bytes {
    match dice.roll(10) {
        0 => Bytes::new(),
        1 => vec![b'k'; 65],
        2 => vec![b'k'; 700 + dice.roll(3)],
        n => vec![b'a' + n as u8],
    }
}

fn value(dice: &mut Dice, count: usize) -> Bytes {
    let len = *dice.pick(&[0, 1, 8, 100, 4096, 4097, 9000]);
    let mut bytes = vec![dice.roll(256) as u8; len];
    bytes.extend(count.to_le_bytes());
    bytes
}

struct Run {
    dice: Dice,
    kernel: Speculator,
    other: Speculator,
    plain: Plain,
    /// Tokens of undecided and struck guesses, and which of these are struck.
    tokens: VecDeque<Guess>,
    struck: BTreeSet<u64>,
    /// Who waits for a decision, and what it is to be where it is known.
    watches: Vec<(u64, Watch, Option<Fate>)>,
    count: usize,
}

const LIMIT: u16 = 6;
const CHANNELS: u16 = 3;

impl Run {
    fn new(seed: u64) -> Result<Run, Refusal> {
        Ok(Run {
            dice: Dice(seed),
            kernel: Speculator::open(LIMIT, seed)?,
            other: Speculator::open(LIMIT, seed)?,
            plain: Plain::default(),
            tokens: VecDeque::new(),
            struck: BTreeSet::new(),
            watches: Vec::new(),
            count: 0,
        })
    }

    /// A step, or the step of a guess: looks, writes that are read again, removals, an output.
    fn step(&mut self, as_guess: bool) {
        let Run { dice, kernel, plain, count, .. } = self;
        let (mut looked, mut taken) = (
            Vec::new(),
            Taken { own: None, written: Vec::new(), said: None, rests: BTreeSet::new(), is_committed: false },
        );
        *count += 1;
        let write = |s: &mut hidewillow::speculator::Step<'_>| {
            for _ in 0..dice.roll(4) {
                let key = key(dice);
                let had = taken.written.iter().rev().find(|(k, _)| *k == key).map(|(_, value)| value.clone());
                match dice.roll(5) {
                    0 | 1 => {
                        let seen = if dice.roll(2) == 0 {
                            s.get(&key)?
                        } else {
                            let mut into = b"not empty".to_vec();
                            s.get_into(&key, &mut into)?.then_some(into)
                        };
                        assert_eq!(
                            seen,
                            had.clone().unwrap_or_else(|| plain.value(&key)),
                            "a step reads what is there, and its own writes"
                        );
                        if had.is_none() {
                            looked.push(key);
                        }
                    }
                    2 => {
                        s.remove(&key);
                        taken.written.push((key, None));
                    }
                    _ => {
                        let value = value(dice, *count);
                        s.put(&key, &value);
                        taken.written.push((key, Some(value)));
                    }
                }
            }
            if dice.roll(3) == 0 {
                let channel = dice.roll(CHANNELS.into()) as u16;
                s.say(channel, count.to_le_bytes())?;
                assert_eq!(s.say(channel, "again"), Err(Refusal::SaidTwice));
                taken.said = Some((channel, count.to_le_bytes().to_vec()));
            }
            Ok(())
        };
        if as_guess {
            let undecided = self.tokens.iter().filter(|it| !self.struck.contains(&it.id())).count();
            match kernel.guess(write) {
                Ok(((), guess)) => {
                    assert!(undecided < LIMIT.into());
                    taken.own = Some(guess.id());
                    self.watches.push((guess.id(), kernel.watch(&guess), None));
                    self.tokens.push_back(guess);
                }
                Err(refusal) => {
                    assert_eq!(refusal, Refusal::TooMany);
                    assert_eq!(undecided, LIMIT.into());
                    return;
                }
            }
        } else {
            assert_eq!(kernel.step(write), Ok(()));
        }
        plain.take(&looked, taken);
    }

    /// Decides a guess, whose token may go to a kernel that is not its own first, or is dropped.
    fn decide(&mut self) -> Option<()> {
        let place = self.dice.roll(self.tokens.len().max(1));
        let mut guess = self.tokens.remove(place)?;
        let id = guess.id();
        if self.dice.roll(4) == 0 {
            let Err(Stranger(back)) = self.other.commit(guess) else { panic!("a stranger's token was taken") };
            let Err(Stranger(back)) = self.other.fail(back) else { panic!("a stranger's token was taken") };
            guess = back;
        }
        let is_gone = self.struck.remove(&id);
        match self.dice.roll(5) {
            0 | 1 => {
                let decided = self.kernel.commit(guess).expect("its own");
                let firm = if is_gone { Vec::new() } else { self.plain.commit(id) };
                let wanted = Decided::Committed { firm: firm.contains(&id) };
                assert_eq!(decided, if is_gone { Decided::Gone } else { wanted });
                for it in firm {
                    self.comes_to(it, Fate::Committed);
                }
            }
            2 => {
                drop(guess);
                self.fails(id, is_gone);
            }
            _ => {
                let decided = self.kernel.fail(guess).expect("its own");
                let fallen = self.fails(id, is_gone);
                match (decided, fallen) {
                    (Decided::Failed(Failure { keys, struck, committed, outputs }), Some(wanted)) => {
                        assert_eq!(keys.len(), wanted.keys.len(), "each key once");
                        assert_eq!(keys.into_iter().collect::<BTreeSet<_>>(), wanted.keys);
                        assert_eq!(struck, wanted.struck.into_iter().collect::<Vec<_>>(), "these went with it");
                        assert_eq!(committed, wanted.committed.into_iter().collect::<Vec<_>>(), "and these");
                        assert_eq!(outputs, wanted.outputs);
                    }
                    (decided, None) => assert_eq!(decided, Decided::Gone),
                    (decided, _) => panic!("{decided:?} of a guess that stood"),
                }
            }
        }
        Some(())
    }

    fn fails(&mut self, id: u64, is_gone: bool) -> Option<Fallen> {
        if is_gone {
            return None;
        }
        let fallen = self.plain.fail(id);
        self.comes_to(id, Fate::Failed);
        for other in fallen.struck.iter().chain(&fallen.committed) {
            self.comes_to(*other, Fate::Struck);
        }
        self.struck.extend(&fallen.struck);
        Some(fallen)
    }

    /// So it is with a guess from now on.
    fn comes_to(&mut self, id: u64, fate: Fate) {
        let known = self.watches.iter_mut().filter(|(it, ..)| *it == id);
        known.for_each(|(_, _, known)| *known = Some(fate));
    }

    /// What keys, guesses and channels are listed is as in the plain list.
    fn compare_lists(&self) {
        let Run { kernel, plain, .. } = self;
        let written = plain.steps.iter().flat_map(|it| it.written.iter());
        let written: BTreeSet<Bytes> = written.map(|(key, _)| key.clone()).collect();
        let entries: Vec<_> = kernel.iter().map(|it| it.expect("bytes are of any form")).collect();
        let wanted = written.iter().filter_map(|key| Some((key.clone(), plain.value(key)?)));
        assert_eq!(kernel.keys().count(), entries.len());
        assert_eq!(entries.len(), wanted.clone().count(), "each key once");
        assert_eq!(entries.into_iter().collect::<BTreeMap<_, _>>(), wanted.collect());
        for token in &self.tokens {
            let is_struck = self.struck.contains(&token.id());
            let status = if is_struck { Status::Struck } else { Status::Undecided };
            assert_eq!(kernel.status(token), Some(status));
            let keys = kernel.dependents(token).expect("memory");
            let wanted = written.iter().filter(|key| plain.rests(key).contains(&token.id()));
            assert_eq!(keys.len(), wanted.clone().count(), "each key once");
            assert_eq!(keys.iter().collect::<BTreeSet<_>>(), wanted.collect());
            assert_eq!(self.other.status(token), None);
            assert_eq!(self.other.dependents(token), Ok(Vec::new()));
        }
        assert_eq!(kernel.struck(), self.struck.iter().copied().collect::<Vec<_>>());
        for (id, watch, fate) in &self.watches {
            assert_eq!(watch.fate(), *fate, "what guess {id} came to");
        }
    }

    /// Everything that is seen is as in the plain list.
    fn compare(&mut self) {
        let written = self.plain.steps.iter().flat_map(|it| it.written.iter().map(|(key, _)| key.clone()));
        let mut keys: BTreeSet<Bytes> = written.collect();
        keys.extend([vec![b'd'], Bytes::new(), vec![b'k'; 700]]);
        let seen: BTreeMap<_, _> = keys.iter().map(|it| (it, (self.kernel.value(it), self.kernel.tags(it)))).collect();
        for (key, (value, tags)) in seen {
            assert_eq!(value, Ok(self.plain.value(key)), "the value of {key:?}");
            assert_eq!(tags.into_iter().collect::<BTreeSet<_>>(), self.plain.rests(key), "what {key:?} rests on");
        }
        self.compare_lists();
        for channel in 0..CHANNELS {
            let said = self.plain.steps.iter().filter(|it| it.said.as_ref().is_some_and(|(c, _)| *c == channel));
            let behind = said.skip(self.plain.out.get(&channel).copied().unwrap_or(0));
            let waits = behind.skip_while(|it| it.rests.is_empty()).count();
            assert_eq!(self.kernel.waiting(channel), waits as u64);
            while let Some(wanted) = self.plain.released(channel) {
                let named = self.kernel.next_channel().expect("one may go out");
                assert!(named == channel || self.plain.has_output(named));
                assert_eq!(self.kernel.released(channel), Ok(Some(wanted)));
            }
            assert_eq!(self.kernel.released(channel), Ok(None));
            assert_ne!(self.kernel.next_channel(), Some(channel), "nothing of it may go out");
        }
        assert_eq!(self.kernel.next_channel(), None);
        let undecided = self.tokens.iter().filter(|it| !self.struck.contains(&it.id())).count();
        let counts = self.kernel.counts();
        assert_eq!((counts.undecided, counts.struck), (undecided, self.struck.len()));
        let present = keys.iter().filter(|it| self.plain.value(it).is_some()).count();
        assert!(counts.keys >= present, "{} of at least {present} keys are counted", counts.keys);
    }
}

/// Tells which run it was in which something was found.
struct Named(u64);

impl Drop for Named {
    fn drop(&mut self) {
        if std::thread::panicking() {
            eprintln!("this is found by SEED={} RUNS=1", self.0);
        }
    }
}

fn number(name: &str, default: u64) -> u64 {
    std::env::var(name).ok().and_then(|it| it.parse().ok()).unwrap_or(default)
}

#[test]
fn runs_stand_as_the_plain_list_does() {
    let first = number("SEED", 1);
    for seed in first..first + number("RUNS", 1500) {
        let _named = Named(seed);
        let mut run = Run::new(seed).expect("a kernel");
        for _ in 0..40 {
            match run.dice.roll(10) {
                0..=3 => run.step(false),
                4..=6 => run.step(true),
                _ => _ = run.decide(),
            }
            // Sometimes another call comes before anything is asked.
            if run.dice.roll(4) > 0 {
                run.compare();
            }
        }
    }
}

/// A shop whose orders each depend on those before: who is told that his order stands for good gets its letter too, and nobody else.
#[test]
fn nobody_is_told_committed_for_what_is_taken_back() -> Result<(), Box<dyn std::error::Error + Send + Sync>> {
    let (mut dice, mut shop) = (Dice(3), Speculator::<str, u64>::open(64, 1)?);
    let (mut watches, mut open, mut taken_back) = (BTreeMap::new(), Vec::new(), 0);
    for order in 0..200_u64 {
        let ((), paid) = shop.guess(|s| {
            let before = s.get("orders")?.unwrap_or_default();
            s.put("orders", before + 1);
            s.say(1, order.to_le_bytes())
        })?;
        watches.insert(paid.id(), shop.watch(&paid));
        open.push(paid);
        while open.len() > 9 || order == 199 && !open.is_empty() {
            let paid = open.remove(dice.roll(open.len()));
            let (id, is_refused) = (paid.id(), dice.roll(10) == 0);
            match if is_refused { shop.fail(paid)? } else { shop.commit(paid)? } {
                Decided::Committed { firm } => assert_eq!(watches[&id].fate(), firm.then_some(Fate::Committed)),
                Decided::Failed(back) => {
                    taken_back += back.committed.len();
                    let gone = back.committed.iter().chain(&back.struck);
                    assert!(gone.into_iter().all(|it| watches[it].fate() == Some(Fate::Struck)));
                }
                Decided::Gone => assert_eq!(watches[&id].fate(), Some(Fate::Struck)),
            }
        }
    }
    let told = watches.values().filter(|it| it.fate() == Some(Fate::Committed)).count();
    let letters = std::iter::from_fn(|| shop.released(1).transpose()).count();
    assert!(watches.values().all(|it| it.fate().is_some()) && taken_back > 0);
    assert_eq!((letters, shop.value("orders")?), (told, Some(told as u64)));
    Ok(())
}

#[test]
fn a_key_and_a_value_have_limits() -> Result<(), Refusal> {
    let mut kernel: Speculator = Speculator::open(2, 1)?;
    let (longest, too_long) = (vec![b'k'; 65_536], vec![b'k'; 65_537]);
    kernel.step(|s| {
        s.put(&longest, "there");
        Ok(())
    })?;
    assert_eq!(kernel.value(&longest)?, Some(b"there".to_vec()));
    assert_eq!(
        kernel.step(|s| {
            s.put(&too_long, "");
            Ok(())
        }),
        Err(Refusal::LongKey)
    );
    assert_eq!(
        kernel.step(|s| {
            s.put("k", vec![0; 16_777_217]);
            Ok(())
        }),
        Err(Refusal::LongValue)
    );
    assert_eq!(kernel.value("k")?, None);
    let ((), guess) = kernel.guess(|s| {
        s.remove(&longest);
        Ok(())
    })?;
    let Ok(Decided::Failed(Failure { keys, .. })) = kernel.fail(guess) else { panic!("it failed") };
    assert_eq!(keys, [longest]);
    Ok(())
}

#[test]
fn typed_keys_and_values() -> Result<(), Refusal> {
    let mut kernel: Speculator<u64, str> = Speculator::open(2, 1)?;
    kernel.step(|s| {
        s.put(7, "seven");
        Ok(())
    })?;
    assert_eq!(kernel.value(7)?.as_deref(), Some("seven"));
    let ((), guess) = kernel.guess(|s| {
        s.put(7, String::from("other"));
        Ok(())
    })?;
    let Ok(Decided::Failed(Failure { keys, .. })) = kernel.fail(guess) else { panic!("it failed") };
    assert_eq!(keys, [7]);
    let mut other: Speculator<str, u32> = Speculator::open(2, 1)?;
    other.step(|s| {
        s.put("n", 5);
        Ok(())
    })?;
    assert_eq!(other.step(|s| s.get("n")), Ok(Some(5)));
    Ok(())
}

#[test]
fn no_guess_may_be_drawn_where_none_may_be_open() {
    assert_eq!(Speculator::<[u8], [u8]>::open(0, 1).err(), Some(Refusal::NoGuesses));
}
