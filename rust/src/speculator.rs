//! A kernel over keys and values of your own.
use crate::data::{Data, Like};
use crate::standing::{Item, Standing};
use crate::watch::{Fate, Watch, Watches};
use crate::{
    hidewillow_own_channel, hidewillow_own_clear, hidewillow_own_close, hidewillow_own_commit, hidewillow_own_counts,
    hidewillow_own_dependent, hidewillow_own_fail, hidewillow_own_guess, hidewillow_own_key, hidewillow_own_look,
    hidewillow_own_open, hidewillow_own_places, hidewillow_own_put, hidewillow_own_released, hidewillow_own_remove,
    hidewillow_own_say, hidewillow_own_status, hidewillow_own_tag, hidewillow_own_take, hidewillow_own_undone,
    hidewillow_own_value, hidewillow_own_waiting, Own, OwnCounts, Told, DONE, GUESSED, MEMORY, OPENED, REFUSED, SHOWN,
    STEPPED, WRITTEN,
};
use std::cell::RefCell;
use std::collections::{BTreeMap, BTreeSet};
use std::fmt;
use std::marker::PhantomData;
use std::sync::{Arc, Mutex, MutexGuard, PoisonError};
use std::task::Waker;

/// Why a step was not taken, or nothing was read. Nothing has changed.
#[derive(Debug, Clone, Copy, PartialEq, Eq)]
#[non_exhaustive]
pub enum Refusal {
    /// A key is longer than 65,536 bytes.
    LongKey,
    /// A value or an output is longer than 16,777,216 bytes.
    LongValue,
    /// As many guesses are undecided as may be.
    TooMany,
    /// The last number of a guess is drawn.
    NoNumber,
    /// No guess may ever be undecided.
    NoGuesses,
    /// The step says a second output; it has one.
    SaidTwice,
    /// The bytes that are there are no value, or no key, of the kernel's type.
    Form,
    /// Want of memory.
    Memory,
    /// The kernel is no more behind this handle ([`Shared::end`](crate::shared::Shared::end)).
    Ended,
}

impl fmt::Display for Refusal {
    fn fmt(&self, f: &mut fmt::Formatter<'_>) -> fmt::Result {
        f.write_str(match self {
            Refusal::LongKey => "a key is longer than 65,536 bytes",
            Refusal::LongValue => "a value is longer than 16,777,216 bytes",
            Refusal::TooMany => "as many guesses are undecided as may be",
            Refusal::NoNumber => "the last number of a guess is drawn",
            Refusal::NoGuesses => "no guess may ever be undecided",
            Refusal::SaidTwice => "a step says one output",
            Refusal::Form => "the bytes are no value of this type",
            Refusal::Memory => "out of memory",
            Refusal::Ended => "the kernel was taken from its thread",
        })
    }
}

impl std::error::Error for Refusal {}

/// What a call is told where it is refused.
fn refusal(told: &Told) -> Refusal {
    match (told.answer, told.number) {
        (REFUSED, 1) => Refusal::LongKey,
        (REFUSED, 2) => Refusal::LongValue,
        (REFUSED, 3) => Refusal::TooMany,
        (REFUSED, 4) => Refusal::NoNumber,
        (REFUSED, 5) => Refusal::NoGuesses,
        _ => Refusal::Memory,
    }
}

fn done(told: Told, answer: u32) -> Result<Told, Refusal> {
    if told.answer == answer {
        Ok(told)
    } else {
        Err(refusal(&told))
    }
}

/// The numbers of guesses whose tokens were dropped.
#[derive(Debug, Default)]
struct Dropped(Mutex<Vec<u64>>);

impl Dropped {
    fn lock(&self) -> MutexGuard<'_, Vec<u64>> {
        self.0.lock().unwrap_or_else(PoisonError::into_inner)
    }
}

/// The right to decide a guess. Dropping it fails the guess at the next call: what nobody decides must not stand, as where a
/// `?` leaves a function early.
#[must_use = "a guess whose token is dropped fails"]
#[derive(Debug)]
pub struct Guess {
    id: u64,
    dropped: Arc<Dropped>,
    spent: bool,
}

impl Guess {
    /// Its number.
    #[must_use]
    pub fn id(&self) -> u64 {
        self.id
    }

    pub(crate) fn spend(mut self) -> u64 {
        self.spent = true;
        self.id
    }

    /// It once more, without the right: dropped, it fails nothing.
    pub(crate) fn twin(&self) -> Guess {
        Guess { id: self.id, dropped: Arc::clone(&self.dropped), spent: true }
    }
}

impl Drop for Guess {
    fn drop(&mut self) {
        if !self.spent {
            self.dropped.lock().push(self.id);
        }
    }
}

/// A guess of another kernel, or of one that is no more behind its handle, as it was.
#[derive(Debug)]
pub struct Stranger(pub Guess);

impl fmt::Display for Stranger {
    fn fmt(&self, f: &mut fmt::Formatter<'_>) -> fmt::Result {
        write!(f, "guess {} is not of the kernel here", self.0.id)
    }
}

impl std::error::Error for Stranger {}

/// What is known of a guess whose token is out.
#[derive(Debug, Clone, Copy, PartialEq, Eq)]
pub enum Status {
    /// Nothing has decided it yet.
    Undecided,
    /// Another guess's failure took its step away: nothing is left to decide.
    Struck,
}

/// What a decision came to.
#[derive(Debug, Clone, PartialEq, Eq)]
pub enum Decided<K = Vec<u8>> {
    /// The guess was committed.
    Committed {
        /// Whether it depends on no other guess that is undecided, and so stands for good. Else the failure of one of those takes it back,
        /// and tells so.
        firm: bool,
    },
    /// The guess failed.
    Failed(Failure<K>),
    /// Another guess's failure had struck it: nothing was left to decide.
    Gone,
}

/// What a failure took back.
#[derive(Debug, Clone, PartialEq, Eq)]
pub struct Failure<K = Vec<u8>> {
    /// The keys that have what they had before the guess, each once, in no order of their own.
    pub keys: Vec<K>,
    /// The numbers of the undecided guesses that depended on it, which are struck.
    pub struck: Vec<u64>,
    /// The numbers of the guesses that were committed, but not firm, and depended on it.
    pub committed: Vec<u64>,
    /// How many outputs of which channels will never be said.
    pub outputs: BTreeMap<u16, usize>,
}

/// The handle of the library, and a room for what it shows, which is used again.
struct Inner {
    /// It is of zeros or as the last call left it, since none but these methods pass it.
    own: Own,
    room: Vec<u8>,
    /// The guesses whose tokens are out, those of them that are struck, what depends on them, who watches which, and who waits for outputs.
    out: BTreeSet<u64>,
    struck: BTreeSet<u64>,
    standing: Standing,
    watches: Watches,
    waiting: Vec<Waker>,
}

// SAFETY: the handle is one pointer to a block of the C library's memory, which nothing else points to. The library has no
// thread of its own and nothing that belongs to a thread, and calls of one handle don't overlap: they take it exclusively.
unsafe impl Send for Inner {}

impl Inner {
    /// Fails the guesses whose tokens were dropped.
    fn settle(&mut self, dropped: &Dropped) {
        for id in std::mem::take(&mut *dropped.lock()) {
            self.fail(id);
        }
    }

    /// Commits a guess: whether it is firm; nothing where it was struck.
    fn commit(&mut self, id: u64) -> Option<bool> {
        let firm = self.known(id).bytes == 1;
        // SAFETY: as `Inner::own` says.
        let told = unsafe { hidewillow_own_commit(&raw mut self.own, id) };
        if !self.is_decided(id, &told) {
            return None;
        }
        let stand = self.standing.committed(id).into_iter().chain(firm.then_some(Item::Guess(id)));
        for item in stand {
            match item {
                Item::Guess(guess) if !self.out.contains(&guess) => self.watches.tell(guess, Fate::Committed),
                _ => (),
            }
        }
        Some(firm)
    }

    /// Fails a guess: how many keys it took back, and what else; nothing where it was struck.
    fn fail(&mut self, id: u64) -> Option<(u64, Failure<()>)> {
        // SAFETY: as `Inner::own` says.
        let told = unsafe { hidewillow_own_fail(&raw mut self.own, id) };
        if !self.is_decided(id, &told) {
            return None;
        }
        self.watches.tell(id, Fate::Failed);
        let mut did = Failure { keys: Vec::new(), struck: Vec::new(), committed: Vec::new(), outputs: BTreeMap::new() };
        for item in self.standing.failed(id) {
            match item {
                Item::Output { channel, .. } => *did.outputs.entry(channel).or_default() += 1,
                Item::Guess(other) => {
                    self.watches.tell(other, Fate::Struck);
                    let list = if self.out.contains(&other) { &mut did.struck } else { &mut did.committed };
                    list.push(other);
                }
            }
        }
        self.struck.extend(&did.struck);
        Some((told.number, did))
    }

    /// Whether a token that has come back decided its guess, which was not struck then.
    fn is_decided(&mut self, id: u64, told: &Told) -> bool {
        self.out.remove(&id);
        self.struck.remove(&id);
        self.changed();
        told.answer == DONE
    }

    /// The undecided guesses that one of these keys depends on, each once.
    fn rests<'a>(&mut self, keys: impl Iterator<Item = &'a [u8]>) -> Vec<u64> {
        let mut rests = Vec::new();
        for key in keys {
            self.add_tags(key, &mut rests);
        }
        rests.sort_unstable();
        rests.dedup();
        rests
    }

    /// Adds the undecided guesses that a key depends on, by rising number.
    fn add_tags(&mut self, key: &[u8], tags: &mut Vec<u64>) {
        for place in 0.. {
            // SAFETY: as `Inner::own` says; the key is apart from the handle.
            let told = unsafe { hidewillow_own_tag(&raw mut self.own, key.as_ptr(), key.len(), place) };
            if told.answer != SHOWN {
                return;
            }
            tags.push(told.number);
        }
    }

    /// Wakes who waits for outputs: there may be some now.
    fn changed(&mut self) {
        self.waiting.drain(..).for_each(Waker::wake);
    }

    /// What is known of a guess, and on how many undecided ones its own step depends, itself among them.
    fn known(&mut self, id: u64) -> Told {
        // SAFETY: as `Inner::own` says.
        unsafe { hidewillow_own_status(&raw mut self.own, id) }
    }

    /// The same as a status.
    fn status(&mut self, id: u64) -> Option<Status> {
        match self.known(id) {
            Told { answer: SHOWN, number: 1, .. } => Some(Status::Undecided),
            Told { answer: SHOWN, .. } => Some(Status::Struck),
            _ => None,
        }
    }

    /// The key that has a place.
    fn key(&mut self, place: usize) -> Result<Option<&[u8]>, Refusal> {
        // SAFETY: as `Inner::own` says; the room is set, and apart from the handle.
        self.shown(|own, room| unsafe { hidewillow_own_key(own, place, room.as_mut_ptr(), room.len()) })
    }

    /// One of the keys that depend on a guess.
    fn dependent(&mut self, id: u64, place: usize) -> Result<Option<&[u8]>, Refusal> {
        // SAFETY: as `Inner::own` says; the room is set, and apart from the handle.
        self.shown(|own, room| unsafe { hidewillow_own_dependent(own, id, place, room.as_mut_ptr(), room.len()) })
    }

    /// What a call shows in the room, which is made again where the room is too short.
    fn shown(&mut self, ask: impl Fn(&mut Own, &mut [u8]) -> Told) -> Result<Option<&[u8]>, Refusal> {
        loop {
            let told = ask(&mut self.own, &mut self.room);
            match told.answer {
                SHOWN if told.bytes > self.room.len() => {
                    let more = told.bytes - self.room.len();
                    self.room.try_reserve(more).map_err(|_| Refusal::Memory)?;
                    self.room.resize(told.bytes, 0);
                }
                SHOWN => return Ok(Some(&self.room[..told.bytes])),
                MEMORY => return Err(Refusal::Memory),
                _ => return Ok(None),
            }
        }
    }

    /// What a key has.
    fn read(&mut self, key: &[u8]) -> Result<Option<&[u8]>, Refusal> {
        // SAFETY: as `Inner::own` says; the room is set, and apart from the handle and the key.
        self.shown(|own, room| unsafe {
            hidewillow_own_value(own, key.as_ptr(), key.len(), room.as_mut_ptr(), room.len())
        })
    }

    /// One of the keys that the last failure took back.
    fn undone(&mut self, place: usize) -> Result<Option<&[u8]>, Refusal> {
        // SAFETY: as `Inner::own` says; the room is set, and apart from the handle.
        self.shown(|own, room| unsafe { hidewillow_own_undone(own, place, room.as_mut_ptr(), room.len()) })
    }
}

impl Drop for Inner {
    fn drop(&mut self) {
        // SAFETY: as `Inner::own` says, and nothing uses the handle behind this.
        unsafe { hidewillow_own_close(&raw mut self.own) };
    }
}

/// What a type is of, which has none of it.
type Of<K, V> = PhantomData<(fn(&K), fn(&V))>;

/// A key, and what it has, as they are read.
type Entry<K, V> = (<K as Data>::Owned, <V as Data>::Owned);

/// A step that is being taken: what it looked at and what it writes. It reads its own writes.
pub struct Step<'a, K: ?Sized = [u8], V: ?Sized = [u8]> {
    inner: &'a mut Inner,
    looked: Vec<Vec<u8>>,
    written: Vec<(Vec<u8>, Option<Vec<u8>>)>,
    said: Option<(u16, Vec<u8>)>,
    of: Of<K, V>,
}

impl<K: ?Sized, V: ?Sized> fmt::Debug for Step<'_, K, V> {
    fn fmt(&self, f: &mut fmt::Formatter<'_>) -> fmt::Result {
        f.debug_struct("Step").field("looked", &self.looked).field("written", &self.written).finish_non_exhaustive()
    }
}

impl<K: ?Sized + Data, V: ?Sized + Data> Step<'_, K, V> {
    /// What a key has, which the step depends on from now on; `None` where it is absent.
    ///
    /// # Errors
    /// [`Refusal::Memory`], and [`Refusal::Form`] where the bytes are no `V`.
    pub fn get(&mut self, key: impl Like<K>) -> Result<Option<V::Owned>, Refusal> {
        let mut read = None;
        let there = self.look(&key.like().bytes(), |bytes| read = V::read(bytes))?;
        if there && read.is_none() {
            return Err(Refusal::Form);
        }
        Ok(read)
    }

    /// The same bytes into a buffer of the caller's, which is emptied first; whether the key is there.
    ///
    /// # Errors
    /// [`Refusal::Memory`].
    pub fn get_into(&mut self, key: impl Like<K>, into: &mut Vec<u8>) -> Result<bool, Refusal> {
        into.clear();
        self.look(&key.like().bytes(), |bytes| into.extend_from_slice(bytes))
    }

    /// Hands what a key has to the caller, if it is there; whether it is.
    fn look(&mut self, key: &[u8], mut take: impl FnMut(&[u8])) -> Result<bool, Refusal> {
        if let Some((_, value)) = self.written.iter().rev().find(|(it, _)| it == key) {
            return Ok(value.as_deref().map(take).is_some());
        }
        self.looked.push(key.to_vec());
        Ok(self.inner.read(key)?.map(&mut take).is_some())
    }

    /// Sets what a key has.
    pub fn put(&mut self, key: impl Like<K>, value: impl Like<V>) {
        let (key, value) = (key.like().bytes(), value.like().bytes());
        self.written.push((key.into_owned(), Some(value.into_owned())));
    }

    /// Makes a key absent.
    pub fn remove(&mut self, key: impl Like<K>) {
        self.written.push((key.like().bytes().into_owned(), None));
    }

    /// Says this to a channel. It goes out once nothing that the step depends on is undecided.
    ///
    /// # Errors
    /// [`Refusal::SaidTwice`] where this step said something before, which stays.
    pub fn say(&mut self, channel: u16, output: impl Into<Vec<u8>>) -> Result<(), Refusal> {
        if self.said.is_some() {
            return Err(Refusal::SaidTwice);
        }
        self.said = Some((channel, output.into()));
        Ok(())
    }

    /// Writes the step into the kernel's draft: what it says, and on what it depends, as far as somebody asks for that.
    fn hand_over(self, is_guess: bool) -> Result<Taken, Refusal> {
        let mut taken = Taken { rests: Vec::new(), channel: self.said.as_ref().map(|(channel, _)| *channel) };
        if is_guess || taken.channel.is_some() {
            let keys = self.looked.iter().chain(self.written.iter().map(|(key, _)| key));
            taken.rests = self.inner.rests(keys.map(Vec::as_slice));
        }
        let own = &mut self.inner.own;
        // SAFETY: as `Inner::own` says; the slices are those of references, apart from the handle and never written.
        unsafe {
            done(hidewillow_own_clear(own), WRITTEN)?;
            for key in &self.looked {
                done(hidewillow_own_look(own, key.as_ptr(), key.len()), WRITTEN)?;
            }
            for (key, value) in &self.written {
                let told = match value {
                    Some(value) => {
                        let (bytes, count) = (value.as_ptr(), value.len());
                        hidewillow_own_put(own, key.as_ptr(), key.len(), bytes, count)
                    }
                    None => hidewillow_own_remove(own, key.as_ptr(), key.len()),
                };
                done(told, WRITTEN)?;
            }
            if let Some((channel, output)) = &self.said {
                let told = hidewillow_own_say(own, *channel, output.as_ptr(), output.len());
                done(told, WRITTEN)?;
            }
        }
        Ok(taken)
    }
}

/// What is known of a step that is handed over: the undecided guesses that it depends on, and to which channel it says something.
struct Taken {
    rests: Vec<u64>,
    channel: Option<u16>,
}

/// A speculative kernel over keys and values of your own, `[u8]` where no types are named.
///
/// What a step looks at, writes and says depends on the guesses that are undecided in what it looked at and wrote. A guess that
/// fails takes back just what depends on it; output waits until what it depends on is decided. Where the kernel is dropped the
/// guesses that are undecided fail. It may go to another thread ([`Shared`](crate::shared::Shared) is for several at once).
///
/// ```no_run
/// # use hidewillow::speculator::{Decided, Speculator};
/// let mut spec: Speculator<str, i64> = Speculator::open(64, 1)?;
/// spec.step(|s| {
///     s.put("ann", 100);
///     Ok(())
/// })?;
/// let ((), guess) = spec.guess(|s| {
///     let ann = s.get("ann")?.unwrap_or_default();
///     s.put("bob", ann);
///     s.say(1, "bob has what ann has")
/// })?;
/// assert_eq!(spec.released(1)?, None);
/// assert_eq!(spec.commit(guess)?, Decided::Committed { firm: true });
/// assert!(spec.released(1)?.is_some());
/// # Ok::<_, Box<dyn std::error::Error + Send + Sync>>(())
/// ```
pub struct Speculator<K: ?Sized = [u8], V: ?Sized = [u8]> {
    inner: RefCell<Inner>,
    dropped: Arc<Dropped>,
    of: Of<K, V>,
}

impl<K: ?Sized, V: ?Sized> fmt::Debug for Speculator<K, V> {
    fn fmt(&self, f: &mut fmt::Formatter<'_>) -> fmt::Result {
        let counts = self.counts();
        f.debug_struct("Speculator").field("counts", &counts).finish_non_exhaustive()
    }
}

impl<K: ?Sized, V: ?Sized> Speculator<K, V> {
    /// How many keys and guesses there are.
    #[must_use]
    pub fn counts(&self) -> OwnCounts {
        let mut counts = OwnCounts::default();
        // SAFETY: as `Inner::own` says; the counts are set, and apart from the handle.
        unsafe { hidewillow_own_counts(&raw mut self.settled().own, &raw mut counts) };
        counts
    }

    /// Wakes who waits for outputs.
    pub(crate) fn wake_all(&self) {
        self.inner.borrow_mut().changed();
    }

    /// The handle, behind the failures of dropped tokens.
    fn settled(&self) -> std::cell::RefMut<'_, Inner> {
        let mut inner = self.inner.borrow_mut();
        inner.settle(&self.dropped);
        inner
    }

    /// Whether a guess is this kernel's.
    fn owns(&self, guess: &Guess) -> bool {
        Arc::ptr_eq(&guess.dropped, &self.dropped)
    }
}

impl<K: ?Sized + Data, V: ?Sized + Data> Speculator<K, V> {
    /// One in which no key is there, of whose guesses so many may be undecided at once. Who doesn't know the seed can't choose
    /// keys that are found slowly.
    ///
    /// # Errors
    /// [`Refusal::NoGuesses`] where so many are 0, and [`Refusal::Memory`].
    pub fn open(guesses: u16, seed: u64) -> Result<Self, Refusal> {
        let mut inner = Inner {
            own: Own { at: std::ptr::null_mut() },
            room: Vec::new(),
            out: BTreeSet::new(),
            struck: BTreeSet::new(),
            standing: Standing::default(),
            watches: Watches::default(),
            waiting: Vec::new(),
        };
        // SAFETY: the handle is of zeros, and its pointer that of an exclusive reference.
        let told = unsafe { hidewillow_own_open(&raw mut inner.own, 1, guesses, seed) };
        done(told, OPENED)?;
        Ok(Speculator { inner: RefCell::new(inner), dropped: Arc::default(), of: PhantomData })
    }

    fn write<R, E: From<Refusal>>(
        &mut self,
        is_guess: bool,
        step: impl FnOnce(&mut Step<'_, K, V>) -> Result<R, E>,
    ) -> Result<(R, Taken), E> {
        let inner = self.inner.get_mut();
        inner.settle(&self.dropped);
        let (looked, written) = (Vec::new(), Vec::new());
        let mut draft = Step { inner, looked, written, said: None, of: PhantomData };
        let result = step(&mut draft)?;
        let taken = draft.hand_over(is_guess)?;
        Ok((result, taken))
    }

    /// Takes a step: what the closure looks at, writes and says. Where it ends with an error nothing has changed.
    ///
    /// ```no_run
    /// # use hidewillow::speculator::Speculator;
    /// # let mut shop: Speculator<str, u32> = Speculator::open(64, 1)?;
    /// shop.step(|s| {
    ///     let apple = s.get("apple")?.unwrap_or(10);
    ///     s.put("apple", apple + 2);
    ///     Ok(()) // no type beside it: the error of a step is a `Refusal`
    /// })?;
    /// # Ok::<_, Box<dyn std::error::Error + Send + Sync>>(())
    /// ```
    ///
    /// # Errors
    /// What the closure says, [`Refusal::LongKey`], [`Refusal::LongValue`] and [`Refusal::Memory`].
    pub fn step<R>(&mut self, step: impl FnOnce(&mut Step<'_, K, V>) -> Result<R, Refusal>) -> Result<R, Refusal> {
        self.try_step(step)
    }

    /// The same where the closure has errors of its own, of any type that a [`Refusal`] becomes by `?`.
    ///
    /// ```no_run
    /// # use hidewillow::speculator::{Refusal, Speculator};
    /// # use std::error::Error;
    /// # let mut shop: Speculator<str, u32> = Speculator::open(64, 1)?;
    /// shop.try_step(|s| -> Result<(), Box<dyn Error>> {
    ///     let apple = s.get("apple")?.ok_or("there is no price")?;
    ///     s.put("apple", apple + 2);
    ///     Ok(())
    /// })?;
    /// # Ok::<_, Box<dyn Error>>(())
    /// ```
    ///
    /// Of these there are many, so where nothing names one the compiler asks for it: for closures without an error of their own there is
    /// [`step`](Self::step).
    ///
    /// ```compile_fail,E0283
    /// # use hidewillow::speculator::Speculator;
    /// # let mut shop: Speculator<str, u32> = Speculator::open(64, 1)?;
    /// shop.try_step(|s| {
    ///     s.put("apple", 12);
    ///     Ok(())
    /// })?;
    /// # Ok::<_, Box<dyn std::error::Error + Send + Sync>>(())
    /// ```
    ///
    /// # Errors
    /// As of [`step`](Self::step).
    pub fn try_step<R, E: From<Refusal>>(
        &mut self,
        step: impl FnOnce(&mut Step<'_, K, V>) -> Result<R, E>,
    ) -> Result<R, E> {
        let (result, Taken { rests, channel }) = self.write(false, step)?;
        let inner = self.inner.get_mut();
        // SAFETY: as `Inner::own` says.
        done(unsafe { hidewillow_own_take(&raw mut inner.own) }, STEPPED)?;
        if let Some(channel) = channel {
            inner.standing.output(channel, &rests);
        }
        inner.changed();
        Ok(result)
    }

    /// Draws a guess with its step, which depends on it.
    ///
    /// # Errors
    /// As of [`step`](Self::step), and [`Refusal::TooMany`] and [`Refusal::NoNumber`].
    pub fn guess<R>(
        &mut self,
        step: impl FnOnce(&mut Step<'_, K, V>) -> Result<R, Refusal>,
    ) -> Result<(R, Guess), Refusal> {
        self.try_guess(step)
    }

    /// The same where the closure has errors of its own.
    ///
    /// # Errors
    /// As of [`guess`](Self::guess).
    pub fn try_guess<R, E: From<Refusal>>(
        &mut self,
        step: impl FnOnce(&mut Step<'_, K, V>) -> Result<R, E>,
    ) -> Result<(R, Guess), E> {
        let (result, Taken { mut rests, channel }) = self.write(true, step)?;
        let inner = self.inner.get_mut();
        // SAFETY: as `Inner::own` says.
        let id = done(unsafe { hidewillow_own_guess(&raw mut inner.own) }, GUESSED)?.number;
        inner.out.insert(id);
        inner.standing.add(Item::Guess(id), &rests);
        if let Some(channel) = channel {
            rests.push(id);
            inner.standing.output(channel, &rests);
        }
        Ok((result, Guess { id, dropped: Arc::clone(&self.dropped), spent: false }))
    }

    /// Commits a guess of this kernel: nothing depends on it any more, and whether it stands for good.
    ///
    /// # Errors
    /// A guess of another kernel is given back.
    pub fn commit(&mut self, guess: Guess) -> Result<Decided<K::Owned>, Stranger> {
        if !self.owns(&guess) {
            return Err(Stranger(guess));
        }
        let firm = self.settled().commit(guess.spend());
        Ok(firm.map_or(Decided::Gone, |firm| Decided::Committed { firm }))
    }

    /// Fails a guess of this kernel: what depends on it is taken back. Keys whose bytes are no `K`, or for which there is no
    /// memory, are not told.
    ///
    /// # Errors
    /// A guess of another kernel is given back.
    pub fn fail(&mut self, guess: Guess) -> Result<Decided<K::Owned>, Stranger> {
        if !self.owns(&guess) {
            return Err(Stranger(guess));
        }
        let mut inner = self.settled();
        let Some((count, Failure { struck, committed, outputs, .. })) = inner.fail(guess.spend()) else {
            return Ok(Decided::Gone);
        };
        let places = 0..usize::try_from(count).unwrap_or(usize::MAX);
        let keys = places.filter_map(|place| inner.undone(place).ok().flatten().and_then(K::read)).collect();
        Ok(Decided::Failed(Failure { keys, struck, committed, outputs }))
    }

    /// What a key has; `None` where it is absent. A step that is to depend on it gets it itself ([`Step::get`]).
    ///
    /// # Errors
    /// [`Refusal::Memory`], and [`Refusal::Form`] where the bytes are no `V`.
    pub fn value(&self, key: impl Like<K>) -> Result<Option<V::Owned>, Refusal> {
        self.value_of(&key.like().bytes())
    }

    /// The same of a key by its bytes.
    pub(crate) fn value_of(&self, key: &[u8]) -> Result<Option<V::Owned>, Refusal> {
        let mut inner = self.settled();
        let there = inner.read(key)?;
        there.map(|bytes| V::read(bytes).ok_or(Refusal::Form)).transpose()
    }

    /// The undecided guesses that a key depends on, by rising number.
    pub fn tags(&self, key: impl Like<K>) -> Vec<u64> {
        let mut tags = Vec::new();
        self.settled().add_tags(&key.like().bytes(), &mut tags);
        tags
    }

    /// The keys that are there, each once, in no order of their own.
    pub fn keys(&self) -> impl Iterator<Item = Result<K::Owned, Refusal>> + '_ {
        self.iter().map(|entry| entry.map(|(key, _)| key))
    }

    /// The keys that are there, with what they have, each once, in no order of their own. A key whose bytes are no `K`, or what it has no
    /// `V`, is told as [`Refusal::Form`].
    pub fn iter(&self) -> Iter<'_, K, V> {
        // SAFETY: as `Inner::own` says.
        let told = unsafe { hidewillow_own_places(&raw mut self.settled().own) };
        let places = usize::try_from(told.number).unwrap_or(usize::MAX);
        Iter { kernel: self, places: 0..places }
    }

    /// What the key has that has a place, if one has it and is there.
    fn entry(&self, place: usize) -> Result<Option<Entry<K, V>>, Refusal> {
        let mut inner = self.settled();
        let Some(key) = inner.key(place)?.map(<[u8]>::to_vec) else { return Ok(None) };
        let Some(value) = inner.read(&key)? else { return Ok(None) };
        K::read(&key).zip(V::read(value)).map(Some).ok_or(Refusal::Form)
    }

    /// The keys that depend on a guess, each once: its failure would take just these back. Those whose bytes are no `K` are left out.
    ///
    /// # Errors
    /// [`Refusal::Memory`].
    pub fn dependents(&self, guess: &Guess) -> Result<Vec<K::Owned>, Refusal> {
        let (mut inner, mut keys) = (self.settled(), Vec::new());
        if !self.owns(guess) {
            return Ok(keys);
        }
        for place in 0.. {
            match inner.dependent(guess.id, place)? {
                Some(key) => keys.extend(K::read(key)),
                None => break,
            }
        }
        Ok(keys)
    }

    /// What is known of a guess: nothing of one that is another kernel's.
    pub fn status(&self, guess: &Guess) -> Option<Status> {
        self.settled().status(guess.id).filter(|_| self.owns(guess))
    }

    /// The numbers of the struck guesses whose tokens are still out, by rising number.
    pub fn struck(&self) -> Vec<u64> {
        self.settled().struck.iter().copied().collect()
    }

    /// What becomes of a guess in the end, as a future that a decision wakes, whoever decides. One whose token is dropped fails at the next
    /// call of the kernel; with the kernel all fail that are not known yet.
    pub fn watch(&self, guess: &Guess) -> Watch {
        let mut inner = self.settled();
        let known = match inner.status(guess.id).filter(|_| self.owns(guess)) {
            Some(Status::Undecided) => None,
            Some(Status::Struck) => Some(Fate::Struck),
            None => Some(Fate::Failed),
        };
        inner.watches.watch(guess.id, known)
    }

    /// How many outputs of a channel wait: the first that depends on a guess, and all behind it.
    pub fn waiting(&self, channel: u16) -> u64 {
        // SAFETY: as `Inner::own` says.
        unsafe { hidewillow_own_waiting(&raw mut self.settled().own, channel) }.number
    }

    /// A channel of which [`released`](Self::released) gives an output, found without going through the others.
    pub fn next_channel(&self) -> Option<u16> {
        // SAFETY: as `Inner::own` says.
        let told = unsafe { hidewillow_own_channel(&raw mut self.settled().own) };
        u16::try_from(told.number).ok().filter(|_| told.answer == SHOWN)
    }

    /// Wakes this once there may be outputs that were not there before.
    pub(crate) fn wake_behind(&self, waker: &Waker) {
        let mut inner = self.inner.borrow_mut();
        if !inner.waiting.iter().any(|it| it.will_wake(waker)) {
            inner.waiting.push(waker.clone());
        }
    }

    /// The next output of a channel that depends on nothing and behind which nothing older waits. It is gone from the kernel then.
    ///
    /// # Errors
    /// [`Refusal::Memory`]; the output stays.
    pub fn released(&mut self, channel: u16) -> Result<Option<Vec<u8>>, Refusal> {
        let mut inner = self.settled();
        // SAFETY: as `Inner::own` says; the room is set, and apart from the handle.
        let shown =
            inner.shown(|own, room| unsafe { hidewillow_own_released(own, channel, room.as_mut_ptr(), room.len()) })?;
        Ok(shown.map(<[u8]>::to_vec))
    }
}

/// The keys that are there, with what they have: of [`Speculator::iter`].
pub struct Iter<'a, K: ?Sized, V: ?Sized> {
    kernel: &'a Speculator<K, V>,
    places: std::ops::Range<usize>,
}

impl<K: ?Sized, V: ?Sized> fmt::Debug for Iter<'_, K, V> {
    fn fmt(&self, f: &mut fmt::Formatter<'_>) -> fmt::Result {
        f.debug_struct("Iter").field("places", &self.places).finish_non_exhaustive()
    }
}

impl<K: ?Sized + Data, V: ?Sized + Data> Iterator for Iter<'_, K, V> {
    type Item = Result<(K::Owned, V::Owned), Refusal>;

    fn next(&mut self) -> Option<Self::Item> {
        let kernel = self.kernel;
        self.places.find_map(|place| kernel.entry(place).transpose())
    }
}

impl<'a, K: ?Sized + Data, V: ?Sized + Data> IntoIterator for &'a Speculator<K, V> {
    type Item = Result<(K::Owned, V::Owned), Refusal>;
    type IntoIter = Iter<'a, K, V>;

    fn into_iter(self) -> Iter<'a, K, V> {
        self.iter()
    }
}

#[cfg(test)]
mod tests {
    use super::*;

    fn inner() -> Inner {
        let (own, standing, watches) = (Own { at: std::ptr::null_mut() }, Standing::default(), Watches::default());
        let (out, struck) = (BTreeSet::new(), BTreeSet::new());
        Inner { own, room: Vec::new(), out, struck, standing, watches, waiting: Vec::new() }
    }

    #[test]
    fn want_of_memory_is_no_absent_key() {
        let told = |answer| Told { answer, number: 0, bytes: 0 };
        assert_eq!(inner().shown(|_, _| told(MEMORY)), Err(Refusal::Memory));
        assert_eq!(inner().shown(|_, _| told(crate::ABSENT)), Ok(None));
    }
}
