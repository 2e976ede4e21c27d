//! What becomes of a guess, as a future that its decision wakes: for code that is `async`, on any runtime or none.
use std::collections::HashMap;
use std::fmt;
use std::future::Future;
use std::pin::Pin;
use std::sync::{Arc, Mutex, MutexGuard, PoisonError};
use std::task::{Context, Poll, Waker};

/// What became of a guess in the end.
#[derive(Debug, Clone, Copy, PartialEq, Eq)]
pub enum Fate {
    /// It was committed, and depends on nothing undecided any more: it stands for good.
    Committed,
    /// It failed, by its token, as that was dropped, or with its kernel.
    Failed,
    /// Another guess's failure took its step away, it may have been committed before.
    Struck,
}

#[derive(Debug, Default)]
struct Seen {
    fate: Option<Fate>,
    waker: Option<Waker>,
}

#[derive(Debug, Default)]
struct Cell(Mutex<Seen>);

impl Cell {
    fn lock(&self) -> MutexGuard<'_, Seen> {
        self.0.lock().unwrap_or_else(PoisonError::into_inner)
    }
}

/// A future of what becomes of a guess, whoever decides it: see [`Speculator::watch`](crate::speculator::Speculator::watch).
#[must_use = "a future does nothing unless it is awaited"]
pub struct Watch(Arc<Cell>);

impl fmt::Debug for Watch {
    fn fmt(&self, f: &mut fmt::Formatter<'_>) -> fmt::Result {
        f.debug_tuple("Watch").field(&self.fate()).finish()
    }
}

impl Watch {
    /// What became of it, if that is known by now.
    #[must_use]
    pub fn fate(&self) -> Option<Fate> {
        self.0.lock().fate
    }
}

impl Future for Watch {
    type Output = Fate;

    fn poll(self: Pin<&mut Self>, context: &mut Context<'_>) -> Poll<Fate> {
        let mut seen = self.0.lock();
        if let Some(fate) = seen.fate {
            return Poll::Ready(fate);
        }
        seen.waker = Some(context.waker().clone());
        Poll::Pending
    }
}

/// Who watches which guess.
#[derive(Default)]
pub(crate) struct Watches(HashMap<u64, Vec<Arc<Cell>>>);

impl Watches {
    /// One more, of a guess of which this is known.
    pub(crate) fn watch(&mut self, guess: u64, known: Option<Fate>) -> Watch {
        let cell = Arc::new(Cell::default());
        cell.lock().fate = known;
        if known.is_none() {
            self.0.entry(guess).or_default().push(Arc::clone(&cell));
        }
        Watch(cell)
    }

    /// Tells those who watch a guess what became of it.
    pub(crate) fn tell(&mut self, guess: u64, fate: Fate) {
        for cell in self.0.remove(&guess).unwrap_or_default() {
            let waker = {
                let mut seen = cell.lock();
                seen.fate = Some(fate);
                seen.waker.take()
            };
            if let Some(waker) = waker {
                waker.wake();
            }
        }
    }

    /// The guesses that are watched. Those that nobody waits for any more are forgotten.
    pub(crate) fn all(&mut self) -> Vec<u64> {
        self.0.retain(|_, cells| {
            cells.retain(|cell| Arc::strong_count(cell) > 1);
            !cells.is_empty()
        });
        self.0.keys().copied().collect()
    }
}

impl Drop for Watches {
    fn drop(&mut self) {
        for guess in self.all() {
            self.tell(guess, Fate::Failed);
        }
    }
}
