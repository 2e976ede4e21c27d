//! A kernel that several threads, or tasks, use.
use crate::data::{Data, Like};
use crate::speculator::{Decided, Guess, Refusal, Speculator, Step, Stranger};
use crate::watch::Watch;
use std::fmt;
use std::future::Future;
use std::io;
use std::panic::{self, AssertUnwindSafe};
use std::pin::Pin;
use std::sync::mpsc::{self, Receiver, Sender};
use std::sync::Arc;
use std::task::{Context, Poll};
use std::thread::{self, ThreadId};

/// A call of a kernel, which tells its caller what came of it.
type Call<K, V> = Box<dyn FnOnce(&mut Speculator<K, V>) + Send>;

/// What a decision of a guess came to.
type Decision<K> = Result<Decided<<K as Data>::Owned>, Stranger>;

/// What the thread of a kernel is asked for.
enum Message<K: ?Sized, V: ?Sized> {
    Call(Call<K, V>),
    End(Sender<Speculator<K, V>>),
}

/// Where a kernel lives.
struct Home<K: ?Sized, V: ?Sized> {
    calls: Sender<Message<K, V>>,
    thread: ThreadId,
}

impl<K: ?Sized, V: ?Sized> Home<K, V> {
    /// Whether this runs in the kernel's own thread, which can't wait for itself.
    fn is_here(&self) -> bool {
        thread::current().id() == self.thread
    }

    /// Has the thread end: where it gives the kernel back.
    fn end(&self) -> Receiver<Speculator<K, V>> {
        let (to, back) = mpsc::channel();
        // Where the thread has ended before, nothing comes back.
        let _ = self.calls.send(Message::End(to));
        back
    }
}

impl<K: ?Sized, V: ?Sized> Drop for Home<K, V> {
    /// The kernel ends before the last handle is gone.
    fn drop(&mut self) {
        let back = self.end();
        if !self.is_here() {
            drop(back.recv());
        }
    }
}

/// Makes one call after the other, until the kernel is to be given back. Each keeps its panic to itself.
fn serve<K: ?Sized, V: ?Sized>(mut kernel: Speculator<K, V>, calls: Receiver<Message<K, V>>) {
    for message in &calls {
        match message {
            Message::Call(call) => call(&mut kernel),
            Message::End(to) => {
                // Who has called since then, or waits for an output, is told that this has ended.
                drop(calls);
                kernel.wake_all();
                let _ = to.send(kernel);
                return;
            }
        }
    }
}

/// A [`Speculator`] in a thread of its own, to which handles send their calls; a clone is one more handle.
///
/// Each call waits until those before it are made, and for its answer. The thread ends with the last handle, and the kernel with it, or as
/// one handle takes the kernel back ([`end`](Self::end)). A closure that panics does so for its caller: the kernel goes on, without the step.
///
/// ```no_run
/// # use hidewillow::shared::Shared;
/// # use hidewillow::speculator::Speculator;
/// let shop = Shared::new(Speculator::<str, u64>::open(1024, 1)?)?;
/// let clerks: Vec<_> = (0..4)
///     .map(|clerk| {
///         let shop = shop.clone();
///         std::thread::spawn(move || {
///             let (_, sold) = shop.guess(move |s| {
///                 let stock = s.get("stock")?.unwrap_or_default();
///                 s.put("stock", stock + 1);
///                 s.say(clerk, format!("clerk {clerk} has number {stock}"))
///             })?;
///             Ok::<_, hidewillow::speculator::Refusal>(shop.commit(sold))
///         })
///     })
///     .collect();
/// # drop(clerks);
/// # Ok::<_, Box<dyn std::error::Error + Send + Sync>>(())
/// ```
///
/// # Panics
/// Each call does so where it is made in a closure that the same kernel runs: it would wait for itself.
pub struct Shared<K: ?Sized = [u8], V: ?Sized = [u8]>(Arc<Home<K, V>>);

impl<K: ?Sized, V: ?Sized> Clone for Shared<K, V> {
    fn clone(&self) -> Self {
        Shared(Arc::clone(&self.0))
    }
}

impl<K: ?Sized, V: ?Sized> fmt::Debug for Shared<K, V> {
    fn fmt(&self, f: &mut fmt::Formatter<'_>) -> fmt::Result {
        f.debug_struct("Shared").field("thread", &self.0.thread).finish_non_exhaustive()
    }
}

impl<K: ?Sized + 'static, V: ?Sized + 'static> Shared<K, V> {
    /// This kernel, in a thread of its own.
    ///
    /// # Errors
    /// Where the system gives no thread.
    pub fn new(kernel: Speculator<K, V>) -> io::Result<Self> {
        let (calls, of) = mpsc::channel();
        let thread = thread::Builder::new().name("hidewillow".into()).spawn(|| serve(kernel, of))?.thread().id();
        Ok(Shared(Arc::new(Home { calls, thread })))
    }

    /// Makes several calls with nothing between them.
    ///
    /// ```no_run
    /// # use hidewillow::{shared::Shared, speculator::Speculator};
    /// # let shop = Shared::new(Speculator::<str, u64>::open(64, 1)?)?;
    /// let letters = shop.with(|kernel| {
    ///     let next = || kernel.next_channel().map(|channel| kernel.released(channel));
    ///     std::iter::from_fn(next).collect::<Vec<_>>()
    /// })?;
    /// # Ok::<_, Box<dyn std::error::Error + Send + Sync>>(())
    /// ```
    ///
    /// # Errors
    /// [`Refusal::Ended`].
    ///
    /// # Panics
    /// As the closure does, and where a closure of the same kernel calls this.
    pub fn with<R: Send + 'static>(
        &self,
        calls: impl FnOnce(&mut Speculator<K, V>) -> R + Send + 'static,
    ) -> Result<R, Refusal> {
        assert!(!self.0.is_here(), "a closure that a kernel runs calls that kernel");
        let (to, told) = mpsc::channel();
        let call = move |kernel: &mut Speculator<K, V>| {
            // A step that panics has changed nothing, and a call leaves the kernel whole.
            let did = panic::catch_unwind(AssertUnwindSafe(|| calls(kernel)));
            let _ = to.send(did);
        };
        self.0.calls.send(Message::Call(Box::new(call))).map_err(|_| Refusal::Ended)?;
        match told.recv() {
            Ok(did) => Ok(did.unwrap_or_else(|panicked| panic::resume_unwind(panicked))),
            Err(_) => Err(Refusal::Ended),
        }
    }

    /// Takes the kernel back, and ends its thread: calls of other handles are refused from then on. Nothing where another handle has done so.
    ///
    /// # Panics
    /// Where a closure of the same kernel calls this.
    #[must_use = "a kernel that is dropped fails its guesses"]
    pub fn end(&self) -> Option<Speculator<K, V>> {
        assert!(!self.0.is_here(), "a closure that a kernel runs ends that kernel");
        self.0.end().recv().ok()
    }
}

impl<K, V> Shared<K, V>
where
    K: ?Sized + Data<Owned: Send> + 'static,
    V: ?Sized + Data<Owned: Send> + 'static,
{
    /// As [`Speculator::step`].
    ///
    /// # Errors
    /// As there, and [`Refusal::Ended`].
    pub fn step<R: Send + 'static>(
        &self,
        step: impl FnOnce(&mut Step<'_, K, V>) -> Result<R, Refusal> + Send + 'static,
    ) -> Result<R, Refusal> {
        self.try_step(step)
    }

    /// As [`Speculator::try_step`].
    ///
    /// # Errors
    /// As there, and [`Refusal::Ended`].
    pub fn try_step<R: Send + 'static, E: From<Refusal> + Send + 'static>(
        &self,
        step: impl FnOnce(&mut Step<'_, K, V>) -> Result<R, E> + Send + 'static,
    ) -> Result<R, E> {
        self.with(|kernel| kernel.try_step(step))?
    }

    /// As [`Speculator::guess`].
    ///
    /// # Errors
    /// As there, and [`Refusal::Ended`].
    pub fn guess<R: Send + 'static>(
        &self,
        step: impl FnOnce(&mut Step<'_, K, V>) -> Result<R, Refusal> + Send + 'static,
    ) -> Result<(R, Guess), Refusal> {
        self.try_guess(step)
    }

    /// As [`Speculator::try_guess`].
    ///
    /// # Errors
    /// As there, and [`Refusal::Ended`].
    pub fn try_guess<R: Send + 'static, E: From<Refusal> + Send + 'static>(
        &self,
        step: impl FnOnce(&mut Step<'_, K, V>) -> Result<R, E> + Send + 'static,
    ) -> Result<(R, Guess), E> {
        self.with(|kernel| kernel.try_guess(step))?
    }

    /// As [`Speculator::commit`].
    ///
    /// # Errors
    /// As there. Where the kernel was taken back so is the guess.
    pub fn commit(&self, guess: Guess) -> Result<Decided<K::Owned>, Stranger> {
        self.decide(guess, Speculator::commit)
    }

    /// As [`Speculator::fail`].
    ///
    /// # Errors
    /// As of [`commit`](Self::commit).
    pub fn fail(&self, guess: Guess) -> Result<Decided<K::Owned>, Stranger> {
        self.decide(guess, Speculator::fail)
    }

    fn decide(&self, guess: Guess, how: fn(&mut Speculator<K, V>, Guess) -> Decision<K>) -> Decision<K> {
        let twin = guess.twin();
        match self.with(move |kernel| how(kernel, twin)) {
            Ok(Ok(decided)) => {
                guess.spend();
                Ok(decided)
            }
            Ok(Err(_)) | Err(_) => Err(Stranger(guess)),
        }
    }

    /// As [`Speculator::value`].
    ///
    /// # Errors
    /// As there, and [`Refusal::Ended`].
    pub fn value(&self, key: impl Like<K>) -> Result<Option<V::Owned>, Refusal> {
        let key = key.like().bytes().into_owned();
        self.with(move |kernel| kernel.value_of(&key))?
    }

    /// As [`Speculator::released`].
    ///
    /// # Errors
    /// As there, and [`Refusal::Ended`].
    pub fn released(&self, channel: u16) -> Result<Option<Vec<u8>>, Refusal> {
        self.with(move |kernel| kernel.released(channel))?
    }

    /// As [`Speculator::watch`]: what becomes of a guess, as a future.
    ///
    /// # Errors
    /// [`Refusal::Ended`].
    pub fn watch(&self, guess: &Guess) -> Result<Watch, Refusal> {
        let twin = guess.twin();
        self.with(move |kernel| kernel.watch(&twin))
    }

    /// The next output of a channel, as a future: it is taken once it may go out. Of several that wait for one channel each has another.
    pub fn output(&self, channel: u16) -> Output<K, V> {
        Output { kernel: self.clone(), channel }
    }
}

/// The next output of a channel, once it may go out: of [`Shared::output`]. Where it is polled it waits for the calls before it.
#[must_use = "a future does nothing unless it is awaited"]
pub struct Output<K: ?Sized = [u8], V: ?Sized = [u8]> {
    kernel: Shared<K, V>,
    channel: u16,
}

impl<K: ?Sized, V: ?Sized> fmt::Debug for Output<K, V> {
    fn fmt(&self, f: &mut fmt::Formatter<'_>) -> fmt::Result {
        f.debug_struct("Output").field("channel", &self.channel).finish_non_exhaustive()
    }
}

impl<K: ?Sized + Data + 'static, V: ?Sized + Data + 'static> Future for Output<K, V> {
    type Output = Result<Vec<u8>, Refusal>;

    fn poll(self: Pin<&mut Self>, context: &mut Context<'_>) -> Poll<Self::Output> {
        let (channel, waker) = (self.channel, context.waker().clone());
        let next = self.kernel.with(move |kernel| {
            let next = kernel.released(channel).transpose();
            if next.is_none() {
                kernel.wake_behind(&waker);
            }
            next
        });
        match next {
            Ok(Some(output)) => Poll::Ready(output),
            Ok(None) => Poll::Pending,
            Err(ended) => Poll::Ready(Err(ended)),
        }
    }
}
