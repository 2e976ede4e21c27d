//! Words of threads that work beside, and who has the log that they work for.
use std::fmt;
use std::sync::mpsc::{channel, Receiver, Sender};
use std::sync::Arc;

/// Who has a log: it is woken by any thread where a word waits, and told what goes wrong beside.
#[derive(Clone)]
pub struct Host {
    wakes: Arc<dyn Fn() + Send + Sync>,
    says: Arc<dyn Fn(fmt::Arguments<'_>) + Send + Sync>,
}

impl fmt::Debug for Host {
    fn fmt(&self, f: &mut fmt::Formatter<'_>) -> fmt::Result {
        f.debug_struct("Host").finish_non_exhaustive()
    }
}

impl Host {
    /// One that is woken, and told, so.
    pub fn new(
        wakes: impl Fn() + Send + Sync + 'static,
        says: impl Fn(fmt::Arguments<'_>) + Send + Sync + 'static,
    ) -> Host {
        Host { wakes: Arc::new(wakes), says: Arc::new(says) }
    }

    /// Tells it what goes wrong.
    pub fn say(&self, words: fmt::Arguments<'_>) {
        (self.says)(words);
    }

    /// Wakes it.
    pub fn wake(&self) {
        (self.wakes)();
    }
}

/// Tells a host words, and wakes it.
#[derive(Debug)]
pub struct Tell<T>(Sender<T>, Host);

impl<T> Tell<T> {
    /// To this host, which takes the words out of what is given back.
    #[must_use]
    pub fn new(host: Host) -> (Tell<T>, Receiver<T>) {
        let (tell, words) = channel();
        (Tell(tell, host), words)
    }

    /// The host may have ended: then nobody is to be told.
    pub fn tell(&self, word: T) {
        if self.0.send(word).is_ok() {
            self.1.wake();
        }
    }
}

impl<T> Clone for Tell<T> {
    fn clone(&self) -> Tell<T> {
        Tell(self.0.clone(), self.1.clone())
    }
}
