//! How long what came waits to be given to the log, for more that goes with it: those ask next, as a rule, who were just answered.
use std::collections::BTreeMap;
use std::time::{Duration, Instant};

/// Since when something waits, and who was answered when, and has asked nothing since.
pub struct Gathering {
    most: Duration,
    since: Option<Instant>,
    answered: BTreeMap<u16, Instant>,
}

impl Gathering {
    /// Nothing waits longer than this.
    pub fn new(most: Duration) -> Gathering {
        Gathering { most, since: None, answered: BTreeMap::new() }
    }

    /// Something waits from now on.
    pub fn waits(&mut self) {
        self.since.get_or_insert_with(Instant::now);
    }

    /// All is given to the log.
    pub fn is_given(&mut self) {
        self.since = None;
    }

    pub fn asks(&mut self, channel: u16) {
        self.answered.remove(&channel);
    }

    pub fn is_answered(&mut self, channel: u16) {
        if !self.most.is_zero() {
            self.answered.insert(channel, Instant::now());
        }
    }

    /// Until when what waits does so yet, unless more comes before: as long as somebody was answered a moment ago and asks no more.
    pub fn until(&mut self) -> Option<Instant> {
        let (since, now) = (self.since?, Instant::now());
        self.answered.retain(|_, at| now < *at + self.most);
        let last = self.answered.values().max()?;
        Some(since.min(*last) + self.most).filter(|until| now < *until)
    }
}
