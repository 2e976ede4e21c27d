//! What else depends on undecided guesses, beside keys: other guesses, and outputs. The library takes back what depends on one that
//! fails; this tells of it, and which committed guesses came to stand for good.
use std::collections::HashMap;

/// What depends on guesses.
#[derive(Debug, Clone, Copy, PartialEq, Eq, Hash)]
pub(crate) enum Item {
    /// A guess, by its number.
    Guess(u64),
    /// An output of a channel, by a number of its own.
    Output { channel: u16, number: u64 },
}

/// What depends on undecided guesses: each on all of them that what its step looked at and wrote did.
#[derive(Default)]
pub(crate) struct Standing {
    /// On how many it depends, and by each guess what depends on it, or did until a failure took it away.
    on: HashMap<Item, usize>,
    by: HashMap<u64, Vec<Item>>,
    outputs: u64,
}

impl Standing {
    /// An output that depends on these guesses.
    pub(crate) fn output(&mut self, channel: u16, on: &[u64]) {
        self.outputs += 1;
        self.add(Item::Output { channel, number: self.outputs }, on);
    }

    /// Something that depends on these guesses.
    pub(crate) fn add(&mut self, item: Item, on: &[u64]) {
        if on.is_empty() {
            return;
        }
        self.on.insert(item, on.len());
        for guess in on {
            self.by.entry(*guess).or_default().push(item);
        }
    }

    /// A guess is committed: what depends on nothing undecided since.
    pub(crate) fn committed(&mut self, guess: u64) -> Vec<Item> {
        let mut items = self.by.remove(&guess).unwrap_or_default();
        items.retain(|item| {
            let Some(left) = self.on.get_mut(item) else { return false };
            *left -= 1;
            *left == 0 && self.on.remove(item).is_some()
        });
        items
    }

    /// A guess failed: what went with it.
    pub(crate) fn failed(&mut self, guess: u64) -> Vec<Item> {
        self.on.remove(&Item::Guess(guess));
        let mut items = self.by.remove(&guess).unwrap_or_default();
        items.retain(|item| self.on.remove(item).is_some());
        for item in &items {
            // What depends on this one depends on that one too.
            if let Item::Guess(other) = item {
                self.by.remove(other);
            }
        }
        items
    }
}
