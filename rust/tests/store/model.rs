//! What a store has to be, by a plain store and the list of the commands that came.
use crate::plain::{Bytes, Looked, Map, Work};
use std::collections::BTreeSet;

/// What a ticket is told of which nothing was done.
const REFUSED: &[u8] = b"-IOERR the write did not reach the disk, nothing of it was done\r\n";

/// Numbers of batches.
type Batches = BTreeSet<u64>;

/// A command that was carried out.
struct Carried {
    /// Its channel, by the order in which channels were connected.
    link: usize,
    ticket: u64,
    work: Work,
    answer: Bytes,
    wrote: Vec<Bytes>,
    /// The batches that it depended on.
    rests: Batches,
}

impl Carried {
    /// Does it again on a map; whether it is answered as it was.
    fn again(&self, map: &mut Map) -> bool {
        self.work.run(map, &mut Vec::new()) == self.answer
    }
}

/// What a store has to be.
pub struct Model {
    /// What it began with, and what it has now.
    start: Map,
    map: Map,
    carried: Vec<Carried>,
    /// The number of the open batch.
    pub batch: u64,
    committed: Batches,
    failed: Batches,
    /// Those that were cut off, and are not told as decided.
    cut_off: Batches,
}

impl Default for Model {
    fn default() -> Model {
        Model::of(Map::new())
    }
}

impl Model {
    /// One that begins with this.
    fn of(start: Map) -> Model {
        Model {
            map: start.clone(),
            start,
            carried: Vec::new(),
            batch: 1,
            committed: Batches::new(),
            failed: Batches::new(),
            cut_off: Batches::new(),
        }
    }

    pub fn map(&self) -> &Map {
        &self.map
    }

    /// Those commands that no failure has taken back.
    fn standing(&self) -> impl DoubleEndedIterator<Item = &Carried> {
        self.carried.iter().filter(|it| it.rests.is_disjoint(&self.failed))
    }

    pub fn count(&self) -> usize {
        self.standing().count()
    }

    /// The undecided batches that a key depends on: those of the last that wrote it.
    pub fn rests_on(&self, key: &Bytes) -> Batches {
        let last = self.standing().rev().find(|it| it.wrote.contains(key));
        let rests = last.map(|it| &it.rests - &self.committed);
        rests.unwrap_or_default()
    }

    /// Work of a ticket of a channel is carried out; its answer.
    pub fn carry(&mut self, link: usize, ticket: u64, work: Work) -> &Bytes {
        let looked: BTreeSet<Bytes> = match work.looked() {
            Looked::These(keys) => keys.into_iter().collect(),
            Looked::All => self.carried.iter().flat_map(|it| it.wrote.clone()).collect(),
        };
        let mut wrote = Vec::new();
        let mut map = self.map.clone();
        let answer = work.run(&mut map, &mut wrote);
        let touched = looked.iter().chain(&wrote);
        let mut rests: Batches = touched.flat_map(|key| self.rests_on(key)).collect();
        if work.may_write() {
            rests.insert(self.batch);
        }
        self.map = map;
        self.carried.push(Carried { link, ticket, work, answer, wrote, rests });
        &self.carried[self.carried.len() - 1].answer
    }

    /// A frame was taken: the next batch is open.
    pub fn seal(&mut self) {
        self.batch += 1;
    }

    /// Whether a batch was cut off that is not told as decided.
    pub fn is_due(&self) -> bool {
        !self.cut_off.is_empty()
    }

    pub fn cut(&mut self, first: u64, last: u64) {
        self.cut_off.extend(first..=last);
    }

    /// A batch was told as logged.
    pub fn commit(&mut self, batch: u64) {
        let gone = [&self.failed, &self.cut_off, &self.committed];
        assert!(gone.iter().all(|it| !it.contains(&batch)), "batch {batch} is told as logged");
        self.committed.insert(batch);
    }

    /// A batch was told as refused: what depended on it never was, and the others have just what they had and said.
    pub fn fail(&mut self, batch: u64) {
        assert!(self.cut_off.remove(&batch), "batch {batch} is told as refused, which was not cut off");
        self.failed.insert(batch);
        let mut map = self.start.clone();
        assert!(self.standing().all(|it| it.again(&mut map)), "what stands is answered as it was");
        self.map = map;
    }

    /// What a ticket of a channel is told by now: `None` where its command waits.
    fn told(&self, link: usize, ticket: u64) -> Option<&[u8]> {
        match self.standing().find(|it| it.link == link && it.ticket == ticket) {
            None => Some(REFUSED),
            Some(it) => it.rests.is_subset(&self.committed).then_some(&it.answer),
        }
    }

    /// All that a channel which has given so many tickets has to be told by now.
    pub fn due(&self, link: usize, given: u64) -> Bytes {
        let told = (1..=given).map_while(|ticket| self.told(link, ticket));
        told.flatten().copied().collect()
    }

    /// What was read after a crash is what the first of the logged commands leave, with all that was told as logged. It goes on
    /// from there.
    pub fn recover(&mut self, read: Map) {
        assert!(self.leads_to(&read), "{read:?} is read, which is after none of the logged commands");
        *self = Model::of(read);
    }

    fn leads_to(&self, read: &Map) -> bool {
        let gone = &self.failed | &self.cut_off;
        let mut map = self.start.clone();
        let mut left = self.carried.iter().filter(|it| it.work.may_write()).peekable();
        loop {
            let is_settled = left.clone().all(|it| !it.rests.is_subset(&self.committed));
            if is_settled && map == *read {
                return true;
            }
            let Some(next) = left.next() else {
                return false;
            };
            if next.rests.is_disjoint(&gone) {
                next.again(&mut map);
            }
        }
    }
}
