//! Where the frames of a store go: to a disk (`hidewillow::store::log`), or to an engine.
use hidewillow::store::log::{Closed, DiskLog, LogCounts, Room, Segments};
use hidewillow::store::Store;
use std::io;
use std::time::Duration;

/// Where the frames of a store go.
pub trait Log {
    /// Tells the store what came of frames since. An error ends the program, and nothing more is answered.
    fn hear(&mut self, store: &mut Store) -> io::Result<()>;
    /// Gives on the frames that the store has.
    fn send(&mut self, store: &mut Store) -> io::Result<()>;
    /// How long at most what came may wait while more comes, which goes with it.
    fn gathers(&self) -> Duration {
        Duration::ZERO
    }
    /// Whether it takes more; and whether it never will, so that nothing more is to be done but to send what may go out.
    fn takes(&self) -> bool {
        true
    }
    fn is_over(&self) -> bool {
        false
    }
    /// Something was carried out on a channel: the mark that the channel has now.
    fn carried_out(&mut self) -> u64 {
        0
    }
    /// Whether what the store puts out on a channel with this mark may go, as it is proved to be the newest. Of no mark is it so where it
    /// isn't of the highest.
    fn may_tell(&self, _mark: u64) -> bool {
        true
    }
    /// Has what has a mark proved: by what is known here, or by asking if it may.
    fn prove(&mut self, _store: &mut Store, _mark: u64, _may_ask: bool) -> io::Result<()> {
        Ok(())
    }
    /// Whether there is room for a request of so many bytes that writes, or that only takes away; where that lacks, it is refused by name.
    fn room(&mut self, _: &mut Store, _bytes: usize, _takes_away: bool) -> Room {
        Room::Is
    }
    /// Whether there is room for writes.
    fn has_room(&self) -> bool {
        true
    }
    /// The store is to stop, and nothing is under way: what was begun and not used is let go of.
    fn let_go(&mut self) -> io::Result<()> {
        Ok(())
    }
    /// What it counted, as `INFO` tells it.
    fn counts(&self) -> &LogCounts;
    /// Its segments, where it has some.
    fn segments(&self) -> Option<Segments> {
        None
    }
    /// Lets a snapshot stand for all segments up to one, unless that can't be yet.
    fn close(&mut self, _: &mut Store, _up_to: u64) -> io::Result<Option<Closed>> {
        Ok(None)
    }
}

impl Log for DiskLog {
    fn hear(&mut self, store: &mut Store) -> io::Result<()> {
        DiskLog::hear(self, store)
    }

    fn send(&mut self, store: &mut Store) -> io::Result<()> {
        DiskLog::send(self, store)
    }

    fn room(&mut self, store: &mut Store, bytes: usize, takes_away: bool) -> Room {
        DiskLog::room(self, store, bytes, takes_away)
    }

    fn has_room(&self) -> bool {
        DiskLog::has_room(self)
    }

    fn let_go(&mut self) -> io::Result<()> {
        DiskLog::let_go(self)
    }

    fn counts(&self) -> &LogCounts {
        DiskLog::counts(self)
    }

    fn segments(&self) -> Option<Segments> {
        Some(DiskLog::segments(self))
    }

    fn close(&mut self, store: &mut Store, up_to: u64) -> io::Result<Option<Closed>> {
        DiskLog::close(self, store, up_to)
    }
}
