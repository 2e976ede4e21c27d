//! The log in an engine, as the loop has it: frames to batches, what came of them, rounds, and the end of a leadership.
use super::engine::{self, Batch, Engine, Heard, Keys, Leadership, ReadLog};
use super::follower::{warmed, Follower};
use super::requests::Members;
use crate::host_of;
use crate::house::House;
use crate::keeper::Keeper;
use crate::options::Options;
use crate::server::Server;
use crate::trusted::bound::Bound;
use crate::trusted::frames::Log;
use crate::trusted::system::SIGUSR1;
use hidewillow::engine::{Rounds, Word};
use hidewillow::store::folder::Folder;
use hidewillow::store::log::LogCounts;
use hidewillow::store::mark::{self, Mark, Owner, Said};
use hidewillow::store::{FramePlace, Next, ReadCounts, Recovery, Refusal, Store, StoreLimits, HEAD};
use std::io::{self, ErrorKind, Read};
use std::os::unix::net::UnixStream;
use std::sync::Arc;
use std::time::Duration;

/// How often it is looked whether somebody leads, and how many rounds are under way at once.
const WAIT: Duration = Duration::from_millis(50);
const ROUNDS: usize = 2;
/// How long what came may wait for more that goes with it into a batch, while more comes.
const GATHERS: Duration = Duration::from_micros(300);

pub struct EtcdLog {
    engine: Engine,
    limits: StoreLimits,
    trusts_clock: bool,
    /// The batches under way.
    under_way: Vec<u64>,
    /// By which it is known that this host led behind what it tells; the last of them that was taken, and how many are under way.
    rounds: Rounds,
    last: u64,
    asked: usize,
    /// Whether nothing was told of the last batch of which something could be.
    is_silent: bool,
    /// Batches that will never be in the log, once this host leads no more, and whether all is wound up.
    is_losing: bool,
    lost: Vec<u64>,
    is_over: bool,
    /// How many keys the log had.
    found: u64,
    counts: LogCounts,
}

/// Feeds batches to the library that has what was before, segment by segment; this is the number behind them.
pub fn recovered(recovery: &mut Recovery, batches: &[Batch], next: u64) -> io::Result<ReadCounts> {
    for batch in batches.iter().filter(|batch| batch.offset == 0) {
        let head = &batch.frame[..HEAD.min(batch.frame.len())];
        recovery.head(batch.segment, head)?;
    }
    for batch in batches {
        recovery.feed(batch.segment, &batch.frame)?;
    }
    let (counts, did) = recovery.end(0, 0);
    did?;
    if counts.next != next || counts.dropped > 0 {
        let words = format!("the log has {} frames, and {} count", next - 1, counts.next - 1);
        return Err(io::Error::new(ErrorKind::InvalidData, words));
    }
    Ok(counts)
}

/// Whether the log goes on behind a snapshot whose next batch is this: what that ends with is in the log, or was cut off; and without a
/// snapshot the log begins at 1, as the first batch of a leadership is decided before any other is sent.
fn goes_on(leadership: &Leadership, log: &ReadLog, first: u64) -> io::Result<()> {
    let words = match first {
        1 if log.cut == 0 && log.gap == 1 && log.behind > 0 => {
            "the log in the engine doesn't begin at batch 1, and no snapshot in the folder stands for what is missing"
                .into()
        }
        2.. if log.cut < first - 1 && !leadership.has(first - 1)? => {
            let last = first - 1;
            format!("the folder has a snapshot up to batch {last}, which the log in the engine doesn't have")
        }
        _ => return Ok(()),
    };
    Err(io::Error::new(ErrorKind::InvalidData, words))
}

/// The log behind a snapshot whose next batch is this, of what was read along and what came since, and how much that is; all behind its gap
/// is deleted. Nothing where this host leads no more, or has too old a snapshot.
fn read_behind(leadership: &Leadership, follower: &Follower, first: u64) -> io::Result<Option<(ReadLog, usize)>> {
    let mut batches = {
        let along = follower.along();
        if along.first == first {
            along.batches.clone()
        } else {
            Vec::new()
        }
    };
    let ahead = first + batches.len() as u64;
    let log = leadership.read_log(ahead)?;
    goes_on(leadership, &log, first)?;
    if log.cut >= ahead || !leadership.fence(log.gap)? {
        return Ok(None);
    }
    let new = log.batches.len();
    batches.extend(log.batches);
    Ok(Some((ReadLog { batches, ..log }, new)))
}

impl EtcdLog {
    /// Recovers the log that a leader has, of what was read along and what came since, and goes on behind it. Nothing where it leads no more.
    fn open(
        engine: Engine,
        options: &Options,
        follower: &Follower,
        mut recovery: Recovery,
        first: u64,
    ) -> io::Result<Option<(Store, EtcdLog)>> {
        let Some((log, new)) = read_behind(&engine.leadership, follower, first)? else { return Ok(None) };
        let ReadCounts { keys, commands, next, .. } = recovered(&mut recovery, &log.batches, log.gap)
            .map_err(|error| io::Error::new(ErrorKind::InvalidData, format!("the log is damaged: {error}")))?;
        let (all, behind) = (next - 1, log.behind);
        say!("{keys} keys, {commands} commands in {all} batches, {new} of them read now, and {behind} behind a gap are deleted");
        let (store, at, head) = Store::open(&mut recovery, &options.limits)?;
        // The first batch is decided before any other is sent.
        let first = engine.leadership.to_put(batch(engine.leadership.revision, &at, &head), 0);
        if at.frame != next || engine.leadership.once(&first, WAIT * 80)?.word != Word::Synced(next) {
            return Ok(None);
        }
        engine.prefer();
        let (trusts_clock, under_way, lost) = (options.trusts_clock, Vec::new(), Vec::new());
        #[rustfmt::skip]
        let log = EtcdLog {
            engine, limits: options.limits, trusts_clock, under_way, rounds: Rounds::new(), last: 0, asked: 0,
            is_silent: false, is_losing: false, lost, is_over: false, found: keys, counts: LogCounts::default(),
        };
        Ok(Some((store, log)))
    }

    /// What came of a batch, or of a round.
    fn came(&mut self, store: &mut Store, Heard { word, round, micros }: Heard) -> io::Result<()> {
        match word {
            Word::Synced(number) => {
                self.still(round)?;
                self.is_silent = false;
                self.under_way.retain(|it| *it != number);
                self.counts.synced(0, micros);
                store.synced(number)?; // [11]
            }
            Word::Again => self.is_silent = true,
            Word::Still(round) => {
                self.still(round)?;
                self.asked -= 1;
            }
            Word::Lost(number) => {
                self.under_way.retain(|it| *it != number);
                self.counts.failures += 1;
                self.lost.push(number);
                self.lose();
            }
            Word::Over => {
                if !self.lose() {
                    say!("leads no more");
                }
            }
            Word::Unknowable(number) => {
                return Err(io::Error::other(format!("nobody can know what came of batch {number}")));
            }
            _ => {
                return Err(io::Error::other("something else writes the keys of the log, so nothing more is answered"))
            }
        }
        Ok(())
    }

    /// The next round, or the last one where nothing waits for another: what is sent or asked for the first time now stands for it.
    fn take(&mut self) -> u64 {
        self.last = self.rounds.take().unwrap_or(self.last);
        self.last
    }

    /// This host led behind a round.
    fn still(&mut self, round: u64) -> io::Result<()> {
        self.rounds.still(round).map_err(io::Error::other)
    }

    /// It leads no more; whether it knew.
    fn lose(&mut self) -> bool {
        self.rounds.lost();
        std::mem::replace(&mut self.is_losing, true)
    }

    /// Once each batch has its word, the first that is lost and all behind are refused, and so is what was never sent: no later leader
    /// has anything of them. Without memory for that it is tried again.
    fn wind_up(&mut self, store: &mut Store) -> io::Result<()> {
        for number in std::mem::take(&mut self.lost) {
            store.failed(number)?; // [12]
        }
        let mut room = vec![0; store.counts().undecided + HEAD];
        match store.lost(&mut room) {
            Err(Refusal::Memory) => (),
            did => {
                did?;
                self.is_over = true;
            }
        }
        Ok(())
    }
}

fn batch(leadership: u64, at: &FramePlace, frame: &[u8]) -> Batch {
    Batch { leadership, number: at.frame, segment: at.segment, offset: at.offset, frame: frame[..at.len].into() }
}

impl Log for EtcdLog {
    fn hear(&mut self, store: &mut Store) -> io::Result<()> {
        while let Some(heard) = self.engine.next_word() {
            self.came(store, heard)?;
        }
        if self.is_losing && !self.is_over && self.under_way.is_empty() {
            self.wind_up(store)?;
        }
        Ok(())
    }

    fn carried_out(&mut self) -> u64 {
        self.rounds.carried_out()
    }

    fn may_tell(&self, mark: u64) -> bool {
        self.rounds.may_tell(mark)
    }

    fn send(&mut self, store: &mut Store) -> io::Result<()> {
        while !self.is_losing && self.under_way.len() < self.limits.in_flight.into() {
            let mut bytes = Vec::new();
            match store.next_frame(false, &mut bytes, 0, u64::MAX)? {
                Next::Frame(at) => {
                    self.counts.bytes += at.len as u64;
                    self.under_way.push(at.frame);
                    let round = self.take(); // [13]
                    self.engine.send(batch(self.engine.leadership.revision, &at, &bytes), round);
                }
                Next::Full => store.turn()?,
                Next::None => break,
            }
        }
        Ok(())
    }

    /// What is read rides on the next batch; a round goes where there is none, or where nothing is told of batches, as by an engine without room.
    fn prove(&mut self, store: &mut Store, mark: u64, may_ask: bool) -> io::Result<()> {
        if self.is_losing || self.rounds.may_tell(mark) {
            return Ok(());
        }
        let is_trusted = self.trusts_clock && self.engine.leadership.runs();
        let rides = !self.is_silent && (self.last > mark || store.counts().next_frame > HEAD);
        if is_trusted || may_ask && !rides && self.asked < ROUNDS {
            let round = self.take();
            if is_trusted && self.engine.leadership.runs() {
                return self.still(round);
            }
            (self.asked, self.counts.rounds) = (self.asked + 1, self.counts.rounds + 1);
            self.engine.round(round);
        }
        Ok(())
    }

    /// A batch costs the engine as much as a single write.
    fn gathers(&self) -> Duration {
        GATHERS
    }

    fn takes(&self) -> bool {
        !self.is_losing
    }

    fn is_over(&self) -> bool {
        self.is_over
    }

    fn counts(&self) -> &LogCounts {
        &self.counts
    }
}

/// Leads whenever nobody does, and serves then, until it is told to stop.
pub fn serve(options: &Options, mut wake: UnixStream, waker: &UnixStream) -> io::Result<()> {
    let folder = Folder(options.folder.clone().into());
    let _lock = folder.lock(options.wait_for_folder, &options.address)?;
    let mut bound = Some(Bound::at(&options.address)?);
    let members = Arc::new(Members::new(options.engine.clone()));
    let (mut woken, mut told, mut warm, mut follows) = ([0; 256], String::new(), None, None);
    loop {
        wake.set_nonblocking(false)?;
        wake.set_read_timeout(Some(WAIT))?;
        let count = wake.read(&mut woken).unwrap_or(0);
        if woken[..count].iter().any(|signal| *signal > 0 && u32::from(*signal) != SIGUSR1) {
            return Ok(());
        }
        let did = match &follows {
            Some((said, follower)) => lead(options, said, &members, waker, follower, &mut warm),
            None => follow(options, &folder, &members).map(|it| {
                follows = Some(it);
                None
            }),
        };
        let (store, log) = match did {
            Ok(Some(it)) => it,
            Ok(None) => continue,
            Err(error) if error.kind() == ErrorKind::InvalidData => return Err(error),
            Err(error) => {
                if told != error.to_string() {
                    told = error.to_string();
                    say!("the engine: {told}");
                }
                continue;
            }
        };
        let listener = bound.take().map_or_else(|| Bound::at(&options.address), Ok)?.listen()?;
        say!("listening on {}", listener.local_addr()?);
        let house = House::new(options.clone(), log.found, Keeper::new(0, host_of(waker.try_clone()?)));
        if !Server::new(house, listener, wake.try_clone()?, store, Box::new(log))?.run()? {
            return Ok(());
        }
    }
}

/// Begins to read along, once the folder and the engine say that they are of one store.
fn follow(options: &Options, folder: &Folder, members: &Members) -> io::Result<(Said, Follower)> {
    let of_another = |what: &str| {
        let words = format!(
            "{}: {what}; start on another folder, or name the engine and the prefix that it is of",
            options.folder
        );
        Err(io::Error::new(ErrorKind::InvalidData, words))
    };
    let said = folder.said()?;
    if said.is_some_and(|said| !said.owner.is_of_engine) {
        return of_another("this folder is of a server whose log is on a disk");
    }
    let is_new = said.is_none();
    let identity = engine::identity(members, &Keys(options.prefix.clone()), is_new)?;
    let said = match said {
        Some(said) if Some(said.owner.identity) != identity => return of_another("the store in the engine is another"),
        Some(said) => said,
        None => {
            let Some(identity) = identity else { return of_another("the engine has no store") };
            let owner = Owner { identity, is_of_engine: true, old_snapshot: folder.newest()?.0, ..Owner::new()? };
            mark::make(folder, owner, Mark::limits(&options.limits))?
        }
    };
    let follower = Follower::start(options, said, members.beside())
        .map_err(|error| io::Error::new(ErrorKind::InvalidData, error))?;
    Ok((said, follower))
}

/// Leads where nobody does, and has the store then; until then the newest snapshot is read, so that this needn't be done then.
fn lead(
    options: &Options,
    said: &Said,
    members: &Arc<Members>,
    waker: &UnixStream,
    follower: &Follower,
    warm: &mut Option<(Recovery, u64)>,
) -> io::Result<Option<(Store, EtcdLog)>> {
    let (first, is_whole) = {
        let along = follower.along();
        (along.first, along.is_whole)
    };
    if !is_whole {
        return Ok(None);
    }
    let (recovery, of) = match warm.take() {
        Some(it) if it.1 == first => it,
        _ => warmed(options, said)?,
    };
    let keys = Keys(options.prefix.clone());
    let Some(engine) = Engine::lead(members.clone(), &keys, options.lease, host_of(waker.try_clone()?))? else {
        *warm = Some((recovery, of));
        return Ok(None);
    };
    follower.along().leads = Arc::downgrade(&engine.leadership);
    EtcdLog::open(engine, options, follower, recovery, of)
}
