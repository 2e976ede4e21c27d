//! What stands beside the loop: it looks at counts, wishes for snapshots, says for what there is no room, and when a stop is over.
use crate::door::Guest;
use crate::keeper::Keeper;
use crate::options::Options;
use crate::server::{Server, State};
use crate::trusted::channels::Client;
use crate::trusted::system::{self, SIGUSR1};
use hidewillow::store::StoreCounts;
use std::io;
use std::time::{Duration, Instant};

/// How long a stop waits for the disk and for clients.
const PATIENCE: Duration = Duration::from_secs(10);
/// Nothing more is carried out for a client for whom more bytes than these wait; and where memory is short.
const UNSENT: usize = 1 << 20;
const LITTLE: usize = 1 << 16;
/// Memory is given back where so much waited for clients, and not a quarter of it does any more.
const MUCH: usize = 32 << 20;
/// How often it is looked who says nothing.
pub const SWEPT: Duration = Duration::from_secs(1);
/// How often it is looked how much memory is used.
const WEIGHED: Duration = Duration::from_millis(100);

/// Something that is said once a minute at the most.
#[derive(Default)]
pub struct Seldom(Option<Instant>);

impl Seldom {
    pub fn may(&mut self) -> bool {
        let may = self.0.is_none_or(|last| last.elapsed() > Duration::from_secs(60));
        self.0 = if may { Some(Instant::now()) } else { self.0 };
        may
    }
}

pub struct House {
    pub options: Options,
    /// How many keys there were when they were counted last, when that was, and how many commands came before.
    pub keys: (u64, Instant, u64),
    pub keeper: Keeper,
    /// Channels that wait to be answered until more is decided.
    pub waiting: Vec<u16>,
    /// How many clients came, and how many commands.
    pub connected: u64,
    pub commands: u64,
    /// Batches that are logged, those that were refused, those that a cut kept, and keys that were taken back.
    pub logged: u64,
    pub refused: u64,
    pub kept: usize,
    pub taken_back: usize,
    /// Wrong passwords, web pages, clients that weren't let in, those ended as too much waited for them, and as they said nothing.
    pub wrong: u64,
    pub of_web: u64,
    pub turned_away: u64,
    pub owed: u64,
    pub silent: u64,
    /// When each of these was last said, where it is.
    pub said: [Seldom; 4],
    pub begun: Instant,
    /// When memory was last looked at, and how much it was without what waits for clients; when it was looked who says nothing, and
    /// who did since much was shown.
    weighed: (Instant, u64),
    swept: Instant,
    relieved: Instant,
    /// The most that waited for clients since memory was given back.
    peak: usize,
    /// Until when a stop waits.
    stopping: Option<Instant>,
}

impl House {
    #[rustfmt::skip]
    pub fn new(options: Options, keys: u64, keeper: Keeper) -> House {
        let begun = Instant::now();
        House {
            options, keys: (keys, begun, 0), keeper, waiting: Vec::new(), connected: 0, commands: 0, logged: 0, refused: 0,
            kept: 0, taken_back: 0, wrong: 0, of_web: 0, turned_away: 0, owed: 0, silent: 0, said: Default::default(), begun,
            weighed: (begun, 0), swept: begun, relieved: begun, peak: 0, stopping: None,
        }
    }

    /// A client that came.
    pub fn guest(&mut self) -> Guest {
        self.connected += 1;
        Guest::new(self.connected, self.options.password.is_empty())
    }

    /// How many batches are decided.
    pub fn decided(&self) -> u64 {
        self.logged + self.refused
    }

    /// Half of what may be undecided.
    pub fn half(&self) -> usize {
        self.options.limits.undecided as usize / 2
    }

    /// Whether so much is undecided that what writes waits.
    pub fn is_pressed(&self, counts: &StoreCounts) -> bool {
        counts.undecided > self.half()
    }

    /// Whether as much memory is used as may be, with what waits for clients now.
    pub fn is_heavy(&self, waiting: usize) -> bool {
        self.options.memory > 0 && self.weighed.1 + waiting as u64 > self.options.memory
    }

    /// Nothing more is carried out for a client for whom more bytes than these wait.
    pub fn most_owed(&self, waiting: usize) -> usize {
        if self.is_heavy(waiting) {
            LITTLE
        } else {
            UNSENT
        }
    }
}

impl Server {
    /// What is done beside, in each turn.
    pub fn attend(&mut self) -> io::Result<()> {
        self.answer_waiting();
        let house = &self.house;
        if house.options.memory > 0 && !house.keeper.is_keeping && house.weighed.0.elapsed() > WEIGHED {
            self.weigh();
        }
        let (house, waiting) = (&mut self.house, self.channels.waiting());
        house.peak = house.peak.max(waiting);
        if house.peak > MUCH && waiting < house.peak / 4 {
            house.peak = waiting;
            system::give_memory_back();
        }
        self.sweep();
        self.keep()
    }

    /// Looks how much memory is used, beside what waits for clients.
    pub fn weigh(&mut self) {
        let beside = system::memory().saturating_sub(self.channels.waiting() as u64);
        self.house.weighed = (Instant::now(), beside);
    }

    /// Ends clients that say nothing for too long, and take nothing, while nothing is done for them.
    fn sweep(&mut self) {
        let Some(timeout) = self.house.options.timeout else { return };
        if self.house.swept.elapsed() < timeout.min(SWEPT) {
            return;
        }
        self.house.swept = Instant::now();
        let is_silent = |client: &Client| {
            let waits = matches!(client.guest.state, State::Free | State::Lacks) && client.owes() == client.waits().0;
            waits && client.guest.heard.elapsed() > timeout
        };
        let silent: Vec<u16> =
            self.channels.clients().filter(|(_, it)| is_silent(it)).map(|(channel, _)| channel).collect();
        self.house.silent += silent.len() as u64;
        for channel in silent {
            self.lose(channel);
        }
    }

    /// Has the store let go of the room that it keeps for those who got much, and said nothing since, and took nothing. All that may go out was
    /// taken out.
    pub fn relieve(&mut self) {
        if !self.is_roomy || self.house.relieved.elapsed() < SWEPT {
            return;
        }
        self.house.relieved = Instant::now();
        let (decided, roomy) = (self.settled(), self.channels.clients().filter(|(_, client)| client.keeps_room()));
        let roomy: Vec<_> = roomy.map(|(channel, client)| (channel, client.guest.heard.elapsed() >= SWEPT)).collect();
        self.is_roomy = !roomy.is_empty();
        for (channel, _) in roomy.into_iter().filter(|(_, is_silent)| *is_silent) {
            if !self.channels.renew(channel, decided) {
                self.lose(channel);
            }
        }
    }

    /// A signal came: one asks for counts, each other is to stop.
    pub fn signalled(&mut self, signal: u8) {
        if u32::from(signal) == SIGUSR1 {
            return say!("{}", self.info(&[]));
        }
        say!("stopping");
        self.house.stopping = Some(Instant::now() + PATIENCE);
        self.close();
    }

    /// At a stop, whether all that came is decided and answered, or it has waited long enough.
    pub fn is_over(&mut self) -> io::Result<bool> {
        let Some(until) = self.house.stopping else { return Ok(false) };
        let (is_late, undecided) = (Instant::now() > until, self.channels.counts().undecided);
        if is_late && undecided > 0 {
            return Err(io::Error::other(format!("{undecided} bytes of writes are undecided, and were not answered")));
        }
        let mut clients = self.channels.clients();
        Ok(is_late || undecided == 0 && clients.all(|(_, client)| client.waits().0 == 0))
    }
}
