//! The loop: whom it hears, in which order, and when a connection ends. What it moves `trusted::channels` moves.
use crate::door::Guest;
use crate::gather::Gathering;
use crate::guard::Doorway;
use crate::house::{House, SWEPT};
use crate::trusted::channels::{Channels, Fed};
use crate::trusted::frames::Log;
use crate::trusted::system::Poll;
use hidewillow::store::{Decision, Store};
use std::io::{self, ErrorKind, Read};
use std::mem;
use std::net::TcpListener;
use std::os::unix::net::UnixStream;
use std::time::{Duration, Instant};

pub const LISTENER: u64 = 1 << 32;
const WAKE: u64 = LISTENER + 1;
/// How many requests of a client are carried out before others have their turn.
const TURN: usize = 64;
/// How long those who sent something are heard until others have their turn, where much is to be done.
const SPAN: Duration = Duration::from_millis(10);
/// How long it is waited at the most where something may go on that nobody tells of.
const PATIENCE: Duration = Duration::from_millis(100);

/// What a client waits for.
#[derive(Clone, Copy, Default, PartialEq)]
pub enum State {
    /// That what came of it is fed, now, or once more has come, or more is decided.
    #[default]
    Free,
    Lacks,
    Full,
    /// What its host tells; and that a while has gone since it said a wrong password.
    Asked,
    Late,
    /// Nothing: it ends once this batch is decided and all is sent, or now.
    Ends(u64),
    Gone,
}

pub struct Server {
    /// What stands beside.
    pub house: House,
    pub channels: Channels,
    pub poll: Poll,
    pub doorway: Doorway,
    wake: UnixStream,
    /// Channels that sent something just now; that have bytes to be fed; those of them that wait until more is decided; that may have
    /// something to be written, and that end.
    came: Vec<u16>,
    pub later: Vec<u16>,
    full: Vec<u16>,
    pub touched: Vec<u16>,
    ending: Vec<u16>,
    /// Whether there is one for which the store keeps much room.
    pub is_roomy: bool,
    /// Decisions left old values that are to be dropped.
    has_old: bool,
    /// Whether the store was told an answer since its output was taken.
    has_told: bool,
    /// Until when what came waits for more to go with it.
    gathering: Gathering,
    gathers: Option<Instant>,
}

impl Server {
    /// Serves clients of a listener. A byte that comes to be woken by is a signal's number, or 0.
    pub fn new(
        house: House,
        listener: TcpListener,
        wake: UnixStream,
        store: Store,
        log: Box<dyn Log>,
    ) -> io::Result<Server> {
        let (poll, channels) = (Poll::new()?, Channels::new(store, log));
        listener.set_nonblocking(true)?;
        wake.set_nonblocking(true)?;
        poll.ask(true, &listener, LISTENER, (true, false))?;
        poll.ask(true, &wake, WAKE, (true, false))?;
        let (came, later, full, touched, ending) = (Vec::new(), Vec::new(), Vec::new(), Vec::new(), Vec::new());
        let gathering = Gathering::new(channels.log().gathers());
        let (doorway, gathers) = (Doorway::new(listener), None);
        let (has_told, is_roomy, has_old) = (false, false, false);
        Ok(Server {
            house,
            channels,
            poll,
            doorway,
            wake,
            came,
            later,
            full,
            touched,
            ending,
            is_roomy,
            has_old,
            has_told,
            gathering,
            gathers,
        })
    }

    /// Serves until it is told to stop, or the log is over: then it is told so.
    pub fn run(mut self) -> io::Result<bool> {
        while !self.is_over()? && !self.channels.log().is_over() {
            self.poll()?;
            self.channels.hear()?;
            self.decide();
            self.has_old = self.channels.let_go_of_old();
            self.go_on();
            self.feed_all();
            self.gathers = self.gathering.until().filter(|_| self.full.is_empty());
            if self.gathers.is_none() {
                self.channels.send()?;
                self.gathering.is_given();
            }
            self.take_output();
            self.attend()?;
            // Nothing else may come that would have it taken.
            if mem::take(&mut self.has_told) {
                self.take_output();
            }
            self.relieve();
            self.touched.extend(self.channels.prove(self.gathers.is_none())?);
            self.touched.extend(&self.ending);
            self.touched.sort_unstable();
            self.touched.dedup();
            for channel in mem::take(&mut self.touched) {
                self.write(channel);
            }
            let channels = &mut self.channels;
            self.ending.retain(|channel| channels.client(*channel).is_some());
        }
        self.channels.let_go()?;
        Ok(self.channels.log().is_over())
    }

    /// How long it is waited for something to be done.
    fn patience(&self) -> Option<Duration> {
        let now = Instant::now();
        let until = self.gathers.into_iter().chain(self.doorway.until());
        let waits = until.map(|until| until.saturating_duration_since(now));
        let is_watched = !self.full.is_empty() || self.doorway.is_closed();
        let watched = is_watched.then_some(PATIENCE).filter(|_| self.gathers.is_none());
        let swept = self.house.options.timeout.map(|timeout| timeout.min(SWEPT));
        let roomy = self.is_roomy.then_some(SWEPT);
        let now = (!self.later.is_empty() || self.has_old).then_some(Duration::ZERO);
        waits.chain(watched).chain(swept).chain(roomy).chain(now).min()
    }

    /// Waits until something is to be done, and reads what came.
    fn poll(&mut self) -> io::Result<()> {
        for (of, is_read) in self.poll.wait(self.patience())? {
            match of {
                LISTENER => self.accept(),
                WAKE => {
                    let mut woken = [0; 256];
                    let count = self.wake.read(&mut woken).unwrap_or(0);
                    woken[..count].iter().filter(|byte| **byte > 0).for_each(|signal| self.signalled(*signal));
                }
                channel if is_read => self.read(channel as u16),
                channel => self.touched.push(channel as u16),
            }
        }
        self.tend_doorway();
        Ok(())
    }

    /// Those who waited until more is decided go on.
    fn go_on(&mut self) {
        for channel in mem::take(&mut self.full) {
            if let Some(guest) = self.guest(channel).filter(|guest| guest.state == State::Full) {
                guest.state = State::Free;
                self.later.push(channel);
            }
        }
    }

    /// Reads what came, which is fed then. Who sends nothing more is told all that it asked for.
    fn read(&mut self, channel: u16) {
        let did = self.channels.read(channel);
        let Some(guest) = self.guest(channel) else { return };
        match did {
            Ok(1..) => {
                guest.heard = Instant::now();
                if guest.state == State::Lacks {
                    guest.state = State::Free;
                }
            }
            Err(error) if error.kind() == ErrorKind::WouldBlock => return,
            Ok(0) if !guest.has_ended => guest.has_ended = true,
            Ok(0) | Err(_) => guest.state = State::Gone,
        }
        self.gathering.asks(channel);
        self.came.push(channel);
    }

    /// Feeds what came just now, and then what waited for its turn, each for a while: who is left has a turn the next time.
    fn feed_all(&mut self) {
        let (came, later) = (mem::take(&mut self.came), mem::take(&mut self.later));
        for mut channels in [came, later].map(Vec::into_iter) {
            let until = Instant::now() + SPAN;
            for channel in channels.by_ref() {
                self.feed(channel, until);
                if Instant::now() > until {
                    break;
                }
            }
            self.later.splice(..0, channels);
        }
    }

    /// Feeds what came on a channel, as far as it is taken now: the rest comes again.
    fn feed(&mut self, channel: u16, until: Instant) {
        let decided = self.settled();
        let _ = self.channels.client(channel).map(|client| client.settle(decided));
        for _ in 0..TURN {
            let most = self.house.most_owed(self.channels.waiting());
            let Some(client) = self.channels.client(channel) else { return };
            if client.guest.state != State::Free || !client.has_come() {
                break;
            }
            let fed = match client.owes() <= most && self.channels.log().takes() {
                true => self.channels.feed(channel, &self.house),
                false => Fed::Full,
            };
            self.gathering.waits();
            self.house.commands += u64::from(matches!(fed, Fed::Done | Fed::Shows | Fed::Asked));
            let is_late = matches!(fed, Fed::Shows) && Instant::now() > until;
            self.has_fed(channel, fed);
            if is_late {
                break;
            }
        }
        let is_closed = self.channels.is_closed(channel);
        match self.guest(channel).map(|guest| guest.state) {
            Some(State::Free) if is_closed => self.end(channel),
            Some(State::Ends(_)) => self.ending.push(channel),
            _ => (),
        }
        self.touched.push(channel);
    }

    /// What came of feeding.
    fn has_fed(&mut self, channel: u16, fed: Fed) {
        let Some(guest) = self.guest(channel) else { return };
        match fed {
            Fed::Done => (),
            Fed::Part if guest.leaves => guest.state = State::Ends(0),
            Fed::Part if mem::take(&mut guest.is_wrong) => self.delay(channel),
            Fed::Part => (),
            Fed::Lacks => guest.state = State::Lacks,
            Fed::Full => {
                guest.state = State::Full;
                self.full.push(channel);
            }
            Fed::Over => guest.state = State::Gone,
            Fed::Web => self.ends_web(channel),
            Fed::Owed => self.ends_owed(channel),
            Fed::Shows => self.take(channel),
            Fed::Asked => {
                guest.state = State::Asked;
                self.answer(channel);
            }
        }
    }

    /// Takes what may go out of all channels.
    fn take_output(&mut self) {
        let mut last = None;
        while let Some(channel) = self.channels.next_ready() {
            // What is named again though it was taken is of no use to anyone.
            if last.replace(channel) == Some(channel) {
                self.lose(channel);
                self.channels.hang_up(channel);
            }
            self.take(channel);
        }
    }

    /// Takes what may go out of a channel. Who can't be told for want of memory is ended, and so is who is owed too much.
    pub fn take(&mut self, channel: u16) {
        self.touched.push(channel);
        let (did, most) = (self.channels.take(channel), self.house.options.output);
        let Some(client) = self.channels.client(channel) else { return };
        let is_right = client.guest.ahead.as_ref().is_none_or(|ahead| ahead.is_right());
        if client.waits().0 > most {
            self.ends_owed(channel);
        } else if !did || !is_right {
            client.guest.state = State::Gone;
        }
        if !did {
            self.lose(channel);
        }
    }

    /// Decides what can be.
    fn decide(&mut self) {
        let refused = self.house.refused;
        while let Some(decision) = self.channels.decide() {
            match decision {
                Decision::Logged(_) => self.house.logged += 1,
                Decision::CutOff { keys, .. } => {
                    self.house.refused += 1;
                    self.house.taken_back += keys;
                }
            }
        }
        if self.house.refused > refused {
            self.house.kept += self.channels.counts().open_batches;
        }
    }

    /// Writes what waits for a client, and ends the connection where nothing more will.
    fn write(&mut self, channel: u16) {
        let most = self.house.most_owed(self.channels.waiting());
        self.send(channel);
        let Some(client) = self.channels.client(channel) else { return };
        let ((waits, left), is_behind) = (client.waits(), client.is_behind());
        if client.guest.has_ended && is_behind && matches!(client.guest.state, State::Free | State::Lacks) {
            self.end(channel);
        }
        let Some(client) = self.channels.client(channel) else { return };
        let (state, owes, has_ended) = (client.guest.state, client.owes(), client.guest.has_ended);
        let is_heard = matches!(state, State::Free | State::Lacks) && !self.doorway.is_closed();
        if is_heard && !is_behind {
            match owes <= most {
                true => self.later.push(channel),
                false => self.has_fed(channel, Fed::Full),
            }
        }
        let asks = (is_heard && is_behind && owes <= most && !has_ended, left > 0 && state != State::Late);
        let is_over = match state {
            State::Gone => true,
            State::Ends(batch) => waits == 0 && self.is_decided(batch),
            _ => false,
        };
        if is_over || self.asks(channel, asks).is_err() {
            self.channels.hang_up(channel);
            self.doorway.may_open();
        }
    }

    /// Sends what may be sent to a client, and lets go of what is of no use any more.
    fn send(&mut self, channel: u16) {
        let decided = self.settled();
        let Some(client) = self.channels.client(channel) else { return };
        let free = client.waits().1;
        if !matches!(client.guest.state, State::Gone | State::Late) && client.write().is_err() {
            client.guest.state = State::Gone;
        }
        client.tidy();
        client.settle(decided);
        if client.waits().1 < free {
            client.guest.heard = Instant::now();
            self.gathering.is_answered(channel);
        }
        self.is_roomy |= client.keeps_room();
    }

    /// Waits for a client's socket to be read and to be written, or not.
    fn asks(&mut self, channel: u16, asks: (bool, bool)) -> io::Result<()> {
        let Some(client) = self.channels.client(channel) else { return Ok(()) };
        if mem::replace(&mut client.guest.asks, asks) == asks {
            return Ok(());
        }
        self.poll.ask(false, &client.fd(), channel.into(), asks)
    }
}

/// What is asked of it beside.
impl Server {
    /// What it knows of a client.
    pub fn guest(&mut self, channel: u16) -> Option<&mut Guest> {
        Some(&mut self.channels.client(channel)?.guest)
    }

    /// The last batch of those that have what was fed up to now, as they are decided one after the other.
    pub fn batch(&mut self) -> u64 {
        self.house.decided() + self.channels.counts().open_batches as u64
    }

    /// Whether all up to a batch is decided.
    pub fn is_decided(&mut self, batch: u64) -> bool {
        self.settled() >= batch
    }

    /// The batch up to which all is decided.
    pub fn settled(&mut self) -> u64 {
        match self.channels.counts().undecided {
            0 => u64::MAX,
            _ => self.house.decided(),
        }
    }

    /// Ends a connection, whatever waits for it.
    pub fn lose(&mut self, channel: u16) {
        let _ = self.guest(channel).map(|guest| guest.state = State::Gone);
        self.touched.push(channel);
    }

    /// Tells the answer of what a channel asks, which goes out in its turn.
    pub fn tell(&mut self, channel: u16, text: &[u8]) {
        let did = self.channels.tell(channel, text);
        self.is_told(channel, did);
    }

    /// The answer of what a channel asks is told, unless there was no memory.
    pub fn is_told(&mut self, channel: u16, did: bool) {
        self.has_told = true;
        let Some(guest) = self.guest(channel) else { return };
        if !did {
            guest.state = State::Gone;
        } else if guest.state == State::Asked {
            guest.state = State::Free;
        }
        self.touched.push(channel);
    }

    /// Takes nothing more of a client, which ends once what it is to be told is sent.
    pub fn end(&mut self, channel: u16) {
        let batch = self.batch();
        if let Some(guest) = self.guest(channel) {
            guest.state = State::Ends(batch);
            self.ending.push(channel);
        }
    }

    /// Takes nothing more of anyone.
    pub fn close(&mut self) {
        self.doorway.close();
        self.touched.extend(self.channels.clients().map(|(channel, _)| channel));
    }
}
