//! Sockets to channels of the store, and channels to sockets.
use super::frames::Log;
use super::replies::{Replies, Waiting};
use crate::ahead::REFUSAL;
use crate::door::{Guest, LONGEST};
use crate::house::House;
use crate::request::{words, Does, Front, Lack};
use crate::server::State;
use hidewillow::store::log::{Closed, Room};
use hidewillow::store::{Decision, Fed as Taken, Refusal, Request, Store, StoreCounts};
use std::collections::{BTreeSet, VecDeque};
use std::io::{self, Read};
use std::mem;
use std::net::TcpStream;
use std::os::fd::{AsRawFd, RawFd};

/// So much room is kept for bytes of a client where none wait.
const ROOM: usize = 1 << 12;
/// What shows so many bytes or fewer is taken out with others; and what is told without showing anything has fewer.
const SHORT: usize = 1 << 12;
const TOLD: usize = 32;

/// Old values of so many keys are dropped a turn: what comes waits for no more.
const OLD: usize = 1000;

/// A channel that had so many bytes to show at once keeps room for them: it is given up for another once the store has nothing of it.
const MUCH: usize = 1 << 16;

/// What the store has had of a client: nothing, whole requests, or behind these the front of one.
#[derive(PartialEq)]
enum Had {
    Nothing,
    Whole,
    Part,
}

/// What came of feeding.
pub enum Fed {
    /// A request was carried out, and what it shows is long; or is asked of the host; or it was answered at the door, or asks nothing.
    Done,
    Shows,
    Asked,
    Part,
    /// There is nothing, or more is to come first; no more is taken of it until more is decided; and never.
    Lacks,
    Full,
    Over,
    /// Nor of this one, which is a web page's; or to which more would be owed than may wait.
    Web,
    Owed,
}

/// The request that is fed next, or bytes in which none is read: what it may do, how many bytes and words it has, and those that it shows.
#[derive(Clone, Copy)]
struct Next {
    does: Does,
    len: usize,
    words: usize,
    shows: usize,
}

/// A connection, and what stands beside knows of it.
pub struct Client {
    pub guest: Guest,
    socket: TcpStream,
    had: Had,
    /// What came, how much of it is fed, and how far the request behind that is read; and the mark of what was carried out last.
    came: Vec<u8>,
    taken: usize,
    front: Front,
    mark: u64,
    replies: Replies,
    /// What the store may have for it until a batch is decided, in bytes, and all of these.
    owed: VecDeque<(u64, usize)>,
    owes: usize,
    /// The batch that may have what was fed last, and how many bytes its channel showed at once, at the most.
    last: u64,
    shown: usize,
}

impl Client {
    pub fn fd(&self) -> RawFd {
        self.socket.as_raw_fd()
    }

    /// Whether there is something to be fed.
    pub fn has_come(&self) -> bool {
        self.taken < self.came.len()
    }

    /// Whether more is to come before something is fed.
    pub fn is_behind(&self) -> bool {
        !self.has_come() || self.guest.state == State::Lacks
    }

    /// How many bytes wait to be sent, and how many of them may be now.
    pub fn waits(&self) -> (usize, usize) {
        self.replies.waits()
    }

    /// How many bytes wait for it, here, in the store, and of what it was sent ahead.
    pub fn owes(&self) -> usize {
        self.waits().0 + self.owes + self.guest.ahead.as_ref().map_or(0, |ahead| ahead.bytes)
    }

    /// All up to a batch is decided, so that the store has nothing of it any more.
    pub fn settle(&mut self, decided: u64) {
        while let Some((_, bytes)) = self.owed.pop_front_if(|(batch, _)| *batch <= decided) {
            self.owes -= bytes;
        }
    }

    /// Whether the store keeps much room for it.
    pub fn keeps_room(&self) -> bool {
        self.shown > MUCH
    }

    /// Whether the store has nothing of it, where all up to a batch is decided and was taken out: no part of a request, and no queue.
    fn is_done(&self, decided: u64) -> bool {
        let guest = &self.guest;
        let is_told = guest.ahead.as_ref().is_none_or(|ahead| ahead.waiting.is_empty());
        let waits = matches!(guest.state, State::Free | State::Lacks | State::Full);
        waits && is_told && self.last <= decided && self.had != Had::Part && guest.queue.is_none()
    }

    /// So many bytes of it are taken out of the store.
    fn was_told(&mut self, mut bytes: usize) {
        while let Some((_, first)) = self.owed.front_mut().filter(|_| bytes > 0) {
            let part = bytes.min(*first);
            (*first, self.owes, bytes) = (*first - part, self.owes - part, bytes - part);
            self.owed.pop_front_if(|(_, first)| *first == 0);
        }
    }

    /// The store may have so many bytes for it until a batch is decided.
    fn is_owed(&mut self, batch: u64, bytes: usize) {
        match self.owed.back_mut().filter(|(last, _)| *last == batch) {
            Some((_, all)) => *all += bytes,
            None => self.owed.push_back((batch, bytes)),
        }
        self.owes += bytes;
    }

    /// What is fed next; or what came of it without.
    fn next(&mut self, house: &House) -> Result<Next, Fed> {
        let (rest, is_in) = (&self.came[self.taken..], self.guest.is_in);
        let longest = if is_in { house.options.limits.bytes + LONGEST } else { LONGEST };
        let unread = Next { does: Does::Unknown, len: rest.len(), words: 1, shows: 0 };
        if rest.is_empty() || self.had == Had::Part {
            return if rest.is_empty() { Err(Fed::Lacks) } else { Ok(unread) };
        }
        match self.front.read(rest) {
            Ok(request) => {
                let line = (rest[0] != b'*').then(|| &rest[..request.len]);
                match request.does(line) {
                    Does::Web => Err(Fed::Web),
                    does => Ok(Next { does, len: request.len, words: request.words, shows: 0 }),
                }
            }
            Err(Lack::Part) if rest.len() <= longest => Err(Fed::Lacks),
            Err(_) if is_in => Ok(unread),
            Err(_) => Err(Fed::Over),
        }
    }

    /// The bytes of what is fed next.
    fn bytes(&self, next: &Next) -> &[u8] {
        &self.came[self.taken..][..next.len]
    }

    /// So much of what came is fed, or answered here.
    fn has_fed(&mut self, count: usize) {
        (self.taken, self.front) = (self.taken + count, Front::default()); // [6]
    }

    /// Answers what is said at the door.
    fn greet(&mut self, next: &Next, house: &House) -> Result<Fed, Fed> {
        if self.had != Had::Nothing {
            return Err(Fed::Over);
        }
        let words = words(&self.came[self.taken..][..next.len]);
        let told = self.guest.greet(&words, &house.options);
        self.put(&told, 0, true);
        self.has_fed(next.len);
        Ok(Fed::Part)
    }

    /// Has bytes sent once those before are, and what has this mark may be told, as its version of the protocol has them.
    fn put(&mut self, bytes: &[u8], mark: u64, may_tell: bool) {
        match &mut self.guest.nulls {
            None => self.replies.put(bytes, mark, may_tell), // [7]
            Some(nulls) => self.replies.put(&nulls.told(bytes), mark, may_tell), // [7]
        }
    }

    /// An answer that stands ahead of what goes out, where the client wishes so.
    fn send_ahead(&mut self, text: &[u8]) {
        if let Some(sent) = self.guest.ahead.as_mut().map(|ahead| ahead.sent(text)) {
            self.put(&sent, 0, true);
        }
    }

    /// Where it is, and where it came to.
    pub fn ends(&self) -> [String; 2] {
        [self.socket.peer_addr(), self.socket.local_addr()].map(|at| at.map_or(String::new(), |at| at.to_string()))
    }

    /// How many bytes of what came are not fed yet.
    pub fn unfed(&self) -> usize {
        self.came.len() - self.taken
    }

    /// Sends what may be sent, as much as the socket takes.
    pub fn write(&mut self) -> io::Result<()> {
        self.replies.write(&self.socket) // [7]
    }

    /// Lets go of what was fed, where that is most of what came, and of room that nothing uses.
    pub fn tidy(&mut self) {
        if self.taken * 2 >= self.came.len() {
            self.came.drain(..mem::take(&mut self.taken));
        }
        if self.came.is_empty() {
            self.came.shrink_to(ROOM);
        }
    }
}

/// The clients of channels, each in its place.
#[derive(Default)]
struct Clients {
    places: Vec<Option<Box<Client>>>,
    count: usize,
}

impl Clients {
    fn get(&self, channel: u16) -> Option<&Client> {
        self.places.get(usize::from(channel))?.as_deref()
    }

    fn get_mut(&mut self, channel: u16) -> Option<&mut Client> {
        self.places.get_mut(usize::from(channel))?.as_deref_mut()
    }

    fn insert(&mut self, channel: u16, client: Client) {
        let place = usize::from(channel);
        self.places.resize_with(self.places.len().max(place + 1), || None);
        self.count += usize::from(self.places[place].replace(Box::new(client)).is_none());
    }

    fn remove(&mut self, channel: u16) {
        let gone = self.places.get_mut(usize::from(channel)).and_then(Option::take);
        self.count -= usize::from(gone.is_some());
    }
}

/// A store, its log, and the clients of its channels; and the channels that may have something that is held back until its mark may be told.
pub struct Channels {
    store: Store,
    log: Box<dyn Log>,
    clients: Clients,
    held: BTreeSet<u16>,
    waiting: Waiting,
    /// A room for what sockets read and channels put out.
    room: Vec<u8>,
}

impl Channels {
    pub fn new(store: Store, log: Box<dyn Log>) -> Channels {
        let (clients, held, waiting) = (Clients::default(), BTreeSet::new(), Waiting::default());
        Channels { store, log, clients, held, waiting, room: vec![0; 1 << 18] }
    }

    /// Gives a connection a channel, or back, where there is none.
    pub fn connect(&mut self, socket: TcpStream, guest: Guest) -> Result<u16, TcpStream> {
        let Ok(channel) = self.store.connect() else { return Err(socket) };
        #[rustfmt::skip]
        let client = Client {
            guest, socket, had: Had::Nothing, came: Vec::new(), taken: 0, front: Front::default(), mark: 0,
            replies: Replies::new(self.waiting.clone()), owed: VecDeque::new(), owes: 0, last: 0, shown: 0,
        };
        self.clients.insert(channel, client);
        Ok(channel)
    }

    /// Lets go of a connection and its channel.
    pub fn hang_up(&mut self, channel: u16) {
        self.clients.remove(channel);
        self.store.hang_up(channel);
    }

    /// Gives a client a channel in the place of its own, where that keeps much room and the store has nothing of it: all up to a batch is decided,
    /// and was taken out. Whether it has one: its number is the last that was given back.
    pub fn renew(&mut self, channel: u16, decided: u64) -> bool {
        let is_due = |client: &&mut Client| client.keeps_room() && client.is_done(decided);
        let Some(client) = self.clients.get_mut(channel).filter(is_due) else { return true };
        client.shown = 0;
        self.store.hang_up(channel);
        let Ok(given) = self.store.connect() else { return false };
        if given != channel {
            self.store.hang_up(given);
        }
        given == channel // [6]
    }

    pub fn client(&mut self, channel: u16) -> Option<&mut Client> {
        self.clients.get_mut(channel)
    }

    pub fn clients(&self) -> impl Iterator<Item = (u16, &Client)> {
        let places = (0..).zip(&self.clients.places);
        places.filter_map(|(channel, client)| Some((channel, client.as_deref()?)))
    }

    /// How many there are; and how many bytes wait for all of them.
    pub fn count(&self) -> usize {
        self.clients.count
    }

    pub fn waiting(&self) -> usize {
        self.waiting.get()
    }

    /// Reads what came: how many bytes, and 0 at the end.
    pub fn read(&mut self, channel: u16) -> io::Result<usize> {
        let client = self.clients.get_mut(channel).ok_or(io::ErrorKind::NotFound)?;
        let count = client.socket.read(&mut self.room)?;
        client.came.extend_from_slice(&self.room[..count]);
        Ok(count)
    }

    /// Feeds the request that is at the front of what came on a channel.
    pub fn feed(&mut self, channel: u16, house: &House) -> Fed {
        self.try_to_feed(channel, house).unwrap_or_else(|fed| fed)
    }

    fn try_to_feed(&mut self, channel: u16, house: &House) -> Result<Fed, Fed> {
        let client = self.clients.get_mut(channel).ok_or(Fed::Over)?;
        let mut next = client.next(house)?;
        if !client.guest.is_in {
            return client.greet(&next, house);
        }
        let is_settled = client.owed.is_empty() && client.guest.ahead.is_none() && client.guest.queue.is_none();
        let counts = self.store.counts();
        let instead = self.admitted(channel, &next, &counts, house)?;
        // It may be the first of the next batch.
        let batch = house.decided() + counts.open_batches as u64 + 1;
        let _ = self.clients.get_mut(channel).map(|client| client.last = batch);
        if is_settled && next.does == Does::Shows && next.words == 2 {
            return self.show(channel, &next, batch);
        }
        next.shows = self.shows(channel, &next).ok_or(Fed::Over)?;
        if next.shows > house.options.output {
            return Err(Fed::Owed);
        }
        let fed = self.carry_out(channel, &next, instead)?;
        if let Some(client) = self.clients.get_mut(channel) {
            client.is_owed(batch, next.shows.max(TOLD));
        }
        Ok(fed)
    }

    /// Feeds what shows a key to a client of which the store has nothing, which is told at once, unless that depends on something.
    fn show(&mut self, channel: u16, next: &Next, batch: u64) -> Result<Fed, Fed> {
        let begin = self.clients.get(channel).map_or(0, |client| client.taken);
        let fed = self.carry_out(channel, next, None)?;
        let waited = self.waiting.get();
        let has_memory = self.take(channel);
        let shown = self.waiting.get() - waited;
        if let Some(client) = self.clients.get_mut(channel).filter(|_| shown == 0) {
            let words = words(&client.came[begin..][..next.len]);
            let bytes = words.last().map_or(0, |key| self.store.value_bytes(key));
            client.is_owed(batch, bytes + TOLD);
        }
        Ok(if shown > SHORT || !has_memory { Fed::Shows } else { fed })
    }

    /// What is fed in the place of a request, if it is to be; or it waits: what may write, until half of what may be undecided is,
    /// and as there is no room for it yet. As large a request as may be may be undecided too; of a larger queue the store tells so.
    fn admitted(
        &mut self,
        channel: u16,
        next: &Next,
        counts: &StoreCounts,
        house: &House,
    ) -> Result<Option<&'static [u8]>, Fed> {
        let guest = &self.clients.get(channel).ok_or(Fed::Over)?.guest;
        let (is_queued, is_pressed) = (guest.queue.is_some(), house.is_pressed(counts));
        let writes = match next.does {
            Does::Adds | Does::TakesAway => Some(next.len),
            Does::CarriesOut if guest.queue.is_some_and(|queue| queue.writes) => Some(0),
            Does::Unknown if is_pressed => return Err(Fed::Full),
            _ => None,
        };
        let room = writes.map_or(Room::Is, |bytes| {
            let all = (bytes + self.store.queued(channel)).min(house.half());
            self.log.room(&mut self.store, all, next.does == Does::TakesAway)
        });
        let instead = guest.instead(next.does, room, house.is_heavy(self.waiting.get()));
        let may_wait = writes.is_some() && !(is_queued && next.does != Does::CarriesOut);
        match instead {
            None if may_wait && (room != Room::Is || is_pressed) => Err(Fed::Full),
            instead => Ok(instead),
        }
    }

    /// How many bytes a request shows, where that may be many: what its keys have.
    fn shows(&mut self, channel: u16, next: &Next) -> Option<usize> {
        let client = self.clients.get(channel)?;
        match (next.does, next.words) {
            (Does::CarriesOut, _) => return Some(client.guest.queue.map_or(0, |queue| queue.shows)),
            (Does::Else, _) => return Some(next.len),
            (Does::Shows, _) | (Does::Adds, 3..) => (),
            _ => return Some(0),
        }
        let words = words(client.bytes(next));
        let keys = match (next.does, words.split_first()?) {
            (Does::Shows, (_, keys)) => keys,
            (_, (name, keys)) if name.eq_ignore_ascii_case(b"GETSET") => &keys[..1],
            (_, (name, keys)) if name.eq_ignore_ascii_case(b"SET") && keys.len() > 2 => &keys[..1],
            _ => &[],
        };
        Some(keys.iter().map(|key| self.store.value_bytes(key) + TOLD).sum())
    }

    /// Feeds a request, or another in its place.
    fn carry_out(&mut self, channel: u16, next: &Next, instead: Option<&[u8]>) -> Result<Fed, Fed> {
        let client = self.clients.get_mut(channel).ok_or(Fed::Over)?;
        let (is_ahead, bytes) = (client.guest.ahead.is_some(), instead.unwrap_or(client.bytes(next)));
        let told = match is_ahead {
            true => self.store.feed_ahead(channel, bytes),
            false => self.store.feed(channel, bytes),
        };
        let Taken { bytes, request } = told.map_err(|refusal| match refusal {
            Refusal::Memory | Refusal::Full | Refusal::DecisionDue => Fed::Full,
            _ => Fed::Over,
        })?;
        client.mark = self.log.carried_out(); // [13]
        client.has_fed(if instead.is_some() { next.len } else { bytes });
        client.had = if request == Request::Part && next.words > 0 { Had::Part } else { Had::Whole };
        if request == Request::Done {
            client.guest.has_queued(next.does, next.shows);
        }
        match request {
            Request::Part => return Ok(Fed::Part),
            Request::Asked => return Ok(Fed::Asked),
            _ if is_ahead => client.send_ahead(self.store.ahead(&mut self.room).unwrap_or(REFUSAL)),
            _ => (),
        }
        let is_long = next.shows > SHORT || next.does == Does::Lists;
        Ok(if is_long { Fed::Shows } else { Fed::Done })
    }

    /// A channel for which something may go out.
    pub fn next_ready(&mut self) -> Option<u16> {
        self.store.next_ready()
    }

    /// Takes what may go out of a channel: whether there was memory for it.
    pub fn take(&mut self, channel: u16) -> bool {
        let Some(client) = self.clients.get_mut(channel) else { return false };
        let (may_tell, most) = (self.log.may_tell(client.mark), self.room.len());
        let (mut count, mut all) = (most, 0);
        // Where the room has more than there was, nothing is left.
        while count == most {
            let Ok(moved) = self.store.output(channel, &mut self.room) else { return false };
            let mut bytes = &self.room[..moved];
            (count, all) = (bytes.len(), all + bytes.len());
            client.shown = client.shown.max(all);
            client.was_told(bytes.len());
            let waited_for;
            if let Some(ahead) = &mut client.guest.ahead {
                waited_for = ahead.put_out(bytes);
                bytes = &waited_for;
            } else if self.log.is_over() {
                // Nothing will be proved any more, and refusals tell of nothing that could be old.
                while let Some(behind) = bytes.strip_prefix(REFUSAL) {
                    client.put(REFUSAL, 0, true);
                    bytes = behind;
                }
            }
            client.put(bytes, client.mark, may_tell);
        }
        if client.replies.mark().is_some() {
            self.held.insert(channel);
        }
        true
    }

    /// Tells the store what came of frames.
    pub fn hear(&mut self) -> io::Result<()> {
        self.log.hear(&mut self.store)
    }

    /// Gives the log what the store has for it.
    pub fn send(&mut self) -> io::Result<()> {
        self.log.send(&mut self.store)
    }

    /// Has proved what replies wait for, by asking if it may, and lets go of those that needn't any more: of these channels.
    pub fn prove(&mut self, may_ask: bool) -> io::Result<Vec<u16>> {
        if self.log.may_tell(u64::MAX) {
            return Ok(Vec::new());
        }
        let held = self.held.iter().filter_map(|channel| self.clients.get(*channel)?.replies.mark());
        let Some(mark) = held.max() else { return Ok(Vec::new()) };
        self.log.prove(&mut self.store, mark, may_ask)?;
        let (log, clients, mut free) = (&*self.log, &mut self.clients, Vec::new());
        self.held.retain(|channel| {
            let Some(client) = clients.get_mut(*channel) else { return false };
            if client.replies.let_go(log) {
                free.push(*channel);
            }
            client.replies.mark().is_some()
        });
        Ok(free)
    }

    /// What became of the oldest batch, if it is decided.
    pub fn decide(&mut self) -> Option<Decision> {
        self.store.decide()
    }

    /// Drops what decisions left of the old values of some keys; whether there is more.
    pub fn let_go_of_old(&mut self) -> bool {
        self.store.let_go(OLD) > 0
    }

    /// Whether a fault was told on a channel, of which nothing more is taken.
    pub fn is_closed(&mut self, channel: u16) -> bool {
        self.store.is_closed(channel)
    }

    /// The words of what a channel asks.
    pub fn asked(&mut self, channel: u16) -> Vec<Vec<u8>> {
        let mut words: Vec<Vec<u8>> = Vec::new();
        while let Some(word) = self.store.asked(channel, words.len(), &mut self.room) {
            words.push(word.into());
        }
        words
    }

    /// Tells the answer of what a channel asks, which goes out in its turn; whether there was memory for it.
    pub fn tell(&mut self, channel: u16, text: &[u8]) -> bool {
        let did = self.store.tell(channel, text).is_ok();
        if let Some(client) = self.clients.get_mut(channel).filter(|_| did) {
            client.send_ahead(text);
        }
        did
    }

    /// Has a client that asks so begin anew, at the door if it is not in, and tells it by this text, where all up to a batch is decided, and the
    /// store has nothing of it beside; whether it was so.
    pub fn reset(&mut self, channel: u16, decided: u64, is_in: bool, text: &[u8]) -> bool {
        let is_due = |it: &&mut Client| it.guest.state == State::Asked && it.last <= decided && it.had == Had::Whole;
        let Some(client) = self.clients.get_mut(channel).filter(is_due) else { return false };
        client.guest.forget();
        if !self.tell(channel, text) || !self.take(channel) {
            return false;
        }
        if let Some(client) = self.clients.get_mut(channel).filter(|_| !is_in) {
            (client.guest.is_in, client.had) = (false, Had::Nothing);
        }
        true
    }

    /// How many bytes a key has, or none where it is absent; nothing while that depends on what is undecided.
    pub fn decided_bytes(&mut self, key: &[u8]) -> Option<Option<usize>> {
        if self.store.rests_on(key, 0).is_some() {
            return None;
        }
        let bytes = self.store.value_bytes(key);
        Some((bytes > 0 || self.store.value(key, &mut self.room).is_some()).then_some(bytes))
    }

    /// What is undecided.
    pub fn counts(&mut self) -> StoreCounts {
        self.store.counts()
    }

    /// At a stop, lets go of what was begun and is not used.
    pub fn let_go(&mut self) -> io::Result<()> {
        self.log.let_go()
    }

    /// The log, to be looked at.
    pub fn log(&self) -> &dyn Log {
        &*self.log
    }

    /// Lets a snapshot stand for all segments up to one, unless that can't be yet.
    pub fn close_segments(&mut self, up_to: u64) -> io::Result<Option<Closed>> {
        self.log.close(&mut self.store, up_to)
    }

    /// How many keys there are, counted by the store on a channel of its own.
    pub fn count_keys(&mut self) -> Option<u64> {
        let channel = self.store.connect().ok()?;
        let did = self.store.feed_ahead(channel, b"DBSIZE\r\n");
        let told = self.store.ahead(&mut self.room).filter(|_| did.is_ok());
        let keys = told.and_then(|told| std::str::from_utf8(told.strip_prefix(b":")?).ok()?.trim().parse().ok());
        self.store.hang_up(channel);
        keys
    }
}
