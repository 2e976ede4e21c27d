//! Who is let in, and who is ended: connections while there is room for them, web pages, wrong passwords, clients that are owed too much.
use crate::server::{Server, State, LISTENER};
use crate::trusted::system;
use std::collections::VecDeque;
use std::io::{self, ErrorKind, Read, Write};
use std::net::{Shutdown, TcpListener, TcpStream};
use std::time::{Duration, Instant};

/// How many connections are accepted before others have their turn.
const TURN: usize = 64;
/// How long nobody is accepted where that failed, unless somebody goes; and how late a wrong password is answered.
const PAUSE: Duration = Duration::from_millis(200);
const LATE: Duration = Duration::from_millis(100);
const TOO_MANY: &[u8] = b"-ERR max number of clients reached\r\n";
/// What is said once a minute at the most, by its place in `House::said`.
const WEB: usize = 0;
const FULL: usize = 1;
const OWED: usize = 2;
const FAILED: usize = 3;

/// Where clients come in, and those who are answered late.
pub struct Doorway {
    listener: Option<TcpListener>,
    /// Until when nobody is accepted.
    shut: Option<Instant>,
    late: VecDeque<(Instant, u16, u64)>,
}

impl Doorway {
    pub fn new(listener: TcpListener) -> Doorway {
        Doorway { listener: Some(listener), shut: None, late: VecDeque::new() }
    }

    /// Nobody comes any more.
    pub fn close(&mut self) {
        self.listener = None;
    }

    pub fn is_closed(&self) -> bool {
        self.listener.is_none()
    }

    /// A connection has ended, so that another may be accepted.
    pub fn may_open(&mut self) {
        self.shut = self.shut.map(|_| Instant::now());
    }

    /// When something is to be done here.
    pub fn until(&self) -> Option<Instant> {
        self.shut.into_iter().chain(self.late.front().map(|(until, ..)| *until)).min()
    }
}

/// Tells one for whom there is no room so. What it sent is read, else the system would drop what it is told.
fn turn_away(mut socket: TcpStream) -> io::Result<()> {
    socket.set_nonblocking(true)?;
    let _ = socket.read(&mut [0; 1 << 12]);
    socket.write_all(TOO_MANY)?;
    socket.shutdown(Shutdown::Write)
}

impl Server {
    /// Takes connections that wait. Where none can be had, nobody is heard at the door for a while.
    pub fn accept(&mut self) {
        for _ in 0..TURN {
            let Some(listener) = &self.doorway.listener else { return };
            let did = listener.accept().and_then(|(socket, _)| self.let_in(socket));
            match did {
                Ok(()) => (),
                Err(error) if error.kind() == ErrorKind::WouldBlock => return,
                Err(error) if error.kind() == ErrorKind::ConnectionAborted => (),
                Err(error) => {
                    if self.house.said[FAILED].may() {
                        say!("no connection can be accepted, and it is tried again: {error}");
                    }
                    self.doorway.shut = Some(Instant::now() + PAUSE);
                    return self.ask_listener(false);
                }
            }
        }
    }

    /// Gives a connection a channel.
    fn let_in(&mut self, socket: TcpStream) -> io::Result<()> {
        if self.channels.count() >= self.house.options.clients {
            self.turns_away(socket);
            return Ok(());
        }
        socket.set_nonblocking(true)?;
        socket.set_nodelay(true)?;
        system::keep_alive(&socket)?;
        let channel = match self.channels.connect(socket, self.house.guest()) {
            Ok(channel) => channel,
            Err(socket) => {
                self.turns_away(socket);
                return Ok(());
            }
        };
        let Some(client) = self.channels.client(channel) else { return Ok(()) };
        client.guest.asks = (true, false);
        let did = self.poll.ask(true, &client.fd(), channel.into(), client.guest.asks);
        did.inspect_err(|_| self.channels.hang_up(channel))
    }

    fn turns_away(&mut self, socket: TcpStream) {
        self.house.turned_away += 1;
        if self.house.said[FULL].may() {
            say!("there are as many clients as may be, {}, and others are told so", self.channels.count());
        }
        let _ = turn_away(socket);
    }

    /// Hears at the door again, or not.
    fn ask_listener(&mut self, is_asked: bool) {
        if let Some(listener) = &self.doorway.listener {
            let _ = self.poll.ask(false, listener, LISTENER, (is_asked, false));
        }
    }

    /// Opens the door again once its time has come, and goes on with those who were answered late.
    pub fn tend_doorway(&mut self) {
        let now = Instant::now();
        if self.doorway.shut.take_if(|until| *until <= now).is_some() {
            self.ask_listener(true);
        }
        while let Some((_, channel, id)) = self.doorway.late.pop_front_if(|(until, ..)| *until <= now) {
            let late = self.guest(channel).filter(|guest| guest.id == id && guest.state == State::Late);
            if late.map(|guest| guest.state = State::Free).is_some() {
                self.later.push(channel);
            }
        }
    }

    /// Who said a wrong password is answered after a while, and heard then.
    pub fn delay(&mut self, channel: u16) {
        let Some(guest) = self.guest(channel).filter(|guest| guest.state == State::Free) else { return };
        guest.state = State::Late;
        let late = (Instant::now() + LATE, channel, guest.id);
        self.doorway.late.push_back(late);
        self.house.wrong += 1;
    }

    /// A request of a web page ends its connection.
    pub fn ends_web(&mut self, channel: u16) {
        self.house.of_web += 1;
        if self.house.said[WEB].may() {
            say!("a web page sent a request here: its connection is ended, and nothing of it is carried out");
        }
        self.lose(channel);
    }

    /// Who is owed too much is ended.
    pub fn ends_owed(&mut self, channel: u16) {
        self.house.owed += 1;
        if self.house.said[OWED].may() {
            say!("a client is owed more than may wait for it, by --output, and is ended");
        }
        self.lose(channel);
    }
}
