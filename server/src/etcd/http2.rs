//! Calls of gRPC over one connection of HTTP/2: a call is a stream with one message out and one back.
//!
//! Headers that come back are passed over: a call is answered by a whole message, and one whose stream ends without is an error, of which
//! nothing more is known but the text that the headers behind it have. None of our own headers is shortened or remembered.
use super::trailers;
use std::collections::BTreeMap;
use std::io::{self, BufReader, Read, Write};
use std::mem;
use std::net::{Shutdown, TcpStream, ToSocketAddrs};
use std::sync::mpsc;
use std::sync::{Arc, Mutex, MutexGuard};
use std::thread;
use std::time::Duration;

const GREETING: &[u8] = b"PRI * HTTP/2.0\r\n\r\nSM\r\n\r\n";
const DATA: u8 = 0;
const HEADERS: u8 = 1;
const RESET: u8 = 3;
const SETTINGS: u8 = 4;
const PING: u8 = 6;
const GO_AWAY: u8 = 7;
const WINDOW: u8 = 8;
const END_STREAM: u8 = 1;
const ACK: u8 = 1;
const END_HEADERS: u8 = 4;
const PADDED: u8 = 8;
const PRIORITY: u8 = 32;
/// Settings: the table of headers that were sent before, whether streams are pushed, and the window of each stream.
const TABLE: u16 = 1;
const PUSH: u16 = 2;
const FIRST_WINDOW: u16 = 4;
/// No frame that either side sends is longer.
const LONGEST: usize = 1 << 14;
/// What may come unasked on a connection, and on each stream; and how much comes until more is asked for.
const OURS: u32 = 1 << 30;
const MORE: u32 = 1 << 24;
/// How long a connection may take, and a write while the other side takes nothing.
const SLOW: Duration = Duration::from_millis(700);

fn broken(what: &str) -> io::Error {
    io::Error::other(what.to_string())
}

fn put_frame(out: &mut Vec<u8>, kind: u8, flags: u8, stream: u32, load: &[u8]) {
    out.extend_from_slice(&(load.len() as u32).to_be_bytes()[1..]);
    out.extend_from_slice(&[kind, flags]);
    out.extend_from_slice(&stream.to_be_bytes());
    out.extend_from_slice(load);
}

fn number(bytes: &[u8]) -> u32 {
    bytes.iter().fold(0, |number, byte| number << 8 | u32::from(*byte))
}

/// The headers of a call: those that everybody knows by their numbers, else texts as they are, none of which is to be remembered.
fn headers(path: &str, authority: &str) -> Vec<u8> {
    let (post, http) = (0x83, 0x86);
    let mut block = vec![post, http];
    let texts: [(&[u8], &str); 4] =
        [(b"\x04", path), (b"\x01", authority), (b"\x0f\x10", "application/grpc"), (b"\x00\x02te", "trailers")];
    for (name, text) in texts {
        block.extend_from_slice(name);
        // Below 127 a length is one byte.
        block.push(text.len().min(126) as u8);
        block.extend_from_slice(&text.as_bytes()[..text.len().min(126)]);
    }
    block
}

/// Is told once what a call is answered, or that nothing is known, on the thread that hears or on the one that asks.
pub type Hears = Box<dyn FnOnce(io::Result<Vec<u8>>) + Send>;

/// A call that waits to be answered: its message and how much of it is sent, what its stream may still be sent, and what came.
struct Call {
    message: Vec<u8>,
    sent: usize,
    window: i64,
    came: Vec<u8>,
    hears: Hears,
}

struct State {
    out: TcpStream,
    next: u32,
    window: i64,
    first_window: i64,
    calls: BTreeMap<u32, Call>,
    is_over: bool,
}

/// Who is told which answer, if anyone is.
type Answer = Option<(Hears, io::Result<Vec<u8>>)>;

pub struct Connection {
    authority: String,
    state: Mutex<State>,
}

impl Connection {
    /// Connects, with a thread that hears until the connection is over.
    pub fn new(address: &str) -> io::Result<Arc<Connection>> {
        let at = address.to_socket_addrs()?.next().ok_or_else(|| broken("no such address"))?;
        let out = TcpStream::connect_timeout(&at, SLOW)?;
        out.set_nodelay(true)?;
        out.set_write_timeout(Some(SLOW))?;
        let heard = out.try_clone()?;
        let settings: Vec<u8> = [(TABLE, 0), (PUSH, 0), (FIRST_WINDOW, OURS)]
            .iter()
            .flat_map(|(of, value): &(u16, u32)| [&of.to_be_bytes()[..], &value.to_be_bytes()].concat())
            .collect();
        let mut greeting = GREETING.to_vec();
        put_frame(&mut greeting, SETTINGS, 0, 0, &settings);
        put_frame(&mut greeting, WINDOW, 0, 0, &OURS.to_be_bytes());
        (&out).write_all(&greeting)?;
        let (window, calls) = (65_535, BTreeMap::new());
        let state = Mutex::new(State { out, next: 1, window, first_window: window, calls, is_over: false });
        let connection = Arc::new(Connection { authority: address.to_string(), state });
        let hears = connection.clone();
        thread::spawn(move || {
            let error = hears.hear(heard).err().map_or("closed".into(), |error| error.to_string());
            hears.end(&error);
        });
        Ok(connection)
    }

    fn state(&self) -> MutexGuard<'_, State> {
        self.state.lock().expect("no thread ends that has it")
    }

    /// Nothing more is sent or heard; who waits for an answer is told.
    pub fn end(&self, why: &str) {
        let mut state = self.state();
        state.is_over = true;
        let _ = state.out.shutdown(Shutdown::Both);
        let calls = mem::take(&mut state.calls);
        drop(state);
        calls.into_values().for_each(|call| (call.hears)(Err(broken(why))));
    }

    pub fn is_over(&self) -> bool {
        self.state().is_over
    }

    /// Sends a message, and waits for the answer, which may not come though what was asked for was done.
    pub fn call(&self, path: &str, message: &[u8], patience: Duration) -> io::Result<Vec<u8>> {
        let (tell, told) = mpsc::channel();
        // Who has waited too long doesn't hear it.
        self.ask(path, message, Box::new(move |answer| drop(tell.send(answer))));
        told.recv_timeout(patience).unwrap_or_else(|_| Err(io::ErrorKind::TimedOut.into()))
    }

    /// Sends a message, and has the answer told.
    pub fn ask(&self, path: &str, message: &[u8], hears: Hears) {
        let mut state = self.state();
        let stream = state.next;
        if state.is_over || stream > OURS {
            drop(state);
            return hears(Err(broken("the connection is over")));
        }
        let message = [&[0][..], &(message.len() as u32).to_be_bytes(), message].concat();
        let mut out = Vec::with_capacity(message.len() + 256);
        put_frame(&mut out, HEADERS, END_HEADERS, stream, &headers(path, &self.authority));
        let (sent, window, came) = (0, state.first_window, Vec::new());
        state.calls.insert(stream, Call { message, sent, window, came, hears });
        state.next += 2;
        let did = state.send(out);
        drop(state);
        did.unwrap_or_else(|error| self.end(&error.to_string()));
    }

    /// Hears frames until there are no more.
    fn hear(&self, socket: TcpStream) -> io::Result<()> {
        let (mut input, mut head, mut load, mut taken) =
            (BufReader::with_capacity(1 << 16, socket), [0; 9], Vec::new(), 0);
        loop {
            input.read_exact(&mut head)?;
            let (bytes, kind, flags, stream) = (number(&head[..3]), head[3], head[4], number(&head[5..]) & 0x7fff_ffff);
            if bytes as usize > LONGEST {
                return Err(broken("a frame is too long"));
            }
            load.resize(bytes as usize, 0);
            input.read_exact(&mut load)?;
            taken += if kind == DATA { bytes } else { 0 };
            let (mut state, mut out) = (self.state(), Vec::new());
            if taken >= MORE {
                put_frame(&mut out, WINDOW, 0, 0, &taken.to_be_bytes());
                taken = 0;
            }
            let answer = state.take(&mut out, kind, flags, stream, &load)?;
            let did = state.send(out);
            drop(state);
            // What was answered is told, though nothing more can be sent.
            if let Some((hears, answer)) = answer {
                hears(answer);
            }
            did?;
        }
    }
}

impl State {
    /// Sends frames, and of messages what the other side has room for.
    fn send(&mut self, mut out: Vec<u8>) -> io::Result<()> {
        for (stream, call) in &mut self.calls {
            while call.sent < call.message.len() && call.window.min(self.window) > 0 {
                let rest = &call.message[call.sent..];
                let piece = &rest[..rest.len().min(LONGEST).min(call.window.min(self.window) as usize)];
                put_frame(&mut out, DATA, if piece.len() == rest.len() { END_STREAM } else { 0 }, *stream, piece);
                call.window -= piece.len() as i64;
                self.window -= piece.len() as i64;
                call.sent += piece.len();
            }
        }
        self.out.write_all(&out)
    }

    /// Takes a frame that came: what is to be sent for it, and who is told an answer.
    fn take(&mut self, out: &mut Vec<u8>, kind: u8, flags: u8, stream: u32, load: &[u8]) -> io::Result<Answer> {
        match kind {
            DATA | HEADERS => return self.came(kind, flags, stream, load),
            RESET => return Ok(self.told(stream, Err(broken("the call was broken off")))),
            SETTINGS if flags & ACK == 0 => {
                for setting in load.chunks_exact(6).filter(|setting| number(&setting[..2]) == u32::from(FIRST_WINDOW)) {
                    let window = i64::from(number(&setting[2..]));
                    let more = window - mem::replace(&mut self.first_window, window);
                    self.calls.values_mut().for_each(|call| call.window += more);
                }
                put_frame(out, SETTINGS, ACK, 0, &[]);
            }
            PING if flags & ACK == 0 => put_frame(out, PING, ACK, 0, load),
            GO_AWAY => return Err(broken("the member goes away")),
            WINDOW if stream == 0 => self.window += i64::from(number(load)),
            WINDOW => {
                if let Some(call) = self.calls.get_mut(&stream) {
                    call.window += i64::from(number(load));
                }
            }
            _ => (),
        }
        Ok(None)
    }

    /// Takes what came on a stream: an answer is told once it is whole.
    fn came(&mut self, kind: u8, flags: u8, stream: u32, load: &[u8]) -> io::Result<Answer> {
        let Some(call) = self.calls.get_mut(&stream) else { return Ok(None) };
        let mut refusal = None;
        if kind == HEADERS && flags & END_STREAM != 0 {
            let pad = if flags & PADDED == 0 { 0 } else { 1 + usize::from(*load.first().unwrap_or(&0)) };
            let from = pad.min(1) + if flags & PRIORITY == 0 { 0 } else { 5 };
            refusal = load.get(from..(load.len() + pad.min(1)).saturating_sub(pad)).and_then(trailers::refusal);
        }
        if kind == DATA {
            let pad = if flags & PADDED == 0 { 0 } else { 1 + usize::from(*load.first().unwrap_or(&0)) };
            let piece = load.get(pad.min(1)..(load.len() + pad.min(1)).saturating_sub(pad));
            call.came.extend_from_slice(piece.ok_or_else(|| broken("a frame is cut off"))?);
        }
        let is_plain = call.came.first().is_none_or(|mark| *mark == 0);
        let wanted = call.came.get(1..5).map(|bytes| 5 + number(bytes) as usize);
        Ok(if !is_plain {
            self.told(stream, Err(broken("an answer is packed")))
        } else if wanted.is_some_and(|wanted| call.came.len() >= wanted) {
            let answer = call.came.split_off(5);
            self.told(stream, Ok(answer))
        } else if flags & END_STREAM != 0 {
            self.told(stream, Err(broken(&refusal.unwrap_or("no answer".into()))))
        } else {
            None
        })
    }

    fn told(&mut self, stream: u32, answer: io::Result<Vec<u8>>) -> Answer {
        self.calls.remove(&stream).map(|call| (call.hears, answer))
    }
}
