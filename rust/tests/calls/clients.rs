//! A client of a store whose disk takes each frame at once: bytes in, bytes out.
use crate::bench::Bench;
use hidewillow::store::{Request, StoreLimits};

/// How large its requests may be where nothing else is said.
pub const SMALL: StoreLimits = StoreLimits { words: 8, bytes: 64, line: 64, ..LARGE };

/// The same of larger ones.
pub const LARGE: StoreLimits = StoreLimits {
    words: 8,
    bytes: 1000,
    line: 64,
    waiting: 1000,
    segment: 1 << 20,
    undecided: 10_000,
    commands: 1000,
    in_flight: 4,
};

pub struct Client {
    bench: Bench,
    channel: u16,
}

impl Client {
    /// The store is empty.
    pub fn new(limits: &StoreLimits) -> Client {
        let mut bench = Bench::new(limits);
        let channel = bench.store.connect().expect("a channel");
        Client { bench, channel }
    }

    /// Takes bytes. The host knows no command.
    pub fn feed(&mut self, bytes: &[u8]) {
        let mut rest = bytes;
        while !rest.is_empty() {
            let fed = self.bench.store.feed(self.channel, rest).expect("bytes are taken");
            if fed.request == Request::Asked {
                self.bench.store.tell_unknown(self.channel).expect("the host tells");
            }
            assert!(fed.bytes > 0, "a byte at least is taken");
            rest = &rest[fed.bytes..];
        }
    }

    /// What is replied once all is on the disk.
    pub fn out(&mut self) -> Vec<u8> {
        self.bench.settle();
        self.bench.output(self.channel, usize::MAX, 50)
    }

    pub fn is_closed(&mut self) -> bool {
        self.bench.store.is_closed(self.channel)
    }
}

/// These requests are replied to so, one after another, from an empty store on.
pub fn play(rows: &[(&[u8], &[u8])]) {
    let mut client = Client::new(&LARGE);
    for (request, reply) in rows {
        client.feed(request);
        assert_eq!(
            client.out().escape_ascii().to_string(),
            reply.escape_ascii().to_string(),
            "{:?}",
            request.escape_ascii()
        );
    }
}
