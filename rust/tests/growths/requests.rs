//! What grows where requests are read, carried out and replied to, and where a log is read again.
use crate::{FEWER, MANY};
use hidewillow::store::{Recovery, Request, Store, StoreLimits};

const LIMITS: StoreLimits = StoreLimits {
    words: 100_000,
    bytes: 2_000_000,
    line: 64,
    waiting: 100_000_000,
    segment: 100_000_000,
    undecided: 10_000_000,
    commands: 1_000_000,
    in_flight: 4,
};

/// A store with a channel.
fn open() -> (Store, u16) {
    let mut log = Recovery::new(1).expect("a log is begun");
    log.end(0, 0).1.expect("an empty log is read");
    let (mut store, ..) = Store::open(&mut log, &LIMITS).expect("a store is opened");
    let channel = store.connect().expect("a channel");
    (store, channel)
}

/// Feeds bytes, a request after another, each carried out: what became of the last.
fn feed(store: &mut Store, channel: u16, bytes: &[u8]) -> Request {
    let (mut rest, mut end) = (bytes, Request::Part);
    while !rest.is_empty() {
        let fed = store.feed(channel, rest).expect("bytes are taken");
        assert!(fed.bytes > 0 && !matches!(fed.request, Request::NotDone(_)), "{fed:?}");
        (rest, end) = (&rest[fed.bytes..], fed.request);
    }
    end
}

/// What is replied once all is on the disk.
fn replies(store: &mut Store, channel: u16) -> Vec<u8> {
    let mut room = vec![0; LIMITS.undecided as usize];
    while let Ok(at) = store.take_frame(&mut room) {
        store.synced(at.frame).expect("a frame is synced");
    }
    while store.decide().is_some() {}
    let mut all = Vec::new();
    loop {
        match store.output(channel, &mut room).expect("a channel") {
            0 => return all,
            count => all.extend_from_slice(&room[..count]),
        }
    }
}

/// A word of a request.
fn word(text: &str) -> String {
    format!("${}\r\n{text}\r\n", text.len())
}

/// A request of a command's word and so many keys, each with what stands behind it.
fn of_keys(command: &str, count: u32, behind: &str) -> Vec<u8> {
    let each = 1 + usize::from(!behind.is_empty());
    let keys: String = (0..count).map(|number| word(&format!("{number:05}")) + behind).collect();
    format!("*{}\r\n{}{keys}", 1 + each * count as usize, word(command)).into_bytes()
}

/// A request of many words, which come one by one, and one of a word of as many bytes, which do too.
#[test]
fn words_of_a_request() {
    let (mut store, channel) = open();
    let mut last = feed(&mut store, channel, format!("*{}\r\n$6\r\nEXISTS\r\n", MANY + 1).as_bytes());
    for _ in 0..MANY {
        assert_eq!(last, Request::Part);
        last = feed(&mut store, channel, b"$1\r\na\r\n");
    }
    assert_eq!(last, Request::Done);
    feed(&mut store, channel, format!("*2\r\n$4\r\nECHO\r\n${MANY}\r\n").as_bytes());
    (0..MANY).for_each(|_| assert_eq!(feed(&mut store, channel, b"a"), Request::Part));
    assert_eq!(feed(&mut store, channel, b"\r\n"), Request::Done);
    let said = format!(":0\r\n{}", word(&"a".repeat(MANY as usize)));
    assert_eq!(replies(&mut store, channel), said.as_bytes());
}

/// A reply of each kind, many times before one goes out.
#[test]
fn replies_at_once() {
    let (mut store, channel) = open();
    feed(&mut store, channel, b"SET a 1\r\n");
    for _ in 0..MANY {
        feed(&mut store, channel, b"PING\r\nEXEC\r\nSTRLEN a\r\nGET a\r\nGET b\r\nMGET a\r\n");
    }
    let each = "+PONG\r\n-ERR EXEC without MULTI\r\n:1\r\n$1\r\n1\r\n$-1\r\n*1\r\n$1\r\n1\r\n";
    assert_eq!(replies(&mut store, channel), ["+OK\r\n", &each.repeat(MANY as usize)].concat().as_bytes());
}

/// Commands that write many keys, show them, and make some absent.
#[test]
fn keys_of_a_command() {
    let (mut store, channel) = open();
    for part in [of_keys("MSET", FEWER, &word("1")), of_keys("MGET", MANY, ""), of_keys("DEL", FEWER, "")] {
        assert_eq!(feed(&mut store, channel, &part), Request::Done);
    }
    let (there, absent) = (word("1").repeat(FEWER as usize), "$-1\r\n".repeat((MANY - FEWER) as usize));
    let said = format!("+OK\r\n*{MANY}\r\n{there}{absent}:{FEWER}\r\n");
    assert!(replies(&mut store, channel) == said.as_bytes());
}

/// A log of many frames, and of one that is longer than they are many, which is read in one piece and in many.
#[test]
fn frames_of_a_log() {
    let (mut store, channel) = open();
    let (mut log, mut room) = (vec![0; 24], vec![0; LIMITS.undecided as usize]);
    let mut sends = |text: &[u8]| {
        feed(&mut store, channel, text);
        let at = store.take_frame(&mut room).expect("a frame");
        assert_eq!(at.offset as usize, log.len());
        log.extend_from_slice(&room[..at.len]);
        store.synced(at.frame).expect("a frame is synced");
        store.decide().expect("a batch is decided");
        store.output(channel, &mut room).expect("a channel");
    };
    (0..MANY).for_each(|_| sends(b"INCR a\r\n"));
    sends(format!("*3\r\n{}{}{}", word("SET"), word("b"), word(&"7".repeat(MANY as usize))).as_bytes());
    for piece in [log.len(), 100] {
        let mut again = Recovery::new(2).expect("a log is begun");
        again.head(1, &log[24..48]).expect("a head");
        log[24..].chunks(piece).for_each(|it| again.feed(1, it).expect("a piece"));
        let (counts, told) = again.end(0, 0);
        assert_eq!((told, counts.frames, counts.keys), (Ok(()), u64::from(MANY) + 1, 2));
    }
}
