//! A host of a store in a hundred lines: what it does between the bytes of clients and a disk, here of memory. Each reply waits for the frame
//! that it depends on; a frame that fails is cut off, and what depended on it is refused.
use hidewillow::store::{FramePlace, Next, Recovery, Refusal, Request, Store, StoreLimits, HEAD};
use std::collections::BTreeMap;
use std::error::Error;

const LIMITS: StoreLimits = StoreLimits {
    words: 1 << 10,
    bytes: 1 << 12,
    line: 1 << 10,
    waiting: 1 << 16,
    segment: 1 << 15,
    undecided: 1 << 14,
    commands: 100,
    in_flight: 4,
};

/// Segments of zeros, over which frames are written.
#[derive(Default)]
struct Disk(BTreeMap<u64, Vec<u8>>);

impl Disk {
    fn write(&mut self, at: &FramePlace, frame: &[u8]) {
        let segment = self.0.entry(at.segment).or_insert_with(|| vec![0; LIMITS.segment as usize]);
        segment[at.offset as usize..][..at.len].copy_from_slice(&frame[..at.len]);
    }

    /// Reads all, and goes on behind it.
    fn start(&mut self) -> Result<Host<'_>, Refusal> {
        let mut log = Recovery::new(1)?;
        for (number, segment) in &self.0 {
            log.head(*number, &segment[..HEAD])?;
        }
        for (number, segment) in &self.0 {
            segment.chunks(1000).try_for_each(|piece| log.feed(*number, piece))?;
        }
        let (counts, did) = log.end(u64::from(LIMITS.undecided), 0);
        did?;
        println!("a start: {} keys, {} frames", counts.keys, counts.frames);
        let (store, at, head) = Store::open(&mut log, &LIMITS)?;
        self.write(&at, &head);
        Ok(Host { store, disk: self, under_way: Vec::new() })
    }
}

struct Host<'a> {
    store: Store,
    disk: &'a mut Disk,
    under_way: Vec<u64>,
}

impl Host<'_> {
    /// Feeds requests of a client.
    fn feed(&mut self, channel: u16, mut bytes: &[u8]) -> Result<(), Refusal> {
        while !bytes.is_empty() {
            let fed = self.store.feed(channel, bytes)?;
            bytes = &bytes[fed.bytes..];
            if fed.request == Request::Asked {
                self.store.tell_unknown(channel)?;
            }
        }
        Ok(())
    }

    /// Gives the disk the next frame, if there is one: all that was fed since the last.
    fn send(&mut self) -> Result<(), Refusal> {
        let mut room = Vec::new();
        match self.store.next_frame(false, &mut room, 0, u64::MAX)? {
            Next::Frame(at) => {
                self.disk.write(&at, &room);
                self.under_way.push(at.frame);
                Ok(())
            }
            Next::Full => self.store.turn(),
            Next::None => Ok(()),
        }
    }

    /// The disk says of all that is under way that it is there, or that it failed; then what is to be cut off is.
    fn hear(&mut self, is_well: bool) -> Result<(), Refusal> {
        for frame in std::mem::take(&mut self.under_way) {
            if is_well { self.store.synced(frame) } else { self.store.failed(frame) }?;
        }
        if let Some(cut) = self.store.cut_due() {
            println!("batches {} to {} are cut off", cut.first, cut.last);
            let mut room = [0; HEAD];
            let at = self.store.cut_frame(&mut room)?;
            self.disk.write(&at, &room);
            self.store.cut(true)?;
        }
        while let Some(decision) = self.store.decide() {
            println!("{decision:?}");
        }
        Ok(())
    }

    fn show(&mut self, channel: u16) -> Result<(), Refusal> {
        let mut room = [0; 1000];
        let count = self.store.output(channel, &mut room)?;
        println!("  channel {channel} is sent {:?}", String::from_utf8_lossy(&room[..count]));
        Ok(())
    }
}

fn main() -> Result<(), Box<dyn Error + Send + Sync>> {
    let mut disk = Disk::default();
    {
        let mut host = disk.start()?;
        let (ann, bob) = (host.store.connect()?, host.store.connect()?);
        host.feed(ann, b"SET price 10\r\nINCRBY price 5\r\n")?;
        host.send()?;
        host.feed(bob, b"GET price\r\nGET other\r\n")?; // carried out at once, and held: it depends on ann's writes
        host.show(bob)?;
        host.hear(true)?;
        host.show(ann)?;
        host.show(bob)?;
        host.feed(ann, b"SET price 99\r\n")?;
        host.send()?;
        host.feed(bob, b"GET price\r\nGET other\r\n")?;
        host.hear(false)?;
        host.show(ann)?;
        host.show(bob)?;
        host.feed(bob, b"GET price\r\nOTHER\r\n")?;
        host.show(bob)?;
    }
    let mut host = disk.start()?;
    let cy = host.store.connect()?;
    host.feed(cy, b"GET price\r\n")?;
    host.show(cy)?;
    Ok(())
}
