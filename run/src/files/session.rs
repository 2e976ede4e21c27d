//! One connection: its requests in order, and what is answered.
use super::disk::Folder;
use super::fetch;
use super::journal::{Journal, Wrong};
use super::known::Known;
use super::options::Options;
use super::pace::{self, Incoming, Outgoing, Pace};
use super::plan::{self, Plan, Stale};
use super::shared::{Locked, Shared};
use super::tree::Tree;
use super::uploads::{self, Uploads};
use crate::codec::{frame, message, Bytes};
use crate::name::Name;
use crate::wire::{Along, Reply, Request, Step, Version, LONGEST_PIECE, PROTOCOL};
use std::io::{self, Read, Write};
use std::sync::atomic::{AtomicU64, Ordering};
use std::time::Duration;

/// After so long without a request what was applied is synced and put away.
const IDLE: Duration = Duration::from_millis(200);

/// Serves one client until it ends; a secret is what it must say first.
pub fn serve(
    options: &Options,
    input: impl Read + Send + 'static,
    output: impl Write + Send + 'static,
    secret: &[u8],
) -> io::Result<()> {
    let pace = Pace { delay: Duration::from_millis(options.delay_ms), bandwidth: options.bandwidth };
    let requests = pace::incoming(input, pace);
    let out = Outgoing::new(output, pace);
    let served = greet(&requests, secret).and_then(|name| Session::open(options, &out, name)?.serve(&requests));
    if let Err(error) = &served {
        let why = Bytes(error.to_string().into_bytes());
        // Who can't be told any more has gone.
        let _ = out.send(frame(&Reply::Fault { why }));
    }
    served
}

/// Takes the greeting; the session that it names, if it does.
fn greet(requests: &Incoming, secret: &[u8]) -> io::Result<Vec<u8>> {
    let refused = |why: &str| Err(io::Error::new(io::ErrorKind::PermissionDenied, why));
    match message(&requests.next_frame()?)? {
        Request::Hello { protocol, .. } if protocol != PROTOCOL => refused("another version of the protocol"),
        Request::Hello { secret: said, .. } if !is_same(&said.0, secret) => refused("another secret"),
        Request::Hello { session, .. } => Ok(session.0),
        _ => refused("no greeting"),
    }
}

/// Compares all of both, wherever they differ.
fn is_same(said: &[u8], secret: &[u8]) -> bool {
    said.len() == secret.len() && said.iter().zip(secret).fold(0, |all, (a, b)| all | (a ^ b)) == 0
}

/// Which epochs are refused at random.
struct Random {
    percent: u64,
    state: u64,
}

impl Random {
    fn happens(&mut self) -> bool {
        self.state = self.state.wrapping_mul(6364136223846793005).wrapping_add(1442695040888963407);
        (self.state >> 33) % 100 < self.percent
    }
}

/// One client's connection, once it has said the greeting.
struct Session<'a> {
    root: Folder,
    shared: Shared,
    journal: Journal,
    known: Known,
    uploads: Uploads,
    out: &'a Outgoing,
    /// The refused epoch that the client doesn't know of yet.
    refused: Option<u64>,
    refuses: Random,
    wrong: Option<Wrong>,
    /// What it is called, so that a later connection can go on with it; else empty.
    name: Vec<u8>,
}

static SESSIONS: AtomicU64 = AtomicU64::new(0);

impl<'a> Session<'a> {
    fn open(options: &Options, out: &'a Outgoing, name: Vec<u8>) -> io::Result<Session<'a>> {
        let root = Folder::open(&options.folder)?;
        let (shared, _locked) = Shared::open(&root)?;
        let boot = options.boot.clone().map(String::into_bytes);
        let journal = Journal::open(&root, shared.hidden.folder(b"")?, shared.was_alone, boot, options.wrong)?;
        let mark = format!("{}-{}", std::process::id(), SESSIONS.fetch_add(1, Ordering::Relaxed));
        let uploads = Uploads::new(shared.hidden.folder(b"")?, mark);
        let refuses = Random { percent: options.refuse_percent, state: options.seed };
        let (known, wrong) = (Known::default(), options.wrong);
        Ok(Session { root, shared, journal, known, uploads, out, refused: None, refuses, wrong, name })
    }

    fn serve(&mut self, requests: &Incoming) -> io::Result<()> {
        let root = fetch::entry(&self.root, Default::default(), &self.shared)?;
        let done = self.journal.done_of(&self.name)?;
        self.say(&Reply::Welcome { protocol: PROTOCOL, root, done })?;
        let served = self.take_all(requests);
        self.uploads.forget_all();
        self.settle().and(served)
    }

    fn take_all(&mut self, requests: &Incoming) -> io::Result<()> {
        loop {
            match requests.next_frame_within(IDLE) {
                Ok(Some(frame)) => self.take(message(&frame)?)?,
                Ok(None) => self.settle()?,
                Err(error) if error.kind() == io::ErrorKind::UnexpectedEof => return Ok(()),
                Err(error) => return Err(error),
            }
        }
    }

    fn say(&self, reply: &Reply) -> io::Result<()> {
        self.out.send(frame(reply))
    }

    /// Waits for the lock; whoever has it makes good what a server that ended left.
    fn lock(&mut self, alone: bool) -> io::Result<Locked> {
        loop {
            let locked = self.shared.lock(alone)?;
            if !self.journal.is_in_the_middle()? {
                return Ok(locked);
            }
            drop(locked);
            let _locked = self.shared.lock(true)?;
            self.journal.make_good(&self.root)?; // [4]
        }
    }

    fn settle(&mut self) -> io::Result<()> {
        if !self.journal.is_unsettled() {
            return Ok(());
        }
        let _locked = self.lock(true)?;
        self.journal.settle()
    }

    fn take(&mut self, request: Request) -> io::Result<()> {
        match request {
            Request::Hello { .. } => Err(io::Error::new(io::ErrorKind::InvalidData, "a second greeting")),
            Request::Tree { id, name, along } => self.tree(id, name, Along::within(along)),
            Request::Folder { id, name } => {
                let _locked = self.lock(false)?;
                let entries = fetch::folder(&self.root, &name, &self.shared)?;
                self.say(&Reply::Entries { id, entries, more: false })
            }
            Request::Entry { id, name } => {
                let _locked = self.lock(false)?;
                let entries = vec![fetch::entry(&self.root, name, &self.shared)?];
                self.say(&Reply::Entries { id, entries, more: false })
            }
            Request::Read { id, name, offset, len } => self.read(id, &name, (offset, len)),
            Request::Piece { upload, bytes } => self.uploads.add(upload, bytes.0),
            Request::Epoch { number, falls_with_earlier, steps } => self.epoch(number, falls_with_earlier, steps),
            Request::Acknowledge { number } => {
                self.refused = self.refused.filter(|refused| *refused != number);
                Ok(())
            }
        }
    }

    fn tree(&mut self, id: u64, name: Name, mut along: Along) -> io::Result<()> {
        drop(self.lock(false)?);
        let out = self.out;
        let mut taken = Vec::new();
        fetch::tree(&self.root, name, &self.shared, |entries, more| {
            taken.extend(entries.iter().filter_map(|e| Some((along.takes(e)?, e.name.clone()))));
            out.send(frame(&Reply::Entries { id, entries, more }))
        })?;
        taken.iter().try_for_each(|(id, name)| self.read(*id, name, (0, LONGEST_PIECE as u32)))
    }

    fn read(&mut self, id: u64, name: &Name, at: (u64, u32)) -> io::Result<()> {
        let _locked = self.lock(false)?;
        let (version, size, bytes) = fetch::read(&self.root, name, at, &self.shared)?;
        self.say(&Reply::Content { id, version, size, bytes: Bytes(bytes) })
    }

    fn epoch(&mut self, number: u64, falls_with_earlier: bool, steps: Vec<Step>) -> io::Result<()> {
        let sent = uploads::of(&steps);
        if falls_with_earlier && self.refused.is_some() {
            // [6]
            self.uploads.forget(&sent);
            return Ok(());
        }
        let reply = if falls_with_earlier && self.refuses.happens() {
            Reply::Refused { number, stale: Vec::new(), folders: Vec::new() }
        } else {
            self.decide(number, steps)?
        };
        self.uploads.forget(&sent);
        if falls_with_earlier && matches!(reply, Reply::Refused { .. }) {
            self.refused = Some(number);
        }
        self.say(&reply)
    }

    fn decide(&mut self, number: u64, mut steps: Vec<Step>) -> io::Result<Reply> {
        let changes = steps.iter().any(|step| !matches!(step, Step::Look { .. } | Step::Names { .. }));
        let _locked = self.lock(changes)?; // [1]
        let tree = Tree::new(&self.root, &self.shared)?;
        let half = (self.wrong == Some(Wrong::Half)).then(|| steps[..steps.len() / 2].to_vec());
        match plan::plan(tree, &self.known, std::mem::take(&mut steps))? {
            Ok(_) if !changes => Ok(Reply::Accepted { number, versions: Vec::new() }),
            Ok(mut plan) => {
                let shared = &self.shared;
                self.journal.note = (!self.name.is_empty()).then(|| (Bytes(self.name.clone()), number));
                self.journal.perform(&mut plan, &mut self.uploads, |inodes| shared.count(inodes))?;
                let versions = versions_after(&plan, shared, &mut self.known)?;
                Ok(Reply::Accepted { number, versions }) // [5]
            }
            Err(stale) => {
                if let (Some(half), true) = (half, changes) {
                    self.do_wrongly(half)?;
                }
                self.refused_since(number, stale) // [5]
            }
        }
    }

    fn do_wrongly(&mut self, half: Vec<Step>) -> io::Result<()> {
        let tree = Tree::new(&self.root, &self.shared)?;
        if let Ok(mut plan) = plan::plan(tree, &self.known, half)? {
            let shared = &self.shared;
            self.journal.perform(&mut plan, &mut self.uploads, |inodes| shared.count(inodes))?;
        }
        Ok(())
    }

    fn refused_since(&self, number: u64, stale: Stale) -> io::Result<Reply> {
        let entry = |name| fetch::entry(&self.root, name, &self.shared);
        let folder = |name| fetch::folder(&self.root, &name, &self.shared);
        let names = stale.names.into_iter().map(entry).collect::<io::Result<_>>()?;
        let folders = stale.folders.into_iter().map(folder).collect::<io::Result<_>>()?;
        Ok(Reply::Refused { number, stale: names, folders })
    }
}

/// With the lock held since before the plan: what the versions of all that it changed are now.
fn versions_after(plan: &Plan<'_>, shared: &Shared, known: &mut Known) -> io::Result<Vec<(Version, Version)>> {
    let mut versions = Vec::new();
    for (id, node) in plan.tree.nodes.iter().enumerate() {
        if node.own.is_none() && !node.touched {
            continue;
        }
        let found = match (plan.tree.name(id), &node.held) {
            (Some(name), _) => plan.tree.root().look_below(&name)?,
            (None, Some(held)) => Some(plan.tree.root().look_at(held)?),
            (None, None) => None,
        };
        let Some(found) = found else { continue };
        let now = shared.version(&found);
        match (node.own, node.found) {
            (Some(own), _) => {
                known.follow(own, now);
                versions.push((own, now));
            }
            // Else another program has changed it meanwhile, which the client is to see.
            (None, Some(before)) if found.is_still(&before) => known.follow(node.told, now), // [2]
            (None, _) => {}
        }
    }
    Ok(versions)
}
