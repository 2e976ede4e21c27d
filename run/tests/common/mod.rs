//! A client for tests: it knows what it was told and did, as `hidewillow-run` does, and does the same in a folder of its own beside.
#![allow(dead_code)]
use hidewillow_run::client::Link;
use hidewillow_run::codec::Bytes;
use hidewillow_run::name::Name;
use hidewillow_run::wire::*;
use std::collections::{BTreeMap, HashMap};
use std::fs;
use std::io;
use std::os::unix::ffi::OsStrExt;
use std::os::unix::fs::{symlink, MetadataExt, PermissionsExt};
use std::path::{Path, PathBuf};
use std::process::Command;
use std::sync::atomic::{AtomicU32, Ordering};
use std::time::{Duration, SystemTime};

pub const LONG: Duration = Duration::from_secs(60);

/// How often a server is ended in a test: RUNS says it.
pub fn deaths() -> u64 {
    std::env::var("RUNS").ok().and_then(|runs| runs.parse().ok()).unwrap_or(200)
}

pub fn name(text: &str) -> Name {
    Name::new(text).unwrap()
}

/// A folder of its own for a test, in memory where that can be: what is synced there needn't wait for a disk.
pub fn folder(of: &str) -> PathBuf {
    static COUNT: AtomicU32 = AtomicU32::new(0);
    let count = COUNT.fetch_add(1, Ordering::Relaxed);
    let memory = Path::new("/dev/shm");
    let room = if memory.is_dir() { memory } else { Path::new(env!("CARGO_TARGET_TMPDIR")) };
    let path = room.join(format!("hidewillow-{of}-{}-{count}", std::process::id()));
    let _ = fs::remove_dir_all(&path);
    fs::create_dir_all(&path).unwrap();
    path
}

pub fn server(folder: &Path, options: &[&str]) -> Command {
    let mut command = Command::new(env!("CARGO_BIN_EXE_hidewillow-files"));
    command.args(options).arg(folder);
    command
}

/// Some of what must be the same in two folders.
pub fn picture(folder: &Path) -> BTreeMap<Vec<u8>, String> {
    let mut picture = BTreeMap::new();
    let mut first_of: HashMap<u64, String> = HashMap::new();
    let mut folders = vec![PathBuf::new()];
    let mut paths = Vec::new();
    while let Some(at) = folders.pop() {
        for entry in fs::read_dir(folder.join(&at)).unwrap() {
            let path = at.join(entry.unwrap().file_name());
            if path.as_os_str() == ".hidewillow-files" {
                continue;
            }
            if folder.join(&path).symlink_metadata().unwrap().is_dir() {
                folders.push(path.clone());
            }
            paths.push(path);
        }
    }
    paths.sort();
    for path in paths {
        let whole = folder.join(&path);
        let found = whole.symlink_metadata().unwrap();
        let same = first_of.entry(found.ino()).or_insert_with(|| path.display().to_string()).clone();
        let mode = found.mode();
        let text = if found.is_dir() {
            format!("{mode:o}")
        } else if found.is_symlink() {
            format!("{:?} as {same}", fs::read_link(&whole).unwrap())
        } else {
            let contents = fs::read(&whole).unwrap();
            let modified = found.mtime() as i128 * 1_000_000_000 + found.mtime_nsec() as i128;
            format!("{mode:o} {} {contents:?} at {modified} as {same}", found.len())
        };
        picture.insert(path.as_os_str().as_bytes().to_vec(), text);
    }
    picture
}

pub fn set_modified(path: &Path, modified: i64) {
    let time = SystemTime::UNIX_EPOCH + Duration::from_nanos(modified as u64);
    fs::File::open(path).unwrap().set_modified(time).unwrap();
}

/// Does a step in a local folder, as a program would.
pub fn perform(folder: &Path, step: &Step) {
    let at = |name: &Name| folder.join(name.path());
    match step {
        Step::Look { .. } | Step::Names { .. } => {}
        Step::Put { name, mode, modified, content, .. } => {
            let before = fs::read(at(name)).unwrap_or_default();
            fs::write(at(name), contents(content, before)).unwrap();
            fs::set_permissions(at(name), fs::Permissions::from_mode(*mode)).unwrap();
            set_modified(&at(name), *modified);
        }
        Step::MakeFolder { name, mode, .. } => {
            fs::create_dir(at(name)).unwrap();
            fs::set_permissions(at(name), fs::Permissions::from_mode(*mode)).unwrap();
        }
        Step::MakeLink { name, target, .. } => symlink(std::ffi::OsStr::from_bytes(&target.0), at(name)).unwrap(),
        Step::Link { from, to, .. } => fs::hard_link(at(from), at(to)).unwrap(),
        Step::Remove { name, .. } => fs::remove_file(at(name)).unwrap(),
        Step::RemoveFolder { name, .. } => fs::remove_dir(at(name)).unwrap(),
        Step::Rename { from, to, .. } => fs::rename(at(from), at(to)).unwrap(),
        Step::Attributes { name, mode, modified, .. } => {
            if let Some(mode) = mode {
                fs::set_permissions(at(name), fs::Permissions::from_mode(*mode)).unwrap();
            }
            if let Some(modified) = modified {
                set_modified(&at(name), *modified);
            }
        }
    }
}

fn contents(content: &Content, before: Vec<u8>) -> Vec<u8> {
    let here = |body: &Body| match body {
        Body::Here(bytes) => bytes.0.clone(),
        Body::Sent(_) => panic!("only the link sends ahead"),
    };
    match content {
        Content::Whole(body) => here(body),
        Content::Changed { size, parts } => {
            let mut bytes = before;
            bytes.resize(*size as usize, 0);
            for (offset, body) in parts {
                let part = here(body);
                bytes[*offset as usize..*offset as usize + part.len()].copy_from_slice(&part);
            }
            bytes
        }
    }
}

pub struct Client {
    pub link: Link,
    pub epochs: u64,
    pub numbers: u64,
    /// Why the last epoch was refused.
    pub why: String,
}

impl Client {
    pub fn start(folder: &Path, options: &[&str]) -> Client {
        Client::of(Link::start(server(folder, options)).unwrap())
    }

    pub fn of(mut link: Link) -> Client {
        match link.receive_within(LONG).unwrap() {
            Reply::Welcome { protocol, root, .. } => assert_eq!((protocol, root.kind), (PROTOCOL, Kind::Folder)),
            other => panic!("{other:?}"),
        }
        Client { link, epochs: 0, numbers: 0, why: String::new() }
    }

    pub fn own(&mut self) -> Version {
        self.numbers += 1;
        Version::own(self.numbers)
    }

    pub fn send(&mut self, steps: Vec<Step>) -> u64 {
        self.epochs += 1;
        let number = self.epochs;
        self.link.send(Request::Epoch { number, falls_with_earlier: true, steps }).unwrap();
        number
    }

    pub fn reply(&mut self) -> io::Result<Reply> {
        self.link.receive_within(LONG)
    }

    /// Whether an epoch is accepted; a refusal is acknowledged.
    pub fn epoch(&mut self, steps: Vec<Step>) -> bool {
        let sent = self.send(steps);
        match self.reply().unwrap() {
            Reply::Accepted { number, .. } => {
                assert_eq!(number, sent);
                true
            }
            Reply::Refused { number, ref stale, ref folders } => {
                assert_eq!(number, sent);
                self.why = format!("stale {stale:?} folders {folders:?}");
                self.link.send(Request::Acknowledge { number }).unwrap();
                false
            }
            other => panic!("{other:?}"),
        }
    }

    pub fn entry(&mut self, text: &str) -> Entry {
        self.link.send(Request::Entry { id: 1, name: name(text) }).unwrap();
        match self.reply().unwrap() {
            Reply::Entries { entries, more: false, .. } => entries.into_iter().next().unwrap(),
            other => panic!("{other:?}"),
        }
    }

    pub fn version(&mut self, text: &str) -> Version {
        self.entry(text).version
    }

    pub fn read(&mut self, text: &str) -> (Version, Vec<u8>) {
        let mut all = Vec::new();
        loop {
            let offset = all.len() as u64;
            self.link.send(Request::Read { id: 2, name: name(text), offset, len: 1 << 20 }).unwrap();
            match self.reply().unwrap() {
                Reply::Content { version, size, bytes, .. } => {
                    all.extend_from_slice(&bytes.0);
                    if all.len() as u64 >= size {
                        return (version, all);
                    }
                }
                other => panic!("{other:?}"),
            }
        }
    }
}

pub fn put(text: &str, base: Version, new: Version, contents: &[u8]) -> Step {
    let content = Content::Whole(Body::Here(Bytes(contents.to_vec())));
    Step::Put { name: name(text), base, new, mode: 0o644, modified: 1_600_000_000_123_456_789, content }
}

/// Random numbers that are the same for the same seed.
pub struct Random(pub u64);

impl Random {
    pub fn below(&mut self, end: u64) -> u64 {
        self.0 ^= self.0 << 13;
        self.0 ^= self.0 >> 7;
        self.0 ^= self.0 << 17;
        (self.0 >> 11) % end
    }

    pub fn of<'a, T>(&mut self, all: &'a [T]) -> Option<&'a T> {
        if all.is_empty() {
            return None;
        }
        all.get(self.below(all.len() as u64) as usize)
    }
}

/// What a client knows of a folder whose names only it changes: steps that must hold.
#[derive(Clone, Default)]
pub struct Model {
    /// Each name's file, by a number of the test's; and each file's version and kind.
    pub names: BTreeMap<Name, usize>,
    pub files: Vec<(Version, Kind)>,
    clock: i64,
}

impl Model {
    pub fn new(client: &mut Client) -> Model {
        let version = client.version("");
        let mut model = Model { clock: 1_600_000_000_000_000_000, ..Model::default() };
        model.add(Name::root(), version, Kind::Folder);
        model
    }

    /// As of a folder that is there.
    pub fn read(client: &mut Client) -> Model {
        let mut model = Model { clock: 1_650_000_000_000_000_000, ..Model::default() };
        let mut of_file: HashMap<u64, usize> = HashMap::new();
        client.link.send(Request::Tree { id: 3, name: Name::root(), along: 0 }).unwrap();
        loop {
            let Reply::Entries { entries, more, .. } = client.reply().unwrap() else { panic!("no entries") };
            for entry in entries {
                let file = *of_file.entry(entry.file).or_insert_with(|| {
                    model.files.push((entry.version, entry.kind));
                    model.files.len() - 1
                });
                model.names.insert(entry.name, file);
            }
            if !more {
                return model;
            }
        }
    }

    fn add(&mut self, name: Name, version: Version, kind: Kind) {
        self.files.push((version, kind));
        self.names.insert(name, self.files.len() - 1);
    }

    pub fn version(&self, name: &Name) -> Version {
        self.names.get(name).map_or(Version::ABSENT, |file| self.files[*file].0)
    }

    pub fn kind(&self, name: &Name) -> Kind {
        self.names.get(name).map_or(Kind::Absent, |file| self.files[*file].1)
    }

    pub fn children(&self, folder: &Name) -> Vec<Name> {
        self.names.keys().filter(|name| !name.is_root() && name.parent() == *folder).cloned().collect()
    }

    fn some(&self, random: &mut Random, is: impl Fn(Kind) -> bool) -> Option<Name> {
        let names: Vec<&Name> = self.names.keys().filter(|name| is(self.kind(name))).collect();
        random.of(&names).map(|name| (*name).clone())
    }

    fn free(&self, random: &mut Random) -> Name {
        let parts: [&[u8]; 8] = [b"a", b"b", b"c", b"d", b"\xff\xfe", b"e f", b"g\nh", b".i"];
        let folder = self.some(random, |kind| kind == Kind::Folder).unwrap();
        folder.child(random.of(&parts).unwrap()).unwrap()
    }

    fn content(&mut self, random: &mut Random, is_new: bool) -> Content {
        let len = if random.below(20) == 0 { 40_000 } else { random.below(60) };
        let byte = random.below(256) as u8;
        let body = Body::Here(Bytes(vec![byte; len as usize]));
        match random.below(3) {
            0 if !is_new => Content::Changed { size: len + 10, parts: vec![(random.below(10), body)] },
            _ => Content::Whole(body),
        }
    }

    /// A step that holds and can be done, or none if the dice fell badly.
    pub fn step(&mut self, client: &mut Client, random: &mut Random) -> Option<Step> {
        self.clock += 1_000_000_007;
        let modified = self.clock;
        let mode = *random.of(&[0o644, 0o600, 0o755, 0o444]).unwrap();
        let is_leaf = |kind| kind == Kind::File || kind == Kind::Link;
        let step = match random.below(12) {
            0 => {
                let name = self.some(random, |_| true)?;
                Step::Look { version: self.version(&name), name }
            }
            1 => {
                let name = self.some(random, |kind| kind == Kind::Folder)?;
                let parts = self.children(&name);
                let sum = parts.iter().fold(NameSum::default(), |sum, name| sum.with(name.last(), self.kind(name)));
                Step::Names { name, sum }
            }
            2..=4 => {
                let free = self.free(random);
                let is_new = self.kind(&free) == Kind::Absent;
                let name = if is_new { free } else { self.some(random, |kind| kind == Kind::File)? };
                let content = self.content(random, is_new);
                Step::Put { base: self.version(&name), name, new: client.own(), mode, modified, content }
            }
            5 => Step::MakeFolder { name: self.free(random), new: client.own(), mode: 0o755 },
            6 => Step::MakeLink { name: self.free(random), new: client.own(), target: Bytes(b"../to/\xff".to_vec()) },
            7 => {
                let from = self.some(random, is_leaf)?;
                Step::Link { base: self.version(&from), from, to: self.free(random) }
            }
            8 => {
                let name = self.some(random, is_leaf)?;
                Step::Remove { base: self.version(&name), name }
            }
            9 => {
                let name = self.some(random, |kind| kind == Kind::Folder)?;
                Step::RemoveFolder { base: self.version(&name), name }
            }
            10 => {
                let from = self.some(random, |_| true)?;
                let to = if random.below(2) == 0 { self.free(random) } else { self.some(random, |_| true)? };
                Step::Rename { base: self.version(&from), from, over: self.version(&to), to }
            }
            _ => {
                let name = self.some(random, |kind| kind == Kind::File || kind == Kind::Folder)?;
                let modified = (self.kind(&name) == Kind::File).then_some(modified);
                let mode = if self.kind(&name) == Kind::Folder { 0o700 } else { mode };
                let new = client.own();
                Step::Attributes { base: self.version(&name), name, new, mode: Some(mode), modified }
            }
        };
        self.apply(&step).then_some(step)
    }

    /// Notes what a step makes; whether it can be done.
    fn apply(&mut self, step: &Step) -> bool {
        match step {
            Step::Look { .. } | Step::Names { .. } => {}
            Step::Put { name, new, .. } => match self.names.get(name) {
                Some(file) => self.files[*file].0 = *new,
                None => self.add(name.clone(), *new, Kind::File),
            },
            Step::MakeFolder { name, new, .. } | Step::MakeLink { name, new, .. } => {
                let kind = if matches!(step, Step::MakeFolder { .. }) { Kind::Folder } else { Kind::Link };
                if self.kind(name) != Kind::Absent {
                    return false;
                }
                self.add(name.clone(), *new, kind);
            }
            Step::Link { from, to, .. } => {
                if self.kind(to) != Kind::Absent {
                    return false;
                }
                self.names.insert(to.clone(), self.names[from]);
            }
            Step::Remove { name, .. } => drop(self.names.remove(name)),
            Step::RemoveFolder { name, .. } => {
                if name.is_root() || !self.children(name).is_empty() {
                    return false;
                }
                self.names.remove(name);
            }
            Step::Rename { from, to, .. } => return self.rename(from, to),
            Step::Attributes { name, new, .. } => {
                let file = self.names[name];
                self.files[file].0 = *new;
            }
        }
        true
    }

    fn rename(&mut self, from: &Name, to: &Name) -> bool {
        let (moved, over) = (self.kind(from), self.kind(to));
        let is_folder = moved == Kind::Folder;
        let fits = over == Kind::Absent || (over == Kind::Folder) == is_folder;
        let is_empty = over != Kind::Folder || self.children(to).is_empty();
        if from.is_root() || to.is_root() || to.is_within(from) || from.is_within(to) || !fits || !is_empty {
            return false;
        }
        if self.names.get(to) == self.names.get(from) {
            return true;
        }
        let below: Vec<Name> = self.names.keys().filter(|name| name.is_within(from)).cloned().collect();
        for name in below {
            let file = self.names.remove(&name).unwrap();
            self.names.insert(name.moved(from, to).unwrap(), file);
        }
        true
    }
}
