//! Options: words of the command line, and lines of a file.
use hidewillow::store::envelope::{ENVELOPE, ROOM_BEFORE};
use hidewillow::store::StoreLimits;
use std::fs;
use std::iter;
use std::net::ToSocketAddrs;
use std::ops::RangeInclusive;
use std::time::Duration;

pub const HELP: &str = "A store for clients of Redis's protocol: what it has answered is there after a crash.

Usage: hidewillow-server [--NAME VALUE]..

  --config FILE              lines of a name and a value, as here without the dashes; # begins a comment, and a value with
                             blanks stands between double quotes
  --address HOST:PORT        where clients connect [127.0.0.1:7379]
  --password WORD            what a client is to say by AUTH before all else [none]. A file keeps it from those who see command lines
  --no-password              lets whoever reaches the address do anything, where that isn't this machine alone; in a file `no-password yes`
  --clients NUMBER           connections at once, 1 to 10000, or as many as the system's handles allow [10000]
  --timeout SECONDS          after which a client is ended that says nothing [0, which is never]
  --output BYTES             that may wait to be sent to a client, which is ended where there are more [64m]
  --folder FOLDER            where the log is, made if it isn't there [.]
  --wait-for-folder SECONDS  that a start waits where another server has the folder [0]
  --segment BYTES            of a segment of the log [64m]
  --undecided BYTES          that may wait for the disk, at most a segment; a request has a quarter of it at most [32m]
  --batches NUMBER           of writes that may be under way at once, 1 to 63 [4]
  --snapshot BYTES           of the log after which a snapshot is made, once it has as many as the last snapshot [1g]
  --backups FOLDER           where BACKUP NAME leaves a folder of this name [backups, in the folder]
  --memory BYTES             from which on writes that add are refused [0, which is no limit]
  --log disk|etcd:HOST,..    where the log is: in the folder, or in an engine, by the addresses of its members for clients [disk]
  --prefix WORD              what the keys of the log begin with in the engine [hidewillow/]
  --lease SECONDS            after which another leads where a host is gone, 1 to 3600 [2]
  --copies HOST:PORT         where other hosts of a log in an engine copy this one's snapshot [127.0.0.1:0]
  --announce HOST[:PORT]     by which they reach that [the address itself]
  --compact off|engine       engine: all of the engine forgets what was before, others' keys too, each time the log is cut off [off]
  --clock untrusted|trusted  trusted: reads go out by this host's clock alone while the lease runs [untrusted]
  --accept-loss-from FRAME   starts on a damaged log without this frame, which the start before named, and all behind: they are given up
  --check [FOLDER]           says what a start on the folder would, on that of these options where none is named, and changes nothing. It
                             ends with 0; with 1 where a start would refuse; with 3 where it would drop something that no crash explains
  -h, --help                 prints this
  -V, --version              prints the version

BYTES may end in k, m or g, for 2^10, 2^20 and 2^30 of them. What comes later counts. The status is 0 after a stop, 1 where a
start or the running failed, and 2 where an option is wrong.
";

/// The line of the version.
pub const VERSION: &str = concat!("hidewillow-server ", env!("CARGO_PKG_VERSION"));

/// What may be undecided where the log is in an engine, which takes no larger batch.
const MOST_IN_ENGINE: u32 = 1 << 20;
/// As many handles are kept back for files, members of an engine and what else is opened, and one for each write that is under way.
const KEPT_BACK: u64 = 64;
/// The store has as many channels.
const MOST_CLIENTS: u64 = 10_000;
/// Bytes of the log after which snapshots are made there, and of its segments, at the most.
const LOG_IN_ENGINE: u64 = 128 << 20;
const SEGMENT_IN_ENGINE: u64 = 16 << 20;

/// What the words ask for.
pub enum Wish {
    Help,
    Version,
    /// Says what a start on this folder would.
    Check(String, Options),
    Serve(Options),
}

#[derive(Clone)]
pub struct Options {
    pub address: String,
    pub folder: String,
    /// The frame from which on a damaged log is given up.
    pub accept: Option<u64>,
    pub password: Vec<u8>,
    /// Whether it was said that there is none, though others than this machine reach the address.
    pub is_open: bool,
    /// How many clients there may be at once, after how long one is ended that says nothing, and how many bytes may wait for each.
    pub clients: usize,
    pub timeout: Option<Duration>,
    pub output: usize,
    /// How long a start waits for a folder that another server has.
    pub wait_for_folder: Duration,
    pub snapshot: u64,
    pub backups: Option<String>,
    pub memory: u64,
    /// The members of the engine, where the log lies in one; what its keys begin with; its lease in seconds; whether clocks are trusted.
    pub engine: Vec<String>,
    pub prefix: String,
    pub lease: u64,
    pub trusts_clock: bool,
    /// Where other hosts copy snapshots, and by which address they reach that; and whether the engine is compacted.
    pub copies: String,
    pub announce: Option<String>,
    pub compacts: bool,
    pub limits: StoreLimits,
}

/// A number, if it is one of these.
fn number(text: &str, of: RangeInclusive<u64>) -> Result<u64, String> {
    let number = text.parse().ok().filter(|it| of.contains(it));
    number.ok_or_else(|| format!("expected a number from {} to {}", of.start(), of.end()))
}

/// Bytes, as `64m`, if they are as many as that.
fn bytes(text: &str, of: RangeInclusive<u64>) -> Result<u64, String> {
    let (digits, unit) = text.split_at(text.find(|letter: char| !letter.is_ascii_digit()).unwrap_or(text.len()));
    let place = ["", "k", "m", "g"].iter().position(|it| *it == unit);
    let number = digits.parse::<u64>().ok().zip(place).and_then(|(it, place)| it.checked_mul(1 << (10 * place)));
    let expected =
        || format!("expected bytes from {} to {}, as 65536, 64k, 64m or 1g", short(*of.start()), short(*of.end()));
    number.filter(|it| of.contains(it)).ok_or_else(expected)
}

/// Bytes in the largest unit that they fill.
fn short(bytes: u64) -> String {
    let place = (0..3).rev().find(|place| bytes != 0 && bytes.is_multiple_of(1 << (10 * (place + 1))));
    place.map_or(bytes.to_string(), |place| format!("{}{}", bytes >> (10 * (place + 1)), ["k", "m", "g"][place]))
}

/// Seconds, up to a year.
fn seconds(text: &str) -> Result<Duration, String> {
    number(text, 0..=31_536_000).map(Duration::from_secs)
}

/// An address, as far as it has the form of one.
fn address(text: &str) -> Result<String, String> {
    let is_one = text.rsplit_once(':').is_some_and(|(host, port)| !host.is_empty() && port.parse::<u16>().is_ok());
    is_one.then(|| text.into()).ok_or_else(|| "expected HOST:PORT, as 127.0.0.1:7379".into())
}

/// One of two words: whether it is the second.
fn second_of(text: &str, words: [&str; 2]) -> Result<bool, String> {
    let place = words.iter().position(|it| *it == text);
    place.map(|it| it == 1).ok_or_else(|| format!("expected {} or {}", words[0], words[1]))
}

/// The value that a line of a file has behind a name: one word, or what stands between double quotes. A comment may follow.
fn value_in(rest: &str) -> Result<&str, String> {
    let quoted = rest.strip_prefix('"').map(|it| it.split_once('"').ok_or("a quote is not closed"));
    let (value, behind) = match quoted {
        Some(parts) => parts?,
        None => rest.split_at(rest.find(char::is_whitespace).unwrap_or(rest.len())),
    };
    let behind = behind.trim_start();
    if behind.is_empty() || behind.starts_with('#') {
        return Ok(value);
    }
    Err("expected one word, or a text between double quotes, and behind it at most a comment".into())
}

/// Whether others than this machine reach an address.
fn is_far(address: &str) -> bool {
    address.to_socket_addrs().is_ok_and(|mut all| all.any(|it| !it.ip().is_loopback()))
}

impl Options {
    /// The host and the port of the address.
    pub fn place(&self) -> (&str, &str) {
        self.address.rsplit_once(':').unwrap_or_default()
    }

    /// Takes a value; an error says what was expected.
    pub fn set(&mut self, name: &str, value: &str) -> Result<(), String> {
        match name {
            "address" => self.address = address(value)?,
            "password" if value.is_empty() => return Err("expected a word, and an empty one is none".into()),
            "password" => self.password = value.into(),
            "no-password" => self.is_open = second_of(value, ["no", "yes"])?,
            "clients" => self.clients = number(value, 1..=MOST_CLIENTS)? as usize,
            "timeout" => self.timeout = Some(seconds(value)?).filter(|it| !it.is_zero()),
            "output" => self.output = bytes(value, 1 << 20..=1 << 40)? as usize,
            "wait-for-folder" => self.wait_for_folder = seconds(value)?,
            "folder" => self.folder = value.into(),
            "snapshot" => self.snapshot = bytes(value, 1..=1 << 50)?,
            "backups" => self.backups = Some(value.into()),
            "memory" => self.memory = bytes(value, 0..=1 << 50)?,
            "accept-loss-from" => self.accept = Some(number(value, 1..=1 << 56)?),
            "log" => match value.strip_prefix("etcd:") {
                Some(members) => self.engine = members.split(',').map(String::from).collect(),
                None if value == "disk" => self.engine.clear(),
                None => return Err("expected disk, or etcd:HOST:PORT,..".into()),
            },
            "prefix" => self.prefix = value.into(),
            "copies" => self.copies = address(value)?,
            "announce" => self.announce = Some(value.into()),
            "compact" => self.compacts = second_of(value, ["off", "engine"])?,
            "lease" => self.lease = number(value, 1..=3600)?,
            "clock" => self.trusts_clock = second_of(value, ["untrusted", "trusted"])?,
            "segment" => self.limits.segment = bytes(value, 64 << 10..=1 << 40)?,
            "undecided" => self.limits.undecided = bytes(value, 4 << 10..=128 << 20)? as u32,
            "batches" => self.limits.in_flight = number(value, 1..=63)? as u16,
            _ => return Err("no option is called so".into()),
        }
        Ok(())
    }

    /// Takes a line of a file, which says nothing or a name and a value.
    fn take_line(&mut self, line: &str) -> Result<(), String> {
        if line.is_empty() || line.starts_with('#') {
            return Ok(());
        }
        let (name, rest) =
            line.split_once(char::is_whitespace).ok_or_else(|| format!("{line}: expected a value behind it"))?;
        let did = value_in(rest.trim_start()).and_then(|value| self.set(name, value));
        let shown = if name == "password" { name } else { line };
        did.map_err(|error| format!("{shown}: {error}"))
    }

    fn read(&mut self, path: &str) -> Result<(), String> {
        let text = fs::read_to_string(path).map_err(|error| format!("--config {path}: {error}"))?;
        let mut lines = (1..).zip(text.lines().map(str::trim));
        lines.try_for_each(|(number, line)| self.take_line(line).map_err(|error| format!("{path}:{number}: {error}")))
    }

    /// What is so where nothing is said.
    fn usual() -> Options {
        let limits = StoreLimits {
            words: 0,
            bytes: 0,
            line: 64 << 10,
            waiting: 1 << 20,
            segment: 64 << 20,
            undecided: 32 << 20,
            commands: 1_000_000,
            in_flight: 4,
        };
        Options {
            address: "127.0.0.1:7379".into(),
            folder: ".".into(),
            accept: None,
            password: Vec::new(),
            is_open: false,
            clients: MOST_CLIENTS as usize,
            timeout: None,
            output: 64 << 20,
            wait_for_folder: Duration::ZERO,
            snapshot: 1 << 30,
            backups: None,
            memory: 0,
            engine: Vec::new(),
            prefix: "hidewillow/".into(),
            lease: 2,
            trusts_clock: false,
            copies: "127.0.0.1:0".into(),
            announce: None,
            compacts: false,
            limits,
        }
    }

    /// So many handles may be open: as many as files may want are kept back from clients.
    pub fn has_handles(&mut self, handles: u64) {
        let most = self.most_clients(handles);
        if self.clients > most {
            say!("{most} clients may be here at once, as the system allows {handles} handles");
            self.clients = most;
        }
    }

    /// How many clients there may be where so many handles may be open.
    pub fn most_clients(&self, handles: u64) -> usize {
        handles.saturating_sub(KEPT_BACK + u64::from(self.limits.in_flight)).max(1) as usize
    }

    /// These, as far as they go together.
    fn fitted(mut self, is_check: bool) -> Result<Options, String> {
        let (limits, is_of_engine) = (&mut self.limits, !self.engine.is_empty());
        if is_of_engine {
            limits.undecided = limits.undecided.min(MOST_IN_ENGINE);
            limits.segment = limits.segment.min(SEGMENT_IN_ENGINE);
            self.snapshot = self.snapshot.min(LOG_IN_ENGINE);
        }
        (limits.bytes, limits.words) = (limits.undecided as usize / 4, limits.undecided as usize / 64);
        // A head, and a frame of all that is undecided, each with what stands before it.
        if u64::from(limits.undecided) + 48 + (ROOM_BEFORE + ENVELOPE) as u64 > limits.segment {
            return Err(format!(
                "--undecided {}: more than a segment has, by --segment {}",
                short(limits.undecided.into()),
                short(limits.segment)
            ));
        }
        let is_guarded = is_check || self.is_open || !self.password.is_empty();
        let mut reached =
            iter::once(("--address", &self.address)).chain(is_of_engine.then_some(("--copies", &self.copies)));
        if let Some((name, address)) = reached.find(|(_, address)| !is_guarded && is_far(address)) {
            return Err(format!(
                "{name} {address}: others than this machine reach it: --password, or --no-password where all of them may do anything"
            ));
        }
        Ok(self)
    }
}

impl Wish {
    /// Takes words, by twos where a name wants a value; what comes later counts. An error names the word, or the file and its line.
    pub fn of(words: &[String]) -> Result<Wish, String> {
        let (mut options, mut check, mut words) = (Options::usual(), None, words.iter().map(String::as_str).peekable());
        while let Some(word) = words.next() {
            let name = match word {
                "-h" | "--help" => return Ok(Wish::Help),
                "-V" | "--version" => return Ok(Wish::Version),
                _ => word.strip_prefix("--").ok_or_else(|| format!("{word}: options begin with --"))?,
            };
            match name {
                "no-password" => options.is_open = true,
                "check" => check = Some(words.next_if(|it| !it.starts_with("--")).map(String::from)),
                _ => {
                    let value = words.next().ok_or_else(|| format!("{word}: expected a value behind it"))?;
                    if name == "config" {
                        options.read(value)?;
                    } else {
                        options.set(name, value).map_err(|error| format!("{word} {value}: {error}"))?;
                    }
                }
            }
        }
        let options = options.fitted(check.is_some())?;
        Ok(match check {
            Some(folder) => Wish::Check(folder.unwrap_or(options.folder.clone()), options),
            None => Wish::Serve(options),
        })
    }
}

#[cfg(test)]
mod tests {
    use super::{value_in, Options, Wish};

    /// The fault of these words.
    fn fault(words: &str) -> String {
        let words: Vec<String> = words.split(' ').map(String::from).collect();
        Wish::of(&words).err().expect("they are at fault")
    }

    #[test]
    fn a_fault_names_its_option_and_value() {
        assert_eq!(fault("--segment 5q"), "--segment 5q: expected bytes from 64k to 1024g, as 65536, 64k, 64m or 1g");
        assert_eq!(fault("--batches 64"), "--batches 64: expected a number from 1 to 63");
        assert_eq!(fault("--address 7379"), "--address 7379: expected HOST:PORT, as 127.0.0.1:7379");
        assert_eq!(fault("--copies x:y"), "--copies x:y: expected HOST:PORT, as 127.0.0.1:7379");
        assert_eq!(fault("--clock x"), "--clock x: expected untrusted or trusted");
        assert_eq!(fault("--folder"), "--folder: expected a value behind it");
        assert_eq!(fault("--foldr x"), "--foldr x: no option is called so");
        assert_eq!(fault("folder x"), "folder: options begin with --");
        assert!(fault("--address 0.0.0.0:1").starts_with("--address 0.0.0.0:1: others than this machine reach it"));
    }

    #[test]
    fn a_line_of_a_file_may_end_in_a_comment() {
        let mut options = Options::usual();
        for line in ["", "# all", "segment 1m # small", "folder \"a b # c\"  # quoted", "password secret"] {
            options.take_line(line).expect("it is sound");
        }
        assert_eq!(
            (options.limits.segment, options.folder.as_str(), options.password.as_slice()),
            (1 << 20, "a b # c", &b"secret"[..])
        );
        let fault = options.take_line("password a b").expect_err("a value is one word");
        assert_eq!(
            fault,
            "password: expected one word, or a text between double quotes, and behind it at most a comment"
        );
        assert!(value_in("\"open").is_err());
        assert_eq!(options.take_line("lease 0").expect_err("none"), "lease 0: expected a number from 1 to 3600");
    }

    #[test]
    fn a_check_may_name_its_folder_or_have_that_of_the_options() {
        let words = |text: &str| text.split(' ').map(String::from).collect::<Vec<String>>();
        for (text, wanted) in [("--check x --folder y", "x"), ("--folder y --check", "y"), ("--check --folder y", "y")]
        {
            match Wish::of(&words(text)) {
                Ok(Wish::Check(folder, _)) => assert_eq!(folder, wanted),
                _ => panic!("{text} is a check"),
            }
        }
    }
}
