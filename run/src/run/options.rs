//! The command line.
use crate::client::Place;
use std::ffi::OsString;
use std::path::PathBuf;
use std::time::Duration;

pub const HELP: &str = "\
Runs a command over a folder of another machine, and lets it go on from what is likely.

Usage: hidewillow-run --at PLACE [OPTION].. -- COMMAND ..

  --at PLACE        the folder: ssh:HOST:FOLDER, where HOST has hidewillow-files on its PATH; local:FOLDER; or tcp:PORT:SECRETFILE
  --mount DIR       where it is seen [where the command begins]
  --scratch DIR     a folder of this machine that is undone with it; may be said again [/tmp]
  --strict          each call waits for its reply
  --resume          where the server is lost, what is decided waits for it to come back
  --why             says once of each kind of call that waits why it does
  --stats[=FILE]    counts, to standard error or into a file
  --trace FILE      each call, into a file
  -h, --help        prints this
  -V, --version     prints the version

The status is the command's; 2 where an option is wrong, and 75 where the server is lost.
";

#[derive(Clone, Debug)]
pub struct Options {
    pub at: Place,
    /// Where the folder is seen; `None`: where the command begins.
    pub mount: Option<PathBuf>,
    /// Folders of this machine that are undone like the mount.
    pub scratch: Vec<PathBuf>,
    /// Each call waits for its reply.
    pub strict: bool,
    /// Where the server is lost, what is decided waits for it to come back.
    pub resume: bool,
    /// What waits says once why.
    pub why: bool,
    pub stats: Option<Option<PathBuf>>,
    pub trace: Option<PathBuf>,
    /// An epoch is at least this long.
    pub epoch: Duration,
    /// For tests: attributes are believed so long, as other clients do.
    pub believe: Duration,
    pub command: Vec<OsString>,
    /// What the folders for saved names are called by: different for each that runs.
    pub tag: u32,
}

/// The scratch folder where none is told.
const SCRATCH: &str = "/tmp";

fn path_of(value: Option<OsString>, of: &str) -> Result<PathBuf, String> {
    value.map(PathBuf::from).ok_or_else(|| format!("{of} wants a value"))
}
fn text_of(value: Option<OsString>, of: &str) -> Result<String, String> {
    value.and_then(|v| v.into_string().ok()).ok_or_else(|| format!("{of} wants a value"))
}
fn seconds_of(value: Option<OsString>, of: &str) -> Result<Duration, String> {
    let text = text_of(value, of)?;
    let seconds: f64 = text.parse().map_err(|_| format!("{of}: {text:?} is no number"))?;
    Duration::try_from_secs_f64(seconds).map_err(|e| format!("{of}: {e}"))
}

impl Default for Options {
    fn default() -> Options {
        Options {
            at: Place::Local { folder: String::new() },
            mount: None,
            scratch: Vec::new(),
            strict: false,
            resume: false,
            why: false,
            stats: None,
            trace: None,
            epoch: Duration::from_millis(10),
            believe: Duration::ZERO,
            command: Vec::new(),
            tag: std::process::id(),
        }
    }
}

impl Options {
    pub fn parse(args: impl IntoIterator<Item = OsString>) -> Result<Options, String> {
        let mut args = args.into_iter();
        let mut at = None;
        let mut o = Options::default();
        while let Some(a) = args.next() {
            match a.to_str() {
                Some("--at") => {
                    at = Some(text_of(args.next(), "--at")?.parse::<Place>().map_err(|e| format!("--at: {e}"))?);
                }
                Some("--mount") => o.mount = Some(path_of(args.next(), "--mount")?),
                Some("--scratch") => o.scratch.push(path_of(args.next(), "--scratch")?),
                Some("--strict") => o.strict = true,
                Some("--resume") => o.resume = true,
                Some("--why") => o.why = true,
                Some("--stats") => o.stats = Some(None),
                Some("--trace") => o.trace = Some(path_of(args.next(), "--trace")?),
                Some("--epoch-seconds") => o.epoch = seconds_of(args.next(), "--epoch-seconds")?,
                Some("--believe-seconds") => o.believe = seconds_of(args.next(), "--believe-seconds")?,
                Some("--") => break,
                Some(x) if x.starts_with("--stats=") => o.stats = Some(Some(x[8..].into())),
                _ => return Err(format!("{} is no option", a.to_string_lossy())),
            }
        }
        o.command = args.collect();
        o.at = at.ok_or("--at is missing")?;
        if o.scratch.is_empty() {
            o.scratch.push(SCRATCH.into());
        }
        if o.command.is_empty() {
            return Err("the command is missing".into());
        }
        Ok(o)
    }
}

#[cfg(test)]
mod tests {
    use super::*;

    fn parse(text: &str) -> Result<Options, String> {
        Options::parse(text.split_whitespace().map(OsString::from))
    }

    #[test]
    fn what_is_told() {
        let o = parse("--at local:/a --mount /b --scratch /c --strict --stats=/s -- make -j2 --at x").unwrap();
        assert_eq!((o.mount, o.scratch), (Some("/b".into()), vec!["/c".into()]));
        assert!(o.strict && !o.why && o.stats == Some(Some("/s".into())));
        assert_eq!(o.command, ["make", "-j2", "--at", "x"]);
        assert_eq!(parse("--at local:/a -- true").unwrap().scratch, [PathBuf::from(SCRATCH)]);
        for text in ["", "-- true", "--at local:/a", "--at nowhere -- true", "--at local:/a --odd -- true", "--at"] {
            assert!(parse(text).is_err(), "{text}");
        }
    }
}
