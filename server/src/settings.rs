//! What is set, as clients ask for it by `CONFIG`: by the names that they know, and some of the server's own.
use crate::glob;
use crate::options::Options;
use crate::resp::{bulk, error, plain, wrong_number, Reply};

/// A setting: its name, what it is, and the option that it is, where that may change.
struct Setting(&'static str, fn(&Options) -> String, Option<&'static str>);

#[rustfmt::skip]
const SETTINGS: [Setting; 18] = [
    Setting("appendfsync", |_| "always".into(), None),
    Setting("appendonly", |_| "yes".into(), None),
    Setting("batches", |it| it.limits.in_flight.to_string(), None),
    Setting("bind", |it| it.place().0.into(), None),
    Setting("databases", |_| "1".into(), None),
    Setting("dir", |it| it.folder.clone(), None),
    Setting("maxclients", |it| it.clients.to_string(), Some("clients")),
    Setting("maxmemory", |it| it.memory.to_string(), Some("memory")),
    Setting("maxmemory-policy", |_| "noeviction".into(), None),
    Setting("output", |it| it.output.to_string(), Some("output")),
    Setting("port", |it| it.place().1.into(), None),
    Setting("proto-max-bulk-len", |it| it.limits.bytes.to_string(), None),
    Setting("save", |_| String::new(), None),
    Setting("segment", |it| it.limits.segment.to_string(), None),
    Setting("snapshot", |it| it.snapshot.to_string(), Some("snapshot")),
    Setting("tcp-keepalive", |_| "300".into(), None),
    Setting("timeout", |it| it.timeout.map_or(0, |it| it.as_secs()).to_string(), Some("timeout")),
    Setting("undecided", |it| it.limits.undecided.to_string(), None),
];

/// The settings whose names are of any of these patterns.
pub fn get(options: &Options, patterns: &[&[u8]]) -> Reply {
    let is_asked = |name: &str| patterns.iter().any(|pattern| glob::is_of(pattern, name.as_bytes()));
    let asked = SETTINGS.iter().filter(|Setting(name, ..)| is_asked(name));
    Reply::Map(asked.map(|Setting(name, of, _)| (bulk(*name), bulk(of(options)))).collect())
}

/// Options with other values of some, by twos: all of them, or none where one is at fault. One that is so already may be set to it.
pub fn set(options: &Options, words: &[&[u8]]) -> Result<Options, Reply> {
    let (mut changed, mut seen) = (options.clone(), Vec::new());
    for pair in words.chunks(2) {
        let [name, value] = pair else { return Err(wrong_number("config|set")) };
        let found = SETTINGS.iter().find(|Setting(it, ..)| name.eq_ignore_ascii_case(it.as_bytes()));
        let unknown = || error(format!("Unknown option or number of arguments for CONFIG SET - '{}'", plain(name)));
        let Setting(name, of, option) = found.ok_or_else(unknown)?;
        let fault = |why: &str| error(format!("CONFIG SET failed (possibly related to argument '{name}') - {why}"));
        if seen.contains(name) {
            return Err(fault("duplicate parameter"));
        }
        seen.push(*name);
        let value = plain(value).to_ascii_lowercase();
        if of(options) != value {
            let option = option.ok_or_else(|| fault("can't set immutable config"))?;
            changed.set(option, in_units(&value)).map_err(|why| fault(&why))?;
        }
    }
    Ok(changed)
}

/// A number with its unit as options have it: clients say `mb`.
fn in_units(value: &str) -> &str {
    value.strip_suffix('b').filter(|it| it.ends_with(['k', 'm', 'g'])).unwrap_or(value)
}
