//! What was done, in numbers; and why something waited, once each.
use std::collections::BTreeMap;
use std::fmt::Write as _;
use std::fs::File;
use std::io::Write as _;
use std::path::Path;
use std::time::{Duration, Instant};

#[derive(Default)]
pub struct Stats {
    pub stops: u64,
    /// Places in programs from which calls on this machine's paths aren't stopped any more.
    pub inside: u64,
    pub calls: u64,
    pub guesses: u64,
    pub waits: u64,
    pub fetches: u64,
    pub stores: u64,
    pub stored_bytes: u64,
    /// Files that others changed while they were written here.
    pub merged: u64,
    pub epochs: u64,
    pub checkpoints: u64,
    /// How long each of them took.
    pub checkpoint_times: Vec<Duration>,
    pub copies: u64,
    pub kept_copies: u64,
    pub rollbacks: u64,
    pub rollback_time: Duration,
    pub refused_waits: u64,
    pub outside: u64,
    pub handling_time: Duration,
    pub most_undecided: usize,
}

/// Says once of each reason that something waits for it.
pub struct Why {
    says: bool,
    pub reasons: BTreeMap<String, u64>,
}

impl Why {
    pub fn new(says: bool) -> Why {
        Why { says, reasons: BTreeMap::new() }
    }
    pub fn waits(&mut self, reason: &str) {
        match self.reasons.get_mut(reason) {
            Some(n) => *n += 1,
            None => {
                self.reasons.insert(reason.to_owned(), 1);
                if self.says {
                    eprintln!("hidewillow-run: calls wait for their replies: {reason}");
                }
            }
        }
    }
}

/// Events as lines of JSON, in milliseconds since the start.
pub struct Trace {
    to: Option<File>,
    start: Instant,
    /// How much was said, and how much shown, as told last.
    output: (u64, u64),
}

impl Trace {
    pub fn open(to: Option<&Path>) -> std::io::Result<Trace> {
        Ok(Trace { to: to.map(File::create).transpose()?, start: Instant::now(), output: (0, 0) })
    }
    /// What the command has said so far, and what of it was shown.
    pub fn output(&mut self, said: u64, shown: u64) {
        if said != self.output.0 {
            self.note("said", &[("bytes", said)]);
        }
        if shown != self.output.1 {
            self.note("shown", &[("bytes", shown)]);
        }
        self.output = (said, shown);
    }
    pub fn is_on(&self) -> bool {
        self.to.is_some()
    }
    pub fn note(&mut self, what: &str, fields: &[(&str, u64)]) {
        self.note_named(what, fields, None);
    }
    /// With a word that tells of what it is.
    pub fn note_named(&mut self, what: &str, fields: &[(&str, u64)], name: Option<&str>) {
        let Some(f) = &mut self.to else { return };
        let ms = self.start.elapsed().as_secs_f64() * 1e3;
        let mut line = format!("{{\"at\":{ms:.3},\"what\":\"{what}\"");
        for (name, value) in fields {
            let _ = write!(line, ",\"{name}\":{value}");
        }
        if let Some(name) = name {
            let plain: String = name.chars().filter(|c| c.is_ascii_graphic() && !['"', '\\'].contains(c)).collect();
            let _ = write!(line, ",\"name\":\"{plain}\"");
        }
        let _ = writeln!(f, "{line}}}");
    }
}

/// What half of them are not longer than.
fn median(all: &[Duration]) -> Duration {
    let mut all = all.to_vec();
    all.sort_unstable();
    all.get(all.len() / 2).copied().unwrap_or_default()
}

impl Stats {
    pub fn report(&self, wall: Duration, why: &Why, traffic: (u64, u64)) -> String {
        let mut t = String::new();
        let each = |d: Duration, n: u64| if n == 0 { 0.0 } else { d.as_secs_f64() * 1e6 / n as f64 };
        let mut line = |name: &str, value: String| {
            let _ = writeln!(t, "{name} {value}");
        };
        line("wall_ms", format!("{:.1}", wall.as_secs_f64() * 1e3));
        line("stops", self.stops.to_string());
        line("inside", self.inside.to_string());
        line("calls", self.calls.to_string());
        line("guesses", self.guesses.to_string());
        line("waits", self.waits.to_string());
        line("fetches", self.fetches.to_string());
        line("stores", format!("{} bytes {}", self.stores, self.stored_bytes));
        line("merged", self.merged.to_string());
        line("epochs", self.epochs.to_string());
        let us = each(self.checkpoint_times.iter().sum(), self.checkpoints);
        let half = median(&self.checkpoint_times).as_secs_f64() * 1e6;
        line("checkpoints", format!("{} us_each {us:.0} half_within {half:.0}", self.checkpoints));
        line("copies", format!("{} kept {}", self.copies, self.kept_copies));
        let us = each(self.rollback_time, self.rollbacks);
        line("rollbacks", format!("{} us_each {us:.0}", self.rollbacks));
        line("refused_waits", self.refused_waits.to_string());
        line("outside", self.outside.to_string());
        line("most_undecided", self.most_undecided.to_string());
        line("handling_us_each", format!("{:.1}", each(self.handling_time, self.stops)));
        line("bytes", format!("{} out {} in", traffic.0, traffic.1));
        for (reason, n) in &why.reasons {
            line("waited", format!("{n} {reason}"));
        }
        t
    }
}
