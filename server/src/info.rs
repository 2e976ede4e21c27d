//! What is counted, and told.
use crate::house::House;
use crate::server::Server;
use crate::trusted::system;
use hidewillow::store::envelope::Ending;
use hidewillow::store::log::Segments;
use hidewillow::store::reading::Walked;
use hidewillow::store::recovery::{found, Found};
use hidewillow::store::StoreCounts;
use std::time::Instant;
use std::{fs, process};

/// So many keys are counted in a few milliseconds. Of more it is told how many they were when they were counted last.
const FEW: u64 = 1000;
/// The version of the usual server whose names and replies clients find here, as far as its commands are there.
const LIKE: &str = "7.0.0";
/// The system counts the time of processors in so many parts of a second.
const TICKS: f64 = 100.0;

/// In words what was read of a folder, a line for each file.
pub fn read(read: &Found) -> String {
    let mut lines = Vec::new();
    if let Some(Ending { pieces, entries, bytes, .. }) = read.ending {
        let kept = read.kept;
        lines.push(format!(
            "snapshot up to segment {kept}: {pieces} pieces, {entries} entries, {bytes} bytes, and its end"
        ));
    }
    for Walked { segment, first, next, place, rest, .. } in &read.walked {
        let frames = first.map_or("no frame".into(), |first| format!("frames {first} to {}", next - 1));
        lines.push(format!("segment {segment}: {frames}, up to byte {place}; {rest} bytes behind"));
    }
    let stopped = read.said.map(|said| said.mark).filter(|mark| mark.is_stopped && mark.known + 1 == read.counts.next);
    lines.push(stopped.map_or("it was not stopped", |_| "it was stopped, and all is there").into());
    lines.push(found(&read.counts));
    if !read.is_explained {
        lines.push("no crash explains that".into());
    }
    lines.join("\n")
}

/// Names, and what they have.
type Lines = Vec<(&'static str, String)>;

fn lines(numbers: &[(&'static str, u64)]) -> Lines {
    numbers.iter().map(|(name, number)| (*name, number.to_string())).collect()
}

/// The seconds that a processor has worked for this process: by itself, and for the system.
fn processor() -> Lines {
    let text = fs::read_to_string("/proc/self/stat").unwrap_or_default();
    let of = |place: usize| text.rsplit(')').next()?.split(' ').nth(place)?.parse::<f64>().ok();
    let ticks = [("used_cpu_user", of(12)), ("used_cpu_sys", of(13))];
    ticks.into_iter().filter_map(|(name, it)| Some((name, format!("{:.2}", it? / TICKS)))).collect()
}

impl Server {
    /// How many keys there are as they were counted last: now if it is asked for, or if there are few.
    fn keys(&mut self, is_now: bool) -> u64 {
        let (keys, _, commands) = self.house.keys;
        if is_now || keys + self.house.commands - commands <= FEW {
            if let Some(keys) = self.channels.count_keys() {
                self.house.keys = (keys, Instant::now(), self.house.commands);
            }
        }
        self.house.keys.0
    }

    /// Of the program, and of the version of the usual server whose replies its own are like.
    fn of_server(&self) -> Lines {
        let uptime = self.house.begun.elapsed().as_secs();
        let numbers = [
            ("arch_bits", u64::from(usize::BITS)),
            ("process_id", process::id().into()),
            ("uptime_in_seconds", uptime),
            ("uptime_in_days", uptime / 86_400),
        ];
        let words = [
            ("redis_version", LIKE),
            ("server_name", "hidewillow"),
            ("hidewillow_version", env!("CARGO_PKG_VERSION")),
            ("redis_mode", "standalone"),
            ("os", "Linux"),
            ("multiplexing_api", "epoll"),
            ("tcp_port", self.house.options.place().1),
        ];
        words.map(|(name, it)| (name, it.into())).into_iter().chain(lines(&numbers)).collect()
    }

    /// Who is here, who was let in, and who was not, or ended.
    fn of_guests(&self) -> Lines {
        let House { wrong, of_web, turned_away, owed, silent, ref waiting, ref options, .. } = self.house;
        lines(&[
            ("connected_clients", self.channels.count() as u64),
            ("maxclients", options.clients as u64),
            ("blocked_clients", waiting.len() as u64),
            ("clients_at_most", options.clients as u64),
            ("clients_turned_away", turned_away),
            ("clients_owed_too_much", owed),
            ("clients_silent", silent),
            ("wrong_passwords", wrong),
            ("web_requests", of_web),
            ("bytes_for_clients", self.channels.waiting() as u64),
        ])
    }

    fn of_memory(&self) -> Lines {
        let mut told = lines(&[("used_memory", system::memory()), ("maxmemory", self.house.options.memory)]);
        told.push(("maxmemory_policy", "noeviction".into()));
        told
    }

    /// The log and the disk, and how long these and the snapshot are, where the log has segments.
    fn of_log(&self) -> Lines {
        let (lacks_room, keeper) = (!self.channels.log().has_room(), &self.house.keeper);
        let numbers = [("loading", 0), ("rdb_bgsave_in_progress", keeper.is_keeping.into()), ("aof_enabled", 1)];
        let mut told = lines(&numbers);
        told.push(("aof_last_write_status", if lacks_room { "err" } else { "ok" }.into()));
        if let Some(Segments { written, last_bytes, .. }) = self.channels.log().segments() {
            let full = (written - 1).saturating_sub(keeper.kept) * self.house.options.limits.segment;
            told.extend(lines(&[
                ("log_bytes", full + last_bytes),
                ("log_segment", written),
                ("snapshot_bytes", keeper.bytes),
                ("snapshot_segment", keeper.kept),
            ]));
        }
        told.push(("lacks_room", u8::from(lacks_room).to_string()));
        told.extend(lines(&self.channels.log().counts().lines()));
        told
    }

    /// What is undecided, and what was carried out.
    fn of_store(&mut self) -> Lines {
        let StoreCounts { undecided, in_flight, open_batches, answers, .. } = self.channels.counts();
        let House { commands, logged, refused, kept, taken_back, keys: (keys, counted, _), .. } = self.house;
        let of_log = *self.channels.log().counts();
        lines(&[
            ("keys", keys),
            ("keys_counted_seconds_ago", counted.elapsed().as_secs()),
            ("commands", commands),
            ("commands_a_sync", commands / of_log.syncs.max(1)),
            ("commands_a_batch", commands / (logged + refused).max(1)),
            ("replies_held", answers as u64),
            ("sync_mean_microseconds", of_log.micros / of_log.syncs.max(1)),
            ("undecided_bytes", undecided as u64),
            ("undecided_batches", open_batches as u64),
            ("frames_in_flight", in_flight),
            ("batches_logged", logged),
            ("batches_refused", refused),
            ("batches_kept", kept as u64),
            ("keys_taken_back", taken_back as u64),
        ])
    }

    /// What the usual server counts, by its names.
    fn of_commands(&self) -> Lines {
        lines(&[
            ("total_connections_received", self.house.connected),
            ("total_commands_processed", self.house.commands),
            ("rejected_connections", self.house.turned_away),
            ("expired_keys", 0),
            ("evicted_keys", 0),
        ])
    }

    /// What is counted, a line for each: of these sections, or of all. Keys are counted now if it is asked for.
    pub fn info(&mut self, of: &[&[u8]]) -> String {
        let is_asked = |name: &str| of.iter().any(|word| word.eq_ignore_ascii_case(name.as_bytes()));
        let is_all = of.is_empty() || ["all", "default", "everything", "keys"].into_iter().any(is_asked);
        let keys = self.keys(is_asked("keys"));
        let sections = [
            ("Server", self.of_server()),
            ("Clients", self.of_guests()),
            ("Memory", self.of_memory()),
            ("Persistence", self.of_log()),
            ("Stats", self.of_commands()),
            ("Replication", vec![("role", "master".into()), ("connected_slaves", "0".into())]),
            ("CPU", processor()),
            ("Cluster", lines(&[("cluster_enabled", 0)])),
            ("Store", self.of_store()),
            ("Keyspace", if keys > 0 { vec![("db0", format!("keys={keys},expires=0,avg_ttl=0"))] } else { Vec::new() }),
        ];
        let asked = sections.iter().filter(|(name, _)| is_all || is_asked(name));
        let texts = asked.map(|(name, lines)| {
            let lines = lines.iter().map(|(name, it)| format!("{name}:{it}\r\n"));
            format!("# {name}\r\n{}", lines.collect::<String>())
        });
        texts.collect::<Vec<_>>().join("\r\n")
    }
}
