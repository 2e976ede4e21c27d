//! The power goes at random moments: what was accepted is there, and an epoch is done or isn't. Names come to the disk in order, as a
//! file system with a journal brings them; contents come when they are written out or synced.
mod common;
use common::*;
use hidewillow_run::wire::*;
use std::collections::HashMap;
use std::ffi::OsString;
use std::fs;
use std::os::unix::ffi::OsStringExt;
use std::os::unix::fs::MetadataExt;
use std::path::{Path, PathBuf};
use std::process::{Command, Stdio};

fn shim() -> PathBuf {
    let path = folder("shim").join("shim.so");
    let source = Path::new(env!("CARGO_MANIFEST_DIR")).join("tests/shim.c");
    let made = Command::new("cc").args(["-O1", "-shared", "-fPIC", "-o"]).arg(&path).arg(source).status().unwrap();
    assert!(made.success());
    path
}

struct Room {
    served: PathBuf,
    held: PathBuf,
    shim: PathBuf,
}

impl Room {
    fn new(shim: &Path) -> Room {
        let room = folder("power");
        let (served, held) = (room.join("served"), room.join("held"));
        fs::create_dir(&served).unwrap();
        fs::create_dir(&held).unwrap();
        Room { served, held, shim: shim.into() }
    }

    fn start(&self, options: &[&str]) -> Client {
        let mut command = server(&self.served, options);
        command.env("LD_PRELOAD", &self.shim).env("SHIM_FOLDER", &self.served).env("SHIM_HELD", &self.held);
        command.stderr(Stdio::null());
        Client::of(hidewillow_run::client::Link::start(command).unwrap())
    }

    fn path(text: &str) -> PathBuf {
        let bytes = text.chars().map(|byte| if byte == '\u{1}' { b'\n' } else { byte as u8 });
        PathBuf::from(OsString::from_vec(bytes.collect()))
    }

    fn held(&self, number: &str) -> PathBuf {
        self.held.join(number)
    }

    /// Takes back what isn't on the disk, of names some at random.
    fn lose_power(&self, random: &mut Random) {
        let lines = fs::read(self.held.join("lines")).unwrap();
        // Names are any bytes: each is a character here.
        let text: String = lines.into_iter().map(char::from).collect();
        let lines: Vec<Vec<&str>> = text.lines().map(|line| line.split('\t').collect()).collect();
        let synced = lines.iter().rposition(|line| matches!(line[0], "names" | "file" | "all")).map_or(0, |at| at + 1);
        let cut = synced + random.below((lines.len() - synced + 1) as u64) as usize;
        self.lose_contents(&lines[..], cut, random);
        for line in lines[cut..].iter().rev() {
            self.take_back(line);
        }
        fs::remove_dir_all(&self.held).unwrap();
        fs::create_dir(&self.held).unwrap();
    }

    fn take_back(&self, line: &[&str]) {
        match line {
            ["make", path] => {
                let path = Room::path(path);
                if path.symlink_metadata().unwrap().is_dir() {
                    fs::remove_dir(path).unwrap();
                } else {
                    fs::remove_file(path).unwrap();
                }
            }
            ["move", to, from, number] => {
                fs::rename(Room::path(to), Room::path(from)).unwrap();
                if *number != "0" {
                    fs::hard_link(self.held(number), Room::path(to)).unwrap();
                }
            }
            ["gone", path, number] => fs::hard_link(self.held(number), Room::path(path)).unwrap(),
            ["folder", path, number] => fs::rename(self.held(number), Room::path(path)).unwrap(),
            _ => {}
        }
    }

    /// Contents that were not written out before a sync may be as before, or not.
    fn lose_contents(&self, lines: &[Vec<&str>], cut: usize, random: &mut Random) {
        let mut unsynced: HashMap<u64, (PathBuf, bool)> = HashMap::new();
        for (at, line) in lines.iter().enumerate() {
            match line.as_slice() {
                ["write", inode, number] => {
                    let before = self.held(number);
                    unsynced.entry(inode.parse().unwrap()).or_insert((before, false)).1 = false;
                }
                ["out", inode] => {
                    if let Some(file) = unsynced.get_mut(&inode.parse().unwrap()) {
                        file.1 = true;
                    }
                }
                ["file", inode] => {
                    unsynced.remove(&inode.parse().unwrap());
                    unsynced.retain(|_, (_, is_out)| !*is_out);
                }
                // Written out and then a name behind it on the disk: the disk was told to keep both.
                ["names"] => unsynced.retain(|_, (_, is_out)| !*is_out),
                ["all"] => unsynced.clear(),
                _ if at < cut => {}
                _ => {}
            }
        }
        for (inode, (before, is_out)) in unsynced {
            if let (Some(path), true) = (self.find(inode), !is_out && random.below(4) > 0) {
                fs::write(path, fs::read(before).unwrap()).unwrap();
            }
        }
    }

    fn find(&self, inode: u64) -> Option<PathBuf> {
        let mut folders = vec![self.served.clone(), self.held.clone()];
        while let Some(folder) = folders.pop() {
            for entry in fs::read_dir(folder).unwrap().flatten() {
                let found = entry.path().symlink_metadata().unwrap();
                if found.ino() == inode {
                    return Some(entry.path());
                }
                if found.is_dir() {
                    folders.push(entry.path());
                }
            }
        }
        None
    }
}

/// Epochs until the server is killed, then the power goes: what is there is some state from the last accepted one on.
fn is_whole(room: &Room, options: &[&str], random: &mut Random) -> bool {
    let own = folder("own");
    let mut client = room.start(options);
    let mut model = Model::read(&mut client);
    let copied = Command::new("cp").arg("-aT").arg(&room.served).arg(&own).status().unwrap();
    assert!(copied.success());
    fs::remove_dir_all(own.join(".hidewillow-files")).unwrap();
    for _ in 0..100 {
        let before = picture(&own);
        let count = 1 + random.below(10);
        let steps: Vec<Step> = (0..count).filter_map(|_| model.step(&mut client, random)).collect();
        client.send(steps.clone());
        let reply = client.reply();
        steps.iter().for_each(|step| perform(&own, step));
        if reply.is_ok() {
            continue;
        }
        drop(client);
        room.lose_power(random);
        let started = std::panic::catch_unwind(|| drop(Client::start(&room.served, &["--boot", "another"])));
        let now = picture(&room.served);
        let whole = started.is_ok() && (now == before || now == picture(&own));
        if !whole && options.len() == 2 {
            println!("{steps:#?}\nnow {now:#?}\nbefore {before:#?}\nafter {:#?}", picture(&own));
        }
        fs::remove_dir_all(own).unwrap();
        return whole;
    }
    panic!("it lives");
}

#[test]
fn what_was_accepted_is_there_after_the_power_went() {
    let shim = shim();
    let room = Room::new(&shim);
    let mut random = Random(31337);
    for round in 0..deaths() {
        let moment = random.below(90).to_string();
        assert!(is_whole(&room, &["--die-at", &moment], &mut random), "round {round}");
    }
}

#[test]
fn a_server_that_does_not_sync_is_found() {
    let shim = shim();
    let mut random = Random(5);
    let found = (0..30).any(|_| {
        let moment = (20 + random.below(90)).to_string();
        !is_whole(&Room::new(&shim), &["--die-at", &moment, "--wrong", "no-sync"], &mut random)
    });
    assert!(found);
}

#[test]
fn a_server_without_a_list_is_found() {
    let shim = shim();
    let mut random = Random(6);
    let found = (0..60).any(|_| {
        let moment = (5 + random.below(60)).to_string();
        !is_whole(&Room::new(&shim), &["--die-at", &moment, "--wrong", "no-list"], &mut random)
    });
    assert!(found);
}
