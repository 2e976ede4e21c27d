//! A store in a folder of this program's own: answers are there again after the next start, transactions are whole, what goes ahead is
//! decided, and a plain map says the same of random commands.
use hidewillow::store::file::Options;
use hidewillow::store::{File, Reply};
use std::collections::BTreeMap;
use std::io::{BufRead, BufReader};
use std::os::unix::fs::PermissionsExt;
use std::path::{Path, PathBuf};
use std::process::{Command, Stdio};
use std::sync::atomic::{AtomicU32, Ordering};
use std::{env, fs, io, process, thread};

/// A folder of a test, which goes with it.
struct Room(PathBuf);

impl Room {
    fn new() -> Room {
        static COUNT: AtomicU32 = AtomicU32::new(0);
        let count = COUNT.fetch_add(1, Ordering::Relaxed);
        Room(env::temp_dir().join(format!("hidewillow-file-{}-{count}", process::id())))
    }

    fn open(&self) -> io::Result<File> {
        Options::new().says(|words| eprintln!("{words}")).open(&self.0)
    }
}

impl Drop for Room {
    fn drop(&mut self) {
        let _ = fs::remove_dir_all(&self.0);
    }
}

#[test]
fn what_was_set_is_there_after_the_next_start() -> io::Result<()> {
    let room = Room::new();
    let store = room.open()?;
    store.set("a", "1")?;
    store.set(b"\0\r\n", vec![7; 100_000])?;
    assert!(store.remove("a")? && !store.remove("a")?);
    store.set("b", "")?;
    drop(store);
    let store = room.open()?;
    assert_eq!(store.get("a")?, None);
    assert_eq!(store.get("b")?.as_deref(), Some(&b""[..]));
    assert_eq!(store.get(b"\0\r\n")?, Some(vec![7; 100_000]));
    store.close()?;
    assert_eq!(room.open()?.command(&[b"DBSIZE"])?, Reply::Number(2));
    Ok(())
}

#[test]
fn a_folder_is_made_for_its_owner_alone() -> io::Result<()> {
    let room = Room::new();
    let within = room.0.join("a/b");
    Options::new().open(&within)?.set("a", "1")?;
    assert_eq!(fs::metadata(&within)?.permissions().mode() & 0o777, 0o700);
    assert_eq!(File::open(&within)?.get("a")?, Some(b"1".to_vec()));
    Ok(())
}

#[test]
fn one_process_has_a_folder_and_is_told_who() -> io::Result<()> {
    let room = Room::new();
    let _store = room.open()?;
    let refused = room.open().expect_err("it is had");
    assert!(refused.to_string().contains(&format!("process {}", process::id())), "{refused}");
    Ok(())
}

#[test]
fn transactions_of_many_threads_lose_nothing() -> io::Result<()> {
    let room = Room::new();
    let store = room.open()?;
    store.set("from", "800")?;
    let movers: Vec<_> = (0..8)
        .map(|_| {
            let store = store.clone();
            thread::spawn(move || {
                (0..50).try_for_each(|_| {
                    store.transaction(|t| {
                        let number = |text: String| text.parse::<i64>().unwrap_or(0);
                        let (from, to) = (number(t.text("from")?), number(t.text("to")?));
                        t.set("from", (from - 1).to_string());
                        t.set("to", (to + 1).to_string());
                        assert_eq!(t.text("to")?, (to + 1).to_string(), "it reads its own writes");
                        Ok(())
                    })
                })
            })
        })
        .collect();
    for mover in movers {
        mover.join().expect("no panic")?;
    }
    assert_eq!((store.get("from")?, store.get("to")?), (Some(b"400".to_vec()), Some(b"400".to_vec())));
    Ok(())
}

#[test]
fn a_transaction_that_ends_with_an_error_or_a_panic_leaves_nothing() -> io::Result<()> {
    let room = Room::new();
    let store = room.open()?;
    let refused: io::Result<()> = store.transaction(|t| {
        t.set("a", "1");
        Err(io::Error::other("on purpose"))
    });
    assert_eq!(refused.expect_err("it ends so").to_string(), "on purpose");
    let there = store.clone();
    let panics = thread::spawn(move || {
        there.transaction(|t| -> io::Result<()> {
            t.set("a", "1");
            panic!("on purpose")
        })
    });
    assert!(panics.join().is_err());
    assert_eq!(store.get("a")?, None);
    store.transaction(|_| Ok(()))
}

#[test]
fn what_goes_ahead_is_decided() -> io::Result<()> {
    let room = Room::new();
    let store = room.open()?;
    let mut ahead = store.ahead()?;
    for round in 0..3 {
        for _ in 0..200 {
            let last = ahead.command(&[b"INCR", b"n"])?;
            assert!(matches!(last, Reply::Number(_)));
            ahead.transaction(|t| {
                let n = t.get("n").unwrap_or_default();
                t.set("copy", n);
                Ok(())
            })?;
        }
        assert_eq!(ahead.wait()?, [0; 0], "round {round}");
        assert_eq!(store.get("copy")?, Some(((round + 1) * 200).to_string().into_bytes()));
    }
    assert!(ahead.get("nothing")?.is_none() && !ahead.remove("nothing")?);
    ahead.set("last", "1")?;
    drop(ahead);
    store.close()?;
    assert_eq!(room.open()?.get("last")?, Some(b"1".to_vec()));
    Ok(())
}

#[test]
fn snapshots_take_the_place_of_the_log() -> io::Result<()> {
    let room = Room::new();
    let store = room.open()?;
    for place in 0..30u8 {
        store.set([place % 5], vec![place; 1 << 20])?;
    }
    store.snapshot()?;
    store.set("behind", "it")?;
    let segments = || {
        fs::read_dir(&room.0)
            .map(|all| all.flatten().filter(|it| it.file_name().to_string_lossy().starts_with("log-")).count())
    };
    assert!(segments()? <= 2);
    store.snapshot()?;
    drop(store);
    let store = room.open()?;
    for place in 25..30u8 {
        assert_eq!(store.get([place % 5])?, Some(vec![place; 1 << 20]));
    }
    assert_eq!(store.get("behind")?, Some(b"it".to_vec()));
    Ok(())
}

/// What is left beside a backup that was in the making.
fn left_beside(backup: &Path) -> io::Result<usize> {
    let name = backup.file_name().unwrap_or_default().to_string_lossy();
    let home = fs::read_dir(backup.parent().unwrap_or(backup))?;
    Ok(home.flatten().filter(|it| it.file_name().to_string_lossy().starts_with(&format!(".{name}"))).count())
}

#[test]
fn a_backup_opens_by_itself_with_all_that_was_answered_before() -> io::Result<()> {
    let (room, copy) = (Room::new(), Room::new());
    let store = room.open()?;
    for place in 0..40u8 {
        store.set([place % 10], vec![place; 1 << 18])?;
    }
    store.backup(&copy.0)?;
    store.set("later", "1")?;
    let other = copy.open()?;
    assert_eq!(other.command(&[b"DBSIZE"])?, Reply::Number(10));
    assert_eq!(other.get([9])?, Some(vec![39; 1 << 18]));
    other.set([9], "its own")?;
    assert_eq!(store.get([9])?, Some(vec![39; 1 << 18]));
    assert_eq!(fs::metadata(&copy.0)?.permissions().mode() & 0o777, 0o700);
    let within = room.0.join("backups/one");
    store.backup(&within)?;
    drop((store, other));
    assert_eq!(File::open(&within)?.get("later")?.as_deref(), Some(&b"1"[..]));
    assert_eq!(room.open()?.command(&[b"DBSIZE"])?, Reply::Number(11));
    assert_eq!(copy.open()?.get([9])?.as_deref(), Some(&b"its own"[..]));
    Ok(())
}

#[test]
fn a_backup_is_refused_where_something_is_or_may_not_be() -> io::Result<()> {
    let (room, copy) = (Room::new(), Room::new());
    let store = room.open()?;
    store.set("a", "1")?;
    let refused = |path: &Path| store.backup(path).expect_err("it is refused").kind();
    fs::write(&copy.0, "another's")?;
    assert_eq!(refused(&copy.0), io::ErrorKind::AlreadyExists);
    assert_eq!(fs::read(&copy.0)?, b"another's");
    fs::remove_file(&copy.0)?;
    assert_eq!(refused(&room.0), io::ErrorKind::AlreadyExists);
    assert_eq!(refused(&room.0.join("log-0000000009")), io::ErrorKind::InvalidInput);
    assert_eq!(refused(&copy.0.join("..")), io::ErrorKind::InvalidInput);
    assert_eq!(refused(&copy.0.join("a/b")), io::ErrorKind::NotFound);
    assert_eq!(left_beside(&copy.0)?, 0);
    // What a crash left of one is no hindrance.
    let left =
        copy.0.with_file_name(format!(".{}.new-backup", copy.0.file_name().unwrap_or_default().to_string_lossy()));
    fs::create_dir(&left)?;
    fs::write(left.join("snapshot-0000000009-900"), "half of one")?;
    fs::write(left.join("new-0-store"), "")?;
    store.backup(&copy.0)?;
    assert_eq!(refused(&copy.0), io::ErrorKind::AlreadyExists);
    assert_eq!(left_beside(&copy.0)?, 0);
    assert_eq!(copy.open()?.get("a")?.as_deref(), Some(&b"1"[..]));
    Ok(())
}

#[test]
fn backups_beside_writers_have_whole_transactions() -> io::Result<()> {
    let room = Room::new();
    let store = room.open()?;
    thread::scope(|scope| {
        let keepers: Vec<_> = (0..3)
            .map(|_| {
                scope.spawn(|| {
                    let copy = Room::new();
                    store.backup(&copy.0)?;
                    let there = copy.open()?;
                    assert_eq!(there.get("one")?, there.get("two")?);
                    store.snapshot()
                })
            })
            .collect();
        for round in 0..100u8 {
            store.transaction(|t| {
                t.set("one", [round]);
                t.set("two", [round]);
                Ok(())
            })?;
        }
        keepers.into_iter().try_for_each(|keeper| keeper.join().expect("no panic"))
    })
}

/// In a process of its own, where this folder has little room.
#[test]
fn backs_up_in_a_child() -> io::Result<()> {
    let Some(full) = env::var_os("HIDEWILLOW_FULL").map(PathBuf::from) else { return Ok(()) };
    let room = Room::new();
    let store = room.open()?;
    store.set("a", vec![7; 4 << 20])?;
    let copy = full.join("copy");
    assert_eq!(store.backup(&copy).expect_err("there is no room").kind(), io::ErrorKind::StorageFull);
    assert_eq!(fs::read_dir(&full)?.count(), 0);
    store.set("a", "1")?;
    store.backup(&copy)?;
    assert_eq!(File::open(&copy)?.get("a")?.as_deref(), Some(&b"1"[..]));
    // Where the store's own disk is full, what wants a segment more is refused too.
    let small = File::open(full.join("store"))?;
    let refused = (0..200).find_map(|_| small.set("b", vec![1; 10_000]).err());
    assert_eq!(refused.map(|error| error.kind()), Some(io::ErrorKind::StorageFull));
    assert_eq!(small.snapshot().expect_err("there is no room").kind(), io::ErrorKind::StorageFull);
    assert_eq!(small.backup(room.0.join("other")).expect_err("there is no room").kind(), io::ErrorKind::StorageFull);
    assert_eq!(small.get("b")?, Some(vec![1; 10_000]));
    Ok(())
}

#[test]
fn a_backup_without_room_leaves_nothing() -> io::Result<()> {
    let full = Room::new();
    fs::create_dir(&full.0)?;
    let mounts = "mount -t tmpfs -o size=1m none \"$HIDEWILLOW_FULL\" && exec \"$@\"";
    let did = Command::new("unshare")
        .args(["-rm", "sh", "-c", mounts, "sh"])
        .arg(env::current_exe()?)
        .args(["--exact", "backs_up_in_a_child"])
        .env("HIDEWILLOW_FULL", &full.0)
        .output()?;
    match did.status.code() {
        Some(0) => (),
        Some(101) => panic!("{}", String::from_utf8_lossy(&did.stdout)),
        _ => eprintln!("no small file system may be mounted here: nothing is tried on one"),
    }
    Ok(())
}

#[test]
fn a_large_transaction_waits_for_its_room() -> io::Result<()> {
    let room = Room::new();
    let store = room.open()?;
    for round in 0..20u8 {
        store.transaction(|t| {
            for key in 0..7u8 {
                t.set([key], vec![round; 1 << 20]);
            }
            Ok(())
        })?;
    }
    assert_eq!(store.get([6])?, Some(vec![19; 1 << 20]));
    let too_large = store.transaction(|t| {
        (0..20u8).for_each(|key| t.set([key], vec![99; 1 << 20]));
        Ok(())
    });
    if too_large.is_err() {
        assert_eq!(store.get([6])?, Some(vec![19; 1 << 20]));
    }
    assert!(store.set("k", vec![0; 9 << 20]).is_err());
    assert!(store.set(vec![b'k'; 70_000], "").is_err());
    store.set("k", "still there")
}

#[test]
fn what_is_no_command_is_refused() -> io::Result<()> {
    let room = Room::new();
    let store = room.open()?;
    assert!(matches!(store.command(&[b"NONE", b"such"])?, Reply::Error(_)));
    assert!(matches!(store.command(&[b"GET"])?, Reply::Error(_)));
    let queues: [&[&[u8]]; 3] = [&[], &[b"MULTI"], &[b"exec"]];
    for words in queues {
        assert_eq!(store.command(words).expect_err("it is of queues").kind(), io::ErrorKind::InvalidInput);
    }
    store.set("n", "text")?;
    assert!(matches!(store.command(&[b"INCR", b"n"])?, Reply::Error(_)));
    Ok(())
}

/// In a process of its own: counts for ever, and tells each number once it is on the disk.
#[test]
fn counts_in_a_child() -> io::Result<()> {
    let Some(folder) = env::var_os("HIDEWILLOW_COUNTS_IN") else { return Ok(()) };
    let store = File::open(folder)?;
    let mut ahead = store.ahead()?;
    loop {
        let Reply::Number(last) = ahead.command(&[b"INCR", b"n"])? else { return Ok(()) };
        store.transaction(|t| {
            t.set("copy", last.to_string());
            Ok(())
        })?;
        assert!(ahead.wait()?.is_empty());
        println!("told {last}");
    }
}

#[test]
fn what_was_told_is_there_after_kill_9() -> io::Result<()> {
    let (room, mut dice, mut told) = (Room::new(), Dice(7), 0);
    for _ in 0..6 {
        let mut child = Command::new(env::current_exe()?)
            .args(["--exact", "counts_in_a_child", "--nocapture"])
            .env("HIDEWILLOW_COUNTS_IN", &room.0)
            .stdout(Stdio::piped())
            .spawn()?;
        let lines = BufReader::new(child.stdout.take().expect("it is piped")).lines();
        let (stop, mut lines) = (dice.roll(60), lines);
        for _ in 0..stop + 5 {
            lines.next().transpose()?;
        }
        child.kill()?;
        child.wait()?;
        let numbers = lines.map_while(Result::ok).filter_map(|line| line.strip_prefix("told ")?.parse().ok());
        told = numbers.last().unwrap_or(told);
        let number = |key: &str, store: &File| -> io::Result<i64> {
            let text = store.get(key)?.unwrap_or_default();
            Ok(String::from_utf8_lossy(&text).parse().unwrap_or(0))
        };
        let store = room.open()?;
        let (n, copy) = (number("n", &store)?, number("copy", &store)?);
        assert!(told <= copy && copy <= n && n <= copy + 1, "told {told}, and {n} and {copy} are there");
        told = copy;
    }
    Ok(())
}

/// Numbers that look random (splitmix64).
struct Dice(u64);

impl Dice {
    fn roll(&mut self, below: u64) -> u64 {
        self.0 = self.0.wrapping_add(0x9E37_79B9_7F4A_7C15);
        let mut x = self.0;
        x = (x ^ (x >> 30)).wrapping_mul(0xBF58_476D_1CE4_E5B9);
        x = (x ^ (x >> 27)).wrapping_mul(0x94D0_49BB_1331_11EB);
        (x ^ (x >> 31)) % below
    }
}

#[test]
fn random_commands_are_as_of_a_plain_map() -> io::Result<()> {
    let room = Room::new();
    let (mut dice, mut plain) = (Dice(1), BTreeMap::<Vec<u8>, Vec<u8>>::new());
    for _ in 0..6 {
        let store = room.open()?;
        let mut ahead = store.ahead()?;
        for count in 0..150u32 {
            let (key, value) = (vec![b'a' + dice.roll(5) as u8], vec![count as u8; dice.roll(300) as usize]);
            match dice.roll(7) {
                0 => assert_eq!(store.get(&key)?, plain.get(&key).cloned()),
                1 => assert_eq!(store.remove(&key)?, plain.remove(&key).is_some()),
                2 => assert_eq!(ahead.get(&key)?, plain.get(&key).cloned()),
                3 => {
                    ahead.set(&key, &value)?;
                    plain.insert(key, value);
                }
                4 => {
                    let other = vec![b'a' + dice.roll(5) as u8];
                    let seen = store.transaction(|t| {
                        let seen = t.get(&other);
                        t.remove(&other);
                        t.set(&key, seen.clone().unwrap_or_default());
                        Ok(seen)
                    })?;
                    assert_eq!(seen, plain.remove(&other));
                    plain.insert(key, seen.unwrap_or_default());
                }
                5 if dice.roll(10) == 0 => store.snapshot()?,
                _ => {
                    store.set(&key, &value)?;
                    plain.insert(key, value);
                }
            }
        }
        assert!(ahead.wait()?.is_empty());
    }
    Ok(())
}
