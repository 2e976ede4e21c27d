//! The server by itself.
mod common;
use common::*;
use hidewillow_run::client::{Link, Place};
use hidewillow_run::codec::{frame, Bytes, Encode};
use hidewillow_run::name::Name;
use hidewillow_run::wire::*;
use std::fs;
use std::io::{BufRead, BufReader, Read, Write};
use std::os::unix::fs::{symlink, MetadataExt};
use std::process::Stdio;
use std::time::Instant;

fn look(text: &str, version: Version) -> Vec<Step> {
    vec![Step::Look { name: name(text), version }]
}

#[test]
fn none_of_an_epoch_is_done_where_a_look_fails() {
    let served = folder("none");
    let mut client = Client::start(&served, &[]);
    let (one, two) = (client.own(), client.own());
    let steps = vec![put("a", Version::ABSENT, one, b"1"), Step::Look { name: name("b"), version: two }];
    let number = client.send(steps);
    match client.reply().unwrap() {
        Reply::Refused { number: refused, stale, folders } => {
            assert_eq!((refused, stale.len(), folders.len()), (number, 1, 0));
            assert_eq!((stale[0].name.clone(), stale[0].kind), (name("b"), Kind::Absent));
        }
        other => panic!("{other:?}"),
    }
    assert!(picture(&served).is_empty());
}

#[test]
fn what_comes_behind_a_refused_one_falls_until_it_is_known() {
    let mut client = Client::start(&folder("falls"), &[]);
    let absent = Version::ABSENT;
    let first = client.send(look("a", Version(1)));
    let own = client.own();
    client.send(vec![put("b", absent, own, b"")]);
    let (number, steps) = (77, look("b", absent));
    client.link.send(Request::Epoch { number, falls_with_earlier: false, steps }).unwrap();
    client.link.send(Request::Acknowledge { number: first }).unwrap();
    let last = client.send(look("b", absent));
    assert!(matches!(client.reply().unwrap(), Reply::Refused { number, .. } if number == first));
    assert!(matches!(client.reply().unwrap(), Reply::Accepted { number: 77, .. }));
    assert!(matches!(client.reply().unwrap(), Reply::Accepted { number, .. } if number == last));
}

#[test]
fn own_numbers_are_good_before_any_answer() {
    let mut client = Client::start(&folder("ahead"), &[]);
    let (one, two, three) = (client.own(), client.own(), client.own());
    client.send(vec![put("a", Version::ABSENT, one, b"1")]);
    client.send(vec![Step::Link { from: name("a"), base: one, to: name("b") }]);
    client.send(vec![put("b", one, two, b"2"), Step::Remove { name: name("a"), base: two }]);
    client.send(vec![Step::Rename { from: name("b"), base: two, to: name("c"), over: Version::ABSENT }]);
    client.send(vec![Step::Attributes { name: name("c"), base: two, new: three, mode: Some(0o600), modified: None }]);
    client.send(look("c", three));
    client.send(look("c", two));
    for _ in 0..6 {
        assert!(matches!(client.reply().unwrap(), Reply::Accepted { .. }));
    }
    assert!(matches!(client.reply().unwrap(), Reply::Refused { .. }));
}

#[test]
fn another_programs_change_is_seen() {
    let served = folder("foreign");
    let path = served.join("a");
    fs::write(&path, "one").unwrap();
    set_modified(&path, 1_500_000_000_000_000_000);
    let mut client = Client::start(&served, &[]);
    let before = client.version("a");
    assert!(client.epoch(look("a", before)));
    // The same length, and the same time.
    fs::write(&path, "two").unwrap();
    set_modified(&path, 1_500_000_000_000_000_000);
    assert!(!client.epoch(look("a", before)));
    let (now, contents) = client.read("a");
    assert_eq!(contents, b"two");
    let own = client.own();
    assert!(client.epoch(vec![put("a", now, own, b"3")]));
    fs::write(&path, "4").unwrap();
    assert!(!client.epoch(vec![put("a", own, Version::own(99), b"5")]));
    assert_eq!(fs::read(&path).unwrap(), b"4");
}

#[test]
fn another_programs_names_are_seen() {
    let served = folder("names");
    fs::create_dir(served.join("d")).unwrap();
    let mut client = Client::start(&served, &[]);
    let version = client.version("d");
    let names = |sum| vec![Step::Names { name: name("d"), sum }];
    assert!(client.epoch(names(NameSum::default())));
    fs::write(served.join("d/x"), "").unwrap();
    assert!(!client.epoch(names(NameSum::default())));
    assert!(client.epoch(names(NameSum::default().with(b"x", Kind::File))));
    // It is the same folder.
    assert!(client.epoch(look("d", version)));
    let number = client.send(vec![Step::RemoveFolder { name: name("d"), base: version }]);
    match client.reply().unwrap() {
        Reply::Refused { folders, .. } => {
            assert_eq!(folders[0].iter().map(|entry| entry.name.clone()).collect::<Vec<_>>(), [name("d"), name("d/x")]);
        }
        other => panic!("{other:?}"),
    }
    client.link.send(Request::Acknowledge { number }).unwrap();
}

#[test]
fn two_servers_see_each_others_changes() {
    let served = folder("two");
    let (mut one, mut other) = (Client::start(&served, &[]), Client::start(&served, &[]));
    let own = one.own();
    assert!(one.epoch(vec![put("a", Version::ABSENT, own, b"1")]));
    let version = other.version("a");
    let mut known = version;
    for round in 0..200 {
        let seen = one.version("a");
        assert!(one.epoch(look("a", seen)));
        // The same contents, mode and time, as fast as it goes: where the system's clock is coarse only the count tells them apart.
        let own = other.own();
        assert!(other.epoch(vec![put("a", known, own, b"1")]), "{round}");
        known = own;
        assert!(!one.epoch(look("a", seen)), "{round}");
    }
}

/// Sends a request with a name that no client of this crate would say.
fn say_name(client: &mut Link, bytes: &[u8]) -> Reply {
    struct Raw<'a>(&'a [u8]);
    impl Encode for Raw<'_> {
        fn encode(&self, out: &mut Vec<u8>) {
            out.push(b'R');
            1_u64.encode(out);
            self.0.encode(out);
            0_u64.encode(out);
            100_u32.encode(out);
        }
    }
    let mut to = fs::OpenOptions::new().write(true).open(format!("/proc/self/fd/{}", client.handles().1)).unwrap();
    to.write_all(&frame(&Raw(bytes))).unwrap();
    client.receive_within(LONG).unwrap()
}

#[test]
fn no_name_leaves_the_folder() {
    let room = folder("leaves");
    let served = room.join("served");
    fs::create_dir_all(served.join("in")).unwrap();
    fs::write(room.join("secret"), "secret").unwrap();
    symlink("..", served.join("up")).unwrap();
    symlink(room.join("secret"), served.join("far")).unwrap();
    symlink("in", served.join("near")).unwrap();
    for bytes in ["../secret", "/etc/passwd", "in/../../secret", "in//x", "./in", "in/."] {
        let mut client = Client::start(&served, &[]);
        assert!(matches!(say_name(&mut client.link, bytes.as_bytes()), Reply::Fault { .. }), "{bytes}");
    }
    let mut client = Client::start(&served, &[]);
    for text in ["up/secret", "far", "up", "near/x", ".hidewillow-files/lock"] {
        assert_eq!(client.read(text), (Version::ABSENT, Vec::new()), "{text}");
    }
    assert_eq!(client.entry("up").target, Bytes(b"..".to_vec()));
    for text in ["up/new", "near/new", "up/served/new"] {
        assert_eq!(client.entry(text).kind, Kind::Absent, "{text}");
        let own = client.own();
        assert!(!client.epoch(vec![put(text, Version::ABSENT, own, b"x")]), "{text}");
    }
    let from = client.version("in");
    assert!(!client.epoch(vec![Step::Rename {
        from: name("in"),
        base: from,
        to: name("up/in"),
        over: Version::ABSENT
    }]));
    let own = client.own();
    client.send(vec![put(".hidewillow-files/x", Version::ABSENT, own, b"x")]);
    assert!(matches!(client.reply().unwrap(), Reply::Fault { .. }));
    assert_eq!(fs::read_dir(&room).unwrap().count(), 2);
    assert_eq!(fs::read_dir(served.join("in")).unwrap().count(), 0);
}

#[test]
fn long_contents_come_and_go_in_pieces() {
    let served = folder("long");
    let mut client = Client::start(&served, &[]);
    let contents: Vec<u8> = (0..20_000_000_u32).map(|number| (number >> 3) as u8).collect();
    let (one, two) = (client.own(), client.own());
    assert!(client.epoch(vec![put("a", Version::ABSENT, one, &contents)]));
    assert!(client.read("a").1 == contents);
    let parts = vec![(5_000_000, Body::Here(Bytes(vec![7; 3_000_000])))];
    let content = Content::Changed { size: 20_000_001, parts };
    let step = Step::Put { name: name("a"), base: one, new: two, mode: 0o600, modified: 5, content };
    assert!(client.epoch(vec![step]));
    let mut expected = contents;
    expected.push(0);
    expected[5_000_000..8_000_000].fill(7);
    assert!(fs::read(served.join("a")).unwrap() == expected);
    assert_eq!(fs::metadata(served.join("a")).unwrap().mode() & 0o7777, 0o600);
    let left: Vec<_> =
        fs::read_dir(served.join(".hidewillow-files")).unwrap().flatten().map(|e| e.file_name()).collect();
    assert!(!left.iter().any(|part| part.to_string_lossy().starts_with("pieces")), "{left:?}");
}

#[test]
fn files_keep_who_they_are() {
    let served = folder("keeps");
    fs::write(served.join("a"), "1").unwrap();
    fs::hard_link(served.join("a"), served.join("b")).unwrap();
    let inode = fs::metadata(served.join("a")).unwrap().ino();
    let mut client = Client::start(&served, &[]);
    let (entry, other) = (client.entry("a"), client.entry("b"));
    assert_eq!((entry.file, entry.links, entry.version), (other.file, 2, other.version));
    let own = client.own();
    assert!(client.epoch(vec![put("a", entry.version, own, b"both")]));
    assert_eq!(fs::read(served.join("b")).unwrap(), b"both");
    assert_eq!(fs::metadata(served.join("b")).unwrap().ino(), inode);
    // The version that the client knows of the one name is that of the other.
    assert!(client.epoch(look("b", own)));
    assert!(client.epoch(vec![Step::Remove { name: name("a"), base: own }]));
    assert!(client.epoch(look("b", own)));
}

#[test]
fn fifty_thousand_files_in_two_seconds() {
    let served = folder("many");
    for at in 0..50_000 {
        if at % 100 == 0 {
            fs::create_dir(served.join(format!("folder-{}", at / 100))).unwrap();
        }
        fs::write(served.join(format!("folder-{}/file-number-{at}.c", at / 100)), "").unwrap();
    }
    let begin = Instant::now();
    let mut client = Client::start(&served, &[]);
    let model = Model::read(&mut client);
    let time = begin.elapsed();
    assert_eq!(model.names.len(), 50_000 + 500 + 1);
    println!("{time:?}, {} bytes", client.link.received);
    // The client of this test is not built for speed, and a loaded machine is slow.
    assert!(time.as_secs_f64() < 60.0, "{time:?}");
    fs::remove_dir_all(served).unwrap();
}

#[test]
fn a_port_wants_its_secret() {
    let room = folder("port");
    let (served, secret, wrong) = (room.join("served"), room.join("secret"), room.join("wrong"));
    fs::create_dir(&served).unwrap();
    fs::write(&secret, "a long secret").unwrap();
    fs::write(&wrong, "a long secreT").unwrap();
    let secret_file = secret.to_str().unwrap();
    let mut command = server(&served, &["--listen", "127.0.0.1:0", "--secret-file", secret_file]);
    let mut process = command.stderr(Stdio::piped()).spawn().unwrap();
    let mut line = String::new();
    BufReader::new(process.stderr.take().unwrap()).read_line(&mut line).unwrap();
    let port = line.trim().rsplit(':').next().unwrap().parse().unwrap();
    let place = |file: &std::path::Path| Place::Port { port, secret_file: file.to_str().unwrap().into() };
    let mut client = Client::of(Link::open(&place(&secret)).unwrap());
    assert_eq!(client.entry("").kind, Kind::Folder);
    let mut refused = Link::open(&place(&wrong)).unwrap();
    assert!(matches!(refused.receive_within(LONG).unwrap(), Reply::Fault { .. }));
    process.kill().unwrap();
    process.wait().unwrap();
    let elsewhere = server(&served, &["--listen", "0.0.0.0:0", "--secret-file", secret_file]).output().unwrap();
    assert_eq!(elsewhere.status.code(), Some(2));
}

#[test]
fn bytes_that_are_no_message_end_it() {
    let served = folder("bytes");
    let mut random = Random(99);
    for _ in 0..50 {
        let mut process =
            server(&served, &[]).stdin(Stdio::piped()).stdout(Stdio::piped()).stderr(Stdio::null()).spawn().unwrap();
        let mut bytes =
            frame(&Request::Hello { protocol: PROTOCOL, secret: Bytes::default(), session: Bytes::default() });
        let len = 1 + random.below(200) as usize;
        bytes.extend((0..len).map(|_| random.below(256) as u8));
        let mut input = process.stdin.take().unwrap();
        // It may have gone before all is written.
        let _ = input.write_all(&bytes);
        drop(input);
        let mut answer = Vec::new();
        process.stdout.take().unwrap().read_to_end(&mut answer).unwrap();
        assert!(process.wait().unwrap().code().is_some(), "{bytes:?}");
    }
    assert!(picture(&served).is_empty());
    assert!(Name::new("ok").is_some());
}
