//! What `tests/measure_engine.py` wants beside hosts: clients of the engine itself, and a way to it that takes longer.
//!
//!     beside fill ADDRESS..
//!     beside direct CONNECTIONS PERCENT_OF_READS SECONDS ADDRESS..
//!     beside delay MICROSECONDS [LISTEN TARGET]..
//!
//! Clients put and read 10,000 keys with values of 100 bytes, one after the other on a thread each, which share a connection to each
//! member; reads are such that nothing older than what was put before is told. Printed are commands, seconds, and the medians of reads
//! and of writes in microseconds.
#[allow(dead_code)]
#[path = "../src/etcd/http2.rs"]
mod http2;
#[allow(dead_code)]
#[path = "../src/etcd/proto.rs"]
mod proto;
#[path = "../src/etcd/trailers.rs"]
mod trailers;

use http2::Connection;
use proto::Message;
use std::io::{self, Read, Write};
use std::net::{TcpListener, TcpStream};
use std::sync::mpsc::channel;
use std::sync::Arc;
use std::thread;
use std::time::{Duration, Instant};

const KEYS: u64 = 10_000;
const PATIENCE: Duration = Duration::from_secs(20);

fn key(number: u64) -> String {
    format!("key{number:05}")
}

fn put(connection: &Connection, number: u64) -> io::Result<()> {
    let message = Message::default().bytes(1, key(number).as_bytes()).bytes(2, &[b'v'; 100]);
    connection.call("/etcdserverpb.KV/Put", &message.0, PATIENCE).map(drop)
}

fn read(connection: &Connection, number: u64) -> io::Result<()> {
    let message = Message::default().bytes(1, key(number).as_bytes());
    connection.call("/etcdserverpb.KV/Range", &message.0, PATIENCE).map(drop)
}

fn connected(addresses: &[String]) -> io::Result<Vec<Arc<Connection>>> {
    addresses.iter().map(|address| Connection::new(address)).collect()
}

fn fill(addresses: &[String]) -> io::Result<()> {
    let connections = connected(addresses)?;
    let workers: Vec<_> = (0..50)
        .map(|of| {
            let connection = connections[of % connections.len()].clone();
            thread::spawn(move || (of as u64..KEYS).step_by(50).try_for_each(|number| put(&connection, number)))
        })
        .collect();
    workers.into_iter().try_for_each(|worker| worker.join().expect("it doesn't panic"))
}

fn median(waits: &mut [u128]) -> u128 {
    waits.sort_unstable();
    waits.get(waits.len() / 2).copied().unwrap_or(0)
}

fn direct(clients: usize, reads: u64, seconds: f64, addresses: &[String]) -> io::Result<()> {
    let (connections, begun) = (connected(addresses)?, Instant::now());
    let until = begun + Duration::from_secs_f64(seconds);
    let workers: Vec<_> = (0..clients)
        .map(|of| {
            let connection = connections[of % connections.len()].clone();
            thread::spawn(move || -> io::Result<[Vec<u128>; 2]> {
                let (mut waits, mut state) = ([Vec::new(), Vec::new()], of as u64 * 7919 + 88_172_645_463_325_252);
                while Instant::now() < until {
                    state ^= state << 13;
                    state ^= state >> 7;
                    state ^= state << 17;
                    let (number, is_read, begun) = (state % KEYS, state / KEYS % 100 < reads, Instant::now());
                    if is_read { read(&connection, number) } else { put(&connection, number) }?;
                    waits[usize::from(is_read)].push(begun.elapsed().as_micros());
                }
                Ok(waits)
            })
        })
        .collect();
    let mut waits = [Vec::new(), Vec::new()];
    for worker in workers {
        let [writes, reads] = worker.join().expect("it doesn't panic")?;
        waits[0].extend(writes);
        waits[1].extend(reads);
    }
    let (count, took) = (waits[0].len() + waits[1].len(), begun.elapsed().as_secs_f64());
    let [mut writes, mut reads] = waits;
    println!("{count} {took} {} {}", median(&mut reads), median(&mut writes));
    Ok(())
}

/// Hands on what comes, each piece so much later.
fn hand_on(mut from: TcpStream, mut to: TcpStream, later: Duration) {
    let (tell, told) = channel::<(Instant, Vec<u8>)>();
    thread::spawn(move || {
        for (due, piece) in told {
            thread::sleep(due.saturating_duration_since(Instant::now()));
            if to.write_all(&piece).is_err() {
                break;
            }
        }
        let _ = to.shutdown(std::net::Shutdown::Both);
    });
    let mut room = vec![0; 1 << 16];
    while let Ok(count @ 1..) = from.read(&mut room) {
        if tell.send((Instant::now() + later, room[..count].into())).is_err() {
            return;
        }
    }
}

fn delay(later: Duration, ways: &[String]) -> io::Result<()> {
    let mut listening = Vec::new();
    for way in ways.chunks_exact(2) {
        let (listener, target) = (TcpListener::bind(&way[0])?, way[1].clone());
        listening.push(thread::spawn(move || {
            for near in listener.incoming().flatten() {
                let Ok(far) = TcpStream::connect(&target) else { continue };
                let _ = (near.set_nodelay(true), far.set_nodelay(true));
                if let (Ok(from), Ok(to)) = (near.try_clone(), far.try_clone()) {
                    thread::spawn(move || hand_on(from, to, later));
                    thread::spawn(move || hand_on(far, near, later));
                }
            }
        }));
    }
    listening.into_iter().try_for_each(|it| it.join().map_err(|_| io::Error::other("it panicked")))
}

fn main() -> io::Result<()> {
    let words: Vec<String> = std::env::args().skip(1).collect();
    let number = |place: usize| words.get(place).and_then(|word| word.parse::<f64>().ok()).unwrap_or(0.0);
    match words.first().map(String::as_str) {
        Some("fill") => fill(&words[1..]),
        Some("direct") => direct(number(1) as usize, number(2) as u64, number(3), &words[4..]),
        Some("delay") => delay(Duration::from_micros(number(1) as u64), &words[2..]),
        _ => Err(io::Error::other("fill, direct or delay")),
    }
}
