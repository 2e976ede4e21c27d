//! What is told while a folder is read: how much of it, and for how long.
use std::fs;
use std::sync::mpsc::{self, RecvTimeoutError};
use std::thread;
use std::time::{Duration, Instant};

/// Once in so long it is told how far the reading is.
const EVERY: Duration = Duration::from_secs(1);

/// The bytes that this process has read so far.
fn read() -> Option<u64> {
    let text = fs::read_to_string("/proc/self/io").ok()?;
    text.lines().find_map(|line| line.strip_prefix("rchar: ")?.parse().ok())
}

/// The bytes of a folder's files.
fn bytes_in(folder: &str) -> u64 {
    let files = fs::read_dir(folder).into_iter().flatten().flatten();
    files.filter_map(|file| file.metadata().ok()).filter(|it| it.is_file()).map(|it| it.len()).sum()
}

/// Does what reads a folder, and tells now and then how far it is.
pub fn told<T>(folder: &str, reads: impl FnOnce() -> T) -> T {
    told_each(EVERY, folder, |line| say!("{line}"), reads)
}

/// The same once in so long, to whom it may concern.
fn told_each<T>(every: Duration, folder: &str, tells: impl Fn(&str) + Send, reads: impl FnOnce() -> T) -> T {
    let (begun, before, all) = (Instant::now(), read(), bytes_in(folder) >> 20);
    let (done, is_done) = mpsc::channel::<()>();
    thread::scope(|scope| {
        scope.spawn(move || {
            while is_done.recv_timeout(every) == Err(RecvTimeoutError::Timeout) {
                if let (Some(before), Some(now)) = (before, read()) {
                    let seconds = begun.elapsed().as_secs();
                    tells(&format!("reading {folder}: {} of {all} MB, {seconds} s", ((now - before) >> 20).min(all)));
                }
            }
        });
        let did = reads();
        drop(done);
        did
    })
}

#[cfg(test)]
mod tests {
    use super::told_each;
    use std::sync::Mutex;
    use std::time::Duration;
    use std::{env, fs, process, thread};

    #[test]
    fn it_is_told_how_far_the_reading_is() {
        let (folder, lines) = (env::temp_dir().join(format!("progress-{}", process::id())), Mutex::new(Vec::new()));
        fs::create_dir(&folder).and_then(|()| fs::write(folder.join("log"), vec![1; 3 << 20])).expect("a file");
        let (name, hears) =
            (folder.display().to_string(), |line: &str| lines.lock().expect("well").push(line.to_owned()));
        let read = told_each(Duration::from_millis(1), &name, hears, || {
            let read = fs::read(folder.join("log")).map(|bytes| bytes.len());
            while !lines.lock().expect("well").iter().any(|line| line.contains(": 3 of 3 MB")) {
                thread::sleep(Duration::from_millis(1));
            }
            read
        });
        fs::remove_dir_all(&folder).expect("it goes");
        assert_eq!(read.ok(), Some(3 << 20));
        assert!(lines.lock().expect("well")[0].starts_with(&format!("reading {name}: ")));
    }
}
