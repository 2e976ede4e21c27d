//! From the command line to the command, and from its end to ours.
use crate::client::Link;
use crate::name::Name;
use crate::run::descriptors::Handles;
use crate::run::drafts::Drafts;
use crate::run::epochs::Epochs;
use crate::run::fetching::{Fetching, MOST_BESIDE};
use crate::run::filter;
use crate::run::ground;
use crate::run::inside::Board;
use crate::run::learned::Learned;
use crate::run::names::Names;
use crate::run::options::Options;
use crate::run::output::{self, Streams};
use crate::run::paths::{bytes, Paths};
use crate::run::stats::{Stats, Trace, Why};
use crate::run::stored::Stored;
use crate::run::supervisor::{Failure, Supervisor, FORWARD, ORPHANED, READY};
use crate::run::sys::{self, Pid};
use crate::run::tree::{Facts, Process, State, Tree};
use crate::run::undo::{self, UndoLog};
use crate::wire::{Entry, Reply, Request};
use std::collections::{HashSet, VecDeque};
use std::ffi::{CStr, CString};
use std::fs::{self, File};
use std::io::{self, Read, Write};
use std::os::fd::{AsRawFd, OwnedFd};
use std::os::unix::fs::MetadataExt;
use std::sync::atomic::{AtomicI32, Ordering};
use std::time::{Duration, Instant};

/// The status where the connection ends, or something is lost.
const LOST: i32 = 75;
/// The status where it can't begin.
const CANNOT: i32 = 125;
/// What tells the supervisor that its starter was killed.
const ORPHAN: i32 = libc::SIGPWR;
/// So many ticks later it has to have ended, whatever it waits for.
static TICKS: AtomicI32 = AtomicI32::new(2000);
/// The server has this long for the folder's names.
const PATIENCE: Duration = Duration::from_secs(60);

fn say(what: impl std::fmt::Display) {
    eprintln!("hidewillow-run: {what}");
}

/// Runs the command; returns the status to end with.
pub fn run(options: Options) -> i32 {
    let session = match new_session(&options) {
        Ok(s) => s,
        Err(e) => {
            say(e);
            return CANNOT;
        }
    };
    let mut link = match Link::open_as(&options.at, &session) {
        Ok(l) => l,
        Err(e) => {
            say(format_args!("the server can't be had: {e}"));
            return LOST;
        }
    };
    let entries = match all_names(&mut link, MOST_BESIDE) {
        Ok((_, e)) => e,
        Err(e) => {
            say(format_args!("the server is lost: {e}"));
            return LOST;
        }
    };
    match split(options, (link, session), entries) {
        Ok(status) => status,
        Err(e) => {
            say(e);
            CANNOT
        }
    }
}

/// A name for what the server keeps of this run, where it may have to be gone on with.
fn new_session(options: &Options) -> io::Result<Vec<u8>> {
    if !options.resume {
        return Ok(Vec::new());
    }
    let mut random = [0u8; 16];
    File::open("/dev/urandom")?.read_exact(&mut random)?;
    Ok(random.iter().map(|b| format!("{b:02x}")).collect::<String>().into_bytes())
}

/// The last epoch of the session that was done; the folder's own entry, and those of all names in it. Contents of some come behind.
pub fn all_names(link: &mut Link, along: u64) -> io::Result<(u64, Vec<Entry>)> {
    link.send(Request::Tree { id: 0, name: Name::root(), along })?;
    let Reply::Welcome { root, done, .. } = reply(link)? else { return Err(io::ErrorKind::InvalidData.into()) };
    let mut all = vec![root];
    loop {
        let Reply::Entries { entries, more, .. } = reply(link)? else {
            return Err(io::ErrorKind::InvalidData.into());
        };
        all.extend(entries.into_iter().filter(|e| !e.name.is_root()));
        if !more {
            return Ok((done, all));
        }
    }
}
fn reply(link: &mut Link) -> io::Result<Reply> {
    match link.receive_within(PATIENCE)? {
        Reply::Fault { why } => Err(io::Error::other(String::from_utf8_lossy(&why.0).into_owned())),
        r => Ok(r),
    }
}

/// The supervisor is the first process of namespaces of its own; this one waits for it.
fn split(options: Options, (link, session): (Link, Vec<u8>), entries: Vec<Entry>) -> io::Result<i32> {
    let (read, write) = output::pipe()?;
    ground::enter_namespaces()?;
    // SAFETY: there is one thread; both go on as they are.
    match unsafe { libc::fork() } {
        -1 => Err(io::Error::last_os_error()),
        0 => {
            drop(read);
            let status = supervise(options.clone(), (link, session), &entries);
            let _ = File::from(write).write_all(&status.to_le_bytes());
            std::process::exit(0);
        }
        inner => {
            drop(write);
            let status = wait_for(inner, read, link);
            for s in &options.scratch {
                let _ = fs::remove_dir_all(s.join(saved_names(options.tag)));
            }
            Ok(status)
        }
    }
}

/// Signals are the command's; the status is, too.
fn wait_for(inner: Pid, status: OwnedFd, link: Link) -> i32 {
    for s in [libc::SIGINT, libc::SIGQUIT] {
        handle(s, libc::SIG_IGN);
    }
    for s in [libc::SIGTERM, libc::SIGHUP, libc::SIGUSR1, libc::SIGUSR2] {
        handle(s, on_signal as *const () as usize);
    }
    let mut b = [0u8; 4];
    let mut status = File::from(status);
    let mut got = 0;
    while got < 4 {
        match status.read(&mut b[got..]) {
            Ok(0) => break,
            Ok(n) => got += n,
            Err(e) if e.kind() == io::ErrorKind::Interrupted => {
                sys::kill(inner, FORWARD.swap(0, Ordering::Relaxed));
            }
            Err(_) => break,
        }
    }
    drop(link);
    // SAFETY: a number, and no status; the processor time of all is this process's children's then.
    unsafe { libc::waitpid(inner, std::ptr::null_mut(), 0) };
    if got < 4 {
        say("the supervisor has ended; what was not decided is undone");
        return LOST;
    }
    let ended = i32::from_le_bytes(b);
    if libc::WIFSIGNALED(ended) {
        end_by(libc::WTERMSIG(ended));
    }
    libc::WEXITSTATUS(ended)
}
/// Ends by the signal by which the command ended.
fn end_by(signal: i32) -> ! {
    let none = libc::rlimit { rlim_cur: 0, rlim_max: 0 };
    // SAFETY: `none` is a limit; else numbers.
    unsafe {
        libc::setrlimit(libc::RLIMIT_CORE, &raw const none);
        libc::signal(signal, libc::SIG_DFL);
        libc::raise(signal);
    }
    std::process::exit(128 + signal)
}

/// A signal handler: something can be read, or a signal is for the command.
extern "C" fn on_signal(signal: libc::c_int) {
    match signal {
        libc::SIGALRM if ORPHANED.load(Ordering::Relaxed) && TICKS.fetch_sub(1, Ordering::Relaxed) < 0 => {
            // SAFETY: ends this process, and all others with it.
            unsafe { libc::_exit(LOST) }
        }
        libc::SIGIO | libc::SIGALRM => {}
        ORPHAN => ORPHANED.store(true, Ordering::Relaxed),
        s => FORWARD.store(s, Ordering::Relaxed),
    }
    READY.store(true, Ordering::Relaxed);
}
/// Calls that wait end with the signal.
fn handle(signal: i32, handler: usize) -> usize {
    // SAFETY: `sa` is a handler with no flags, and an empty mask; it only stores into atomics.
    unsafe {
        let mut sa: libc::sigaction = std::mem::zeroed();
        let mut old: libc::sigaction = std::mem::zeroed();
        sa.sa_sigaction = handler;
        libc::sigaction(signal, &raw const sa, &raw mut old);
        old.sa_sigaction
    }
}

/// As a status of `wait`.
fn exited(code: i32) -> i32 {
    code << 8
}

fn supervise(options: Options, link: (Link, Vec<u8>), entries: &[Entry]) -> i32 {
    // SAFETY: numbers only.
    unsafe {
        libc::prctl(libc::PR_SET_PDEATHSIG, libc::SIGKILL);
        libc::prctl(libc::PR_SET_TIMERSLACK, 1000);
    }
    let begin = Instant::now();
    let files = sys::open_many_files();
    let stats = options.stats.clone().map(|to| to.map(|file| std::path::absolute(&file).unwrap_or(file)));
    let mut s = match prepare(options, link, entries) {
        Ok(s) => s,
        Err(e) => {
            say(e);
            return exited(CANNOT);
        }
    };
    let status = match begin_command(&mut s, &files).map_err(|e| Failure::Broken(e.to_string())).and_then(|()| s.run())
    {
        Ok(status) => status,
        Err(e) => {
            s.abandon(); // [18]
            say(format_args!("{e}; what was not decided is undone"));
            exited(LOST)
        }
    };
    s.undo.close();
    if let Some(to) = stats {
        let report = s.stats.report(begin.elapsed(), &s.why, (s.link.sent, s.link.received));
        match to {
            Some(file) => drop(fs::write(file, report)),
            None => eprint!("{report}"),
        }
    }
    status
}

fn prepare(mut options: Options, (link, session): (Link, Vec<u8>), entries: &[Entry]) -> io::Result<Supervisor> {
    let trace = Trace::open(options.trace.as_deref())?;
    let folder = options.mount.clone().map_or_else(std::env::current_dir, Ok)?;
    let ground = ground::prepare(&folder)?;
    let mut undo = UndoLog::default();
    undo.add_folder(ground.device, ground.undo.clone());
    let tag = options.tag;
    for s in &mut options.scratch {
        *s = fs::canonicalize(&*s)?;
        undo::clear_left(s);
        undo.add_folder(fs::metadata(&*s)?.dev(), s.join(saved_names(tag)));
    }
    let scratch = options.scratch.iter().map(|s| bytes(s).to_vec()).collect();
    ground.enter()?;
    let mut s = Supervisor {
        paths: Paths::new(bytes(&ground.mount).to_vec(), scratch, Board::make()?),
        learned: Learned::default(),
        handles: Handles::default(),
        stored: Stored::watch_mount(&ground.mount)?,
        names: Names::new(ground.data.clone(), ground.undo.clone()),
        streams: Streams::open()?,
        keeper: ground::keeper()?,
        epochs: Epochs::new(),
        why: Why::new(options.why),
        fetching: Fetching::default(),
        drafts: Drafts::default(),
        changed_drafts: Vec::new(),
        reopened: Vec::new(),
        retold: HashSet::new(),
        later: VecDeque::new(),
        tree: Tree::default(),
        stats: Stats::default(),
        stopping: false,
        session,
        trace,
        undo,
        options,
        ground,
        link,
    };
    install_all(&mut s, entries)?;
    Ok(s)
}

/// The folder for names that went, in each scratch folder.
fn saved_names(tag: u32) -> String {
    format!("{}{tag}", undo::SAVED)
}

fn install_all(s: &mut Supervisor, entries: &[Entry]) -> io::Result<()> {
    let folder = sys::open(&s.names.local(&Name::root()), libc::O_RDONLY | libc::O_DIRECTORY)?;
    for e in entries {
        let mut k = s.names.install_first(folder.as_raw_fd(), e);
        k.listed = e.kind == crate::wire::Kind::Folder;
        s.set_told(&e.name, k);
        if k.listed {
            s.stored.watch(&s.names, &e.name);
        }
    }
    s.names.set_folder_times(entries);
    s.fetching.comes_along(entries);
    let due = Vec::new();
    s.stored.discard(&s.paths, due);
    Ok(())
}

/// Signals tell of what can be read while a process is waited for; a tick makes up for those that come too soon.
fn hear(s: &Supervisor) {
    for signal in [libc::SIGIO, libc::SIGALRM, libc::SIGTERM, libc::SIGHUP, libc::SIGUSR1, libc::SIGUSR2, ORPHAN] {
        handle(signal, on_signal as *const () as usize);
    }
    // from here on there may be something to be taken back
    // SAFETY: numbers only.
    unsafe { libc::prctl(libc::PR_SET_PDEATHSIG, ORPHAN) };
    output::signal_when_ready(s.link.handles().0);
    s.streams.signal_when_ready();
    let tick = libc::timeval { tv_sec: 0, tv_usec: 5000 };
    let every = libc::itimerval { it_interval: tick, it_value: tick };
    // SAFETY: `every` is a time.
    unsafe { libc::syscall(libc::SYS_setitimer, libc::ITIMER_REAL, &raw const every, 0) };
}

fn begin_command(s: &mut Supervisor, files: &libc::rlimit) -> io::Result<()> {
    let args: Vec<CString> = s.options.command.iter().map(sys::c_str).collect();
    let (read, write) = output::pipe()?;
    let input = sys::stat(0).map(|st| st.st_mode & libc::S_IFMT == libc::S_IFCHR && st.st_rdev != 0x103);
    let program = filter::program(input.unwrap_or(false) && io::IsTerminal::is_terminal(&io::stdin()));
    let ends = [s.streams.end_of(0), s.streams.end_of(1)];
    let begin = sys::c_path(&s.ground.begin);
    let ignored = [libc::SIGINT, libc::SIGQUIT].map(|n| (n, handle(n, libc::SIG_IGN)));
    // SAFETY: there is one thread; the child only makes calls until it execs.
    let root = match unsafe { libc::fork() } {
        -1 => return Err(io::Error::last_os_error()),
        0 => become_command((&args, &begin), read, ends, program, (&ignored, files)),
        root => root,
    };
    sys::seize(root)?;
    s.tree.root = root;
    // SAFETY: numbers only.
    let group = unsafe { libc::getpgid(root) };
    s.tree.group = group;
    // SAFETY: registers are plain numbers.
    let none: sys::Regs = unsafe { std::mem::zeroed() };
    s.tree.all.insert(root, Process::new(Facts::of_first(root, group), State::Running, none, false));
    hear(s);
    File::from(write).write_all(b"x")
}

/// The child of the fork: waits until it is traced, and becomes the command.
fn become_command(
    (args, begin): (&[CString], &CStr),
    gate: OwnedFd,
    ends: [i32; 2],
    mut program: Vec<libc::sock_filter>,
    (signals, files): (&[(i32, usize)], &libc::rlimit),
) -> ! {
    let mut gate = File::from(gate);
    let _ = gate.read(&mut [0u8; 1]);
    let mut pointers: Vec<*const libc::c_char> = args.iter().map(|a| a.as_ptr()).collect();
    pointers.push(std::ptr::null());
    // SAFETY: the descriptors are open; `begin` ends with a zero; `pointers` are strings that do so, and a null.
    unsafe {
        for (signal, was) in signals {
            libc::signal(*signal, *was);
        }
        libc::signal(libc::SIGPIPE, libc::SIG_DFL);
        libc::setrlimit(libc::RLIMIT_NOFILE, files);
        libc::dup2(ends[0], 1);
        libc::dup2(ends[1], 2);
        // descriptors from outside can't be opened once more
        libc::syscall(libc::SYS_close_range, 3u32, u32::MAX, libc::CLOSE_RANGE_CLOEXEC);
        libc::chdir(begin.as_ptr());
        if !filter::install(&mut program) {
            libc::_exit(CANNOT);
        }
        libc::execvp(pointers[0], pointers.as_ptr());
        let e = io::Error::last_os_error();
        let code = if e.kind() == io::ErrorKind::NotFound { 127 } else { 126 };
        let line = format!("hidewillow-run: {}: {e}\n", args[0].to_string_lossy());
        libc::write(2, line.as_ptr().cast(), line.len());
        libc::_exit(code);
    }
}
