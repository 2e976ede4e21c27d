//! Where the command stands: namespaces of its own, and the mount.
use crate::run::sys::{self, Pid};
use std::ffi::CString;
use std::fs;
use std::io;
use std::os::fd::{AsRawFd, OwnedFd};
use std::path::{Path, PathBuf};

/// What went wrong, where.
fn at<T>(what: &str, done: io::Result<T>) -> io::Result<T> {
    done.map_err(|e| io::Error::new(e.kind(), format!("{what}: {e}")))
}
fn checked(r: i32) -> io::Result<()> {
    if r == 0 {
        Ok(())
    } else {
        Err(io::Error::last_os_error())
    }
}

/// Enters namespaces of its own: mounts and process numbers, and users where it has no privileges.
pub fn enter_namespaces() -> io::Result<()> {
    let (user, group) = (nix::unistd::geteuid(), nix::unistd::getegid());
    let own = libc::CLONE_NEWPID | libc::CLONE_NEWNS;
    // SAFETY: numbers only.
    if checked(unsafe { libc::unshare(own) }).is_ok() {
        return Ok(());
    }
    // SAFETY: numbers only.
    at("user namespaces are not to be had", checked(unsafe { libc::unshare(own | libc::CLONE_NEWUSER) }))?;
    at("setgroups", fs::write("/proc/self/setgroups", "deny"))?;
    at("uid_map", fs::write("/proc/self/uid_map", format!("{user} {user} 1")))?;
    at("gid_map", fs::write("/proc/self/gid_map", format!("{group} {group} 1")))
}

fn mount(from: &Path, to: &Path, kind: &str, flags: u64, data: &str) -> io::Result<()> {
    let (a, b) = (sys::c_path(from), sys::c_path(to));
    let (k, d) = (CString::new(kind)?, CString::new(data)?);
    // SAFETY: all four end with zeros.
    let r = unsafe { libc::mount(a.as_ptr(), b.as_ptr(), k.as_ptr(), flags, d.as_ptr().cast()) };
    at(&format!("mount of {}", to.display()), checked(r))
}

/// The mount: a file system in memory, of which the processes see one folder.
pub struct Ground {
    /// The file system as a whole; it has no other name.
    top: OwnedFd,
    /// Where the command begins.
    pub begin: PathBuf,
    pub mount: PathBuf,
    pub device: u64,
    /// Both below the file system's top.
    pub data: PathBuf,
    pub undo: PathBuf,
}

impl Ground {
    /// From here on paths of this process begin at the file system's top: from there the local copies are found soonest.
    pub fn enter(&self) -> io::Result<()> {
        // SAFETY: numbers only.
        at("the mount", checked(unsafe { libc::fchdir(self.top.as_raw_fd()) }))
    }
    /// Does something where the command begins.
    pub fn where_it_begins<T>(&self, what: impl FnOnce() -> T) -> io::Result<T> {
        std::env::set_current_dir(&self.begin)?;
        let done = what();
        self.enter()?;
        Ok(done)
    }
}

/// Mounts an empty folder there, in namespaces that were entered by a fork.
pub fn prepare(folder: &Path) -> io::Result<Ground> {
    mount(Path::new("none"), Path::new("/"), "none", libc::MS_REC | libc::MS_PRIVATE, "")?;
    mount(Path::new("proc"), Path::new("/proc"), "proc", 0, "")?;
    let begin = std::env::current_dir()?;
    fs::create_dir_all(folder)?;
    let folder = fs::canonicalize(folder)?;
    mount(Path::new("hidewillow"), &folder, "tmpfs", 0, "mode=700")?;
    let top = sys::open(&folder, libc::O_PATH | libc::O_DIRECTORY)?;
    let (data, undo) = (PathBuf::from("data"), PathBuf::from("undo"));
    let device = sys::stat(top.as_raw_fd())?.st_dev;
    let ground = Ground { top, begin, mount: folder, device, data, undo };
    ground.enter()?;
    fs::create_dir(&ground.data)?;
    fs::create_dir(&ground.undo)?;
    mount(&ground.data, &ground.mount, "none", libc::MS_BIND, "")?;
    std::env::set_current_dir(&ground.begin)?;
    Ok(ground)
}

/// A process that has the supervisor's descriptors, and no privileges: from it the tree's processes fetch theirs.
pub fn keeper() -> io::Result<Pid> {
    // SAFETY: as fork, but for the table of descriptors, which is shared; the child only sleeps.
    let pid = unsafe { libc::syscall(libc::SYS_clone, libc::CLONE_FILES | libc::SIGCHLD, 0, 0, 0, 0) } as Pid;
    match pid {
        -1 => Err(io::Error::last_os_error()),
        0 => sleep(),
        pid => Ok(pid),
    }
}

fn sleep() -> ! {
    const VERSION_3: u32 = 0x2008_0522;
    let head = [VERSION_3, 0];
    let none = [0u32; 6];
    // SAFETY: a child of one thread; `head` and `none` are what the call wants, and outlive it.
    unsafe {
        libc::prctl(libc::PR_SET_PDEATHSIG, libc::SIGKILL);
        libc::syscall(libc::SYS_capset, head.as_ptr(), none.as_ptr());
        libc::prctl(libc::PR_SET_DUMPABLE, 1);
        libc::prctl(libc::PR_SET_PTRACER, u64::MAX);
        for s in [libc::SIGIO, libc::SIGALRM, libc::SIGINT, libc::SIGQUIT, libc::SIGTERM, libc::SIGHUP, libc::SIGPWR] {
            libc::signal(s, libc::SIG_IGN);
        }
        loop {
            libc::pause();
        }
    }
}
