//! An address that is had before anything else is done, and listened at once there is something to be told.
use super::system::checked;
use std::ffi::{c_int, c_void};
use std::io;
use std::net::{SocketAddr, TcpListener, ToSocketAddrs};
use std::os::fd::{AsRawFd, FromRawFd, OwnedFd};

/// An address as the system has it: of either kind, in as many bytes as the longer has.
type Raw = [u8; 28];

extern "C" {
    fn socket(family: c_int, kind: c_int, protocol: c_int) -> c_int;
    fn bind(fd: c_int, address: *const Raw, len: u32) -> c_int;
    fn listen(fd: c_int, waiting: c_int) -> c_int;
    fn setsockopt(fd: c_int, level: c_int, name: c_int, value: *const c_void, len: u32) -> c_int;
}

const INET: u16 = 2;
const INET6: u16 = 10;
/// A stream, whose handle no program has that is started; and of its options that an address may be had again at once.
const STREAM: c_int = 1 | 0o2000000;
const REUSE: (c_int, c_int) = (1, 2);
/// So many connections may wait to be accepted, where the system allows it.
const WAITING: c_int = 4096;

/// An address that this process has, at which nobody is heard yet.
pub struct Bound(OwnedFd);

/// The bytes of an address, and how many they are.
fn raw(address: &SocketAddr) -> (Raw, u32) {
    let mut raw = [0; 28];
    raw[2..4].copy_from_slice(&address.port().to_be_bytes());
    match address {
        SocketAddr::V4(at) => {
            raw[..2].copy_from_slice(&INET.to_ne_bytes());
            raw[4..8].copy_from_slice(&at.ip().octets());
            (raw, 16)
        }
        SocketAddr::V6(at) => {
            raw[..2].copy_from_slice(&INET6.to_ne_bytes());
            raw[8..24].copy_from_slice(&at.ip().octets());
            raw[24..].copy_from_slice(&at.scope_id().to_ne_bytes());
            (raw, 28)
        }
    }
}

impl Bound {
    /// Has an address, by its text; an error names it.
    pub fn at(text: &str) -> io::Result<Bound> {
        let named = |error: io::Error| io::Error::new(error.kind(), format!("{text}: {error}"));
        let mut did = Err(io::ErrorKind::AddrNotAvailable.into());
        for address in text.to_socket_addrs().map_err(named)? {
            did = Bound::of(&address);
            if did.is_ok() {
                break;
            }
        }
        did.map_err(named)
    }

    fn of(address: &SocketAddr) -> io::Result<Bound> {
        let (family, on) = (if address.is_ipv4() { INET } else { INET6 }, 1 as c_int);
        // Safety: no pointer is given.
        let fd = checked(unsafe { socket(family.into(), STREAM, 0) })?;
        // Safety: the system has just opened it, for nobody else.
        let bound = Bound(unsafe { OwnedFd::from_raw_fd(fd) });
        let (raw, len) = raw(address);
        // Safety: what is pointed to lives for the calls, and has the lengths that are told; an address is as the system declares it.
        unsafe {
            checked(setsockopt(fd, REUSE.0, REUSE.1, (&raw const on).cast(), size_of::<c_int>() as u32))?;
            checked(bind(fd, &raw, len))?;
        }
        Ok(bound)
    }

    /// Hears who connects from now on.
    pub fn listen(self) -> io::Result<TcpListener> {
        // Safety: no pointer is given.
        checked(unsafe { listen(self.0.as_raw_fd(), WAITING) })?;
        Ok(self.0.into())
    }
}
