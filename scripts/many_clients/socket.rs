//! What std has no stable call for.

use std::ffi::{c_int, c_void};
use std::io;
use std::net::TcpStream;
use std::os::fd::AsRawFd;

const SOL_SOCKET: c_int = 1;

const SO_LINGER: c_int = 13;

extern "C" {
    fn setsockopt(fd: c_int, level: c_int, name: c_int, value: *const c_void, len: u32) -> c_int;
}

/// Ends a connection by a reset, and not by its end.
pub fn reset(stream: TcpStream) -> io::Result<()> {
    // `struct linger`: it is on, and waits for no second.
    let linger: [c_int; 2] = [1, 0];
    let value = linger.as_ptr().cast();
    let outcome = unsafe { setsockopt(stream.as_raw_fd(), SOL_SOCKET, SO_LINGER, value, 8) };
    if outcome == 0 {
        Ok(())
    } else {
        Err(io::Error::last_os_error())
    }
}
