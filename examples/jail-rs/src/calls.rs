//! The two calls that the standard library doesn't offer. All `unsafe` code of the jailer is here.

use std::io;
use std::os::raw::{c_int, c_long};

extern "C" {
    fn signal(number: c_int, handler: usize) -> usize;
    fn syscall(number: c_long, ...) -> c_long;
}

const SIGCHLD: c_int = 17;
const SYS_CLOSE_RANGE: c_long = 436;

/// The usual handler of a signal.
pub const SIG_DFL: usize = 0;

/// Sets the handler of SIGCHLD, and returns the one before.
pub fn handle_children(handler: usize) -> usize {
    // SAFETY: the handler is `SIG_DFL`, or one that this call returned: no function of this program.
    unsafe { signal(SIGCHLD, handler) }
}

/// Closes all descriptors but the standard streams.
pub fn close_others() -> io::Result<()> {
    // SAFETY: this program has no file open, so the descriptors are those that it was started with, and nothing uses them.
    match unsafe { syscall(SYS_CLOSE_RANGE, 3_u32, u32::MAX, 0_u32) } {
        0 => Ok(()),
        _ => Err(io::Error::last_os_error()),
    }
}
