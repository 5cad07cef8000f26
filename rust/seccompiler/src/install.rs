//! Installing programs in the kernel. Nothing of it is proved.

use crate::program::BpfProgramRef;
use crate::sys;
use crate::{Error, Result};
use std::io;
use std::os::raw::c_ulong;

const SECCOMP_FILTER_FLAG_TSYNC: c_ulong = 1;
const EINVAL: i32 = 22;

/// Installs a program for the calling thread.
///
/// First it sets no_new_privs of the thread, by `prctl(PR_SET_NO_NEW_PRIVS, 1, 0, 0, 0)`. Neither this nor the program
/// can be taken back.
///
/// # Errors
///
/// - `EmptyFilter` if the program has no instructions. Then neither call was made.
/// - `Prctl` if no_new_privs can't be set, with the kernel's errno.
/// - `Seccomp` if the kernel rejects the program, with its errno: `EINVAL` for more than 4096 instructions. For more than
///   65535, which can't be passed to a kernel, it is `EINVAL` too, and neither call was made.
///
/// # Examples
///
/// ```no_run
/// use seccompiler::{apply_filter, BpfProgram, SeccompAction, SeccompFilter};
///
/// // Answers getpid, 39 on x86_64, with EPERM, and allows all else.
/// let filter = SeccompFilter::new(
///     [(39, vec![])].into(),
///     SeccompAction::Allow,
///     SeccompAction::Errno(1),
///     std::env::consts::ARCH.try_into()?,
/// )?;
/// let program: BpfProgram = filter.try_into()?;
/// apply_filter(&program)?;
/// # Ok::<(), Box<dyn std::error::Error>>(())
/// ```
pub fn apply_filter(bpf_filter: BpfProgramRef<'_>) -> Result<()> {
    apply_filter_with_flags(bpf_filter, 0)
}

/// Installs a program for all threads of the process, by `SECCOMP_FILTER_FLAG_TSYNC`.
///
/// # Errors
///
/// Those of [`apply_filter`]; and `ThreadSync` if a thread has a filter that the calling thread doesn't have. Then no
/// thread got the program.
pub fn apply_filter_all_threads(bpf_filter: BpfProgramRef<'_>) -> Result<()> {
    apply_filter_with_flags(bpf_filter, SECCOMP_FILTER_FLAG_TSYNC)
}

/// Installs a program with these flags of `seccomp(2)`, such as 2, `SECCOMP_FILTER_FLAG_LOG`.
///
/// An addition.
///
/// # Errors
///
/// Those of [`apply_filter`]; and `ThreadSync` if `seccomp` returns a positive number. With
/// `SECCOMP_FILTER_FLAG_TSYNC` that is the number of a thread, and with `SECCOMP_FILTER_FLAG_NEW_LISTENER` a descriptor.
pub fn apply_filter_with_flags(bpf_filter: BpfProgramRef<'_>, flags: c_ulong) -> Result<()> {
    if bpf_filter.is_empty() {
        return Err(Error::EmptyFilter);
    }
    let length = u16::try_from(bpf_filter.len())
        .map_err(|_| Error::Seccomp(io::Error::from_raw_os_error(EINVAL)))?;
    sys::set_no_new_privs().map_err(Error::Prctl)?;
    match sys::set_mode_filter(bpf_filter, length, flags) {
        Ok(0) => Ok(()),
        Ok(thread) => Err(Error::ThreadSync(thread)),
        Err(error) => Err(Error::Seccomp(error)),
    }
}
