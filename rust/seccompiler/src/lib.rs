//! The interface of the crate `seccompiler` 0.5.0, over a proved compiler of seccomp filters.
//!
//! With seccomp the kernel filters system calls: a BPF program is installed for a thread or a process, runs at each of
//! its system calls, and returns an action, such as to allow the call. This crate compiles filters to BPF programs and
//! installs them.
//!
//! - A *condition* ([`SeccompCondition`]) compares one argument of a call with a value.
//! - A *rule* ([`SeccompRule`]) is a list of conditions. It matches a call if all of them hold.
//! - A *filter* ([`SeccompFilter`]) has rules under the numbers of system calls. A call gets the *match action* if one
//!   of the rules under its number matches it, or if the list of rules there is empty. Any other call gets the
//!   *mismatch action*.
//! - A *BPF program* ([`BpfProgram`]) is compiled from a filter by `try_into`. [`apply_filter`] *installs* it for the
//!   calling thread, and [`apply_filter_all_threads`] for all threads of the process.
//! - `compile_from_json`, with the feature `json`, compiles the filters of a JSON text.
//!
//! The project's library for C, which is linked in, decides what is accepted and compiles it. What its functions return
//! is proved. Nothing of this crate is proved. It passes data to the library, declares the library's functions as
//! their header does, and calls the kernel. This is tested, and short enough to read.
//!
//! # What differs from the crate
//!
//! Names, types and traits are those of the crate, and programs are equal byte for byte. But:
//!
//! - **An entry of a JSON filter without `args` always matches its call.** In the crate it has no effect if the call also
//!   has entries with `args`. This may permit more: `seccomptool check` warns of such calls.
//! - A program of exactly 4096 instructions, the most that a kernel takes, is compiled; the crate rejects it.
//! - A number of a system call that is below 0 or above 4294967295 is the error
//!   [`BackendError::InvalidSyscallNumber`]; the crate panics.
//! - If memory runs out, calls that return a `Result` return [`BackendError::OutOfMemory`]; the crate aborts.
//!   So a `match` on [`BackendError`] without an arm `_` needs arms for these two.
//! - The error of the JSON front end can be named, `JsonFrontendError`. Its three variants are the causes: the reader,
//!   the text, the policy. The library writes the messages of policies, and may report another one of several faults.
//!   Forms of JSON filters that the crate takes and doesn't document, such as `{"allow": null}`, are rejected.
//! - [`apply_filter`] rejects a program of more than 65535 instructions; the crate cuts off its end.
//! - `Deserialize` of [`SeccompCmpOp`], [`SeccompCmpArgLen`] and [`SeccompAction`] comes with the feature `serde`, which
//!   is off by default, and not with `json`.
//!
//! Added are [`Layout`] with [`SeccompFilter::to_bpf_in`] and `compile_from_json_in`, [`SeccompFilter::decide`],
//! [`apply_filter_with_flags`], [`check`], [`run`], and [`compare`] with its types.
//!
//! # Features and hosts
//!
//! `json` has `compile_from_json`, and `serde` has `Deserialize` of operators, lengths and actions.
//!
//! The crate runs on Linux on x86_64 and aarch64, for which packages have the library. Hosts of riscv64 are missing: on
//! them, and if the library isn't found, `cargo check`, `doc` and `clippy` work, and linking fails. Filters are compiled
//! for x86_64, aarch64 and riscv64.
//!
//! # Examples
//!
//! This filter allows output to standard output and standard error, and the end of the process:
//!
//! ```
//! use seccompiler::{
//!     BpfProgram, SeccompAction, SeccompCmpArgLen, SeccompCmpOp, SeccompCondition, SeccompFilter, SeccompRule,
//!     TargetArch,
//! };
//!
//! let (write, exit_group) = (1, 231);
//! let to = |descriptor| {
//!     let condition =
//!         SeccompCondition::new(0, SeccompCmpArgLen::Dword, SeccompCmpOp::Eq, descriptor)?;
//!     SeccompRule::new(vec![condition])
//! };
//! let filter = SeccompFilter::new(
//!     [(write, vec![to(1)?, to(2)?]), (exit_group, vec![])].into(),
//!     SeccompAction::Errno(1),
//!     SeccompAction::Allow,
//!     TargetArch::x86_64,
//! )?;
//! let program: BpfProgram = filter.try_into()?;
//! assert_eq!(program.len(), 22);
//! # Ok::<(), seccompiler::BackendError>(())
//! ```
//!
//! `seccompiler::apply_filter(&program)?` installs the program.

#![deny(missing_docs, unsafe_op_in_unsafe_fn, unsafe_code)]
#![warn(clippy::undocumented_unsafe_blocks)]

mod backend;
mod condition;
mod filter;
mod install;
#[cfg(feature = "json")]
mod json;
mod library;
mod program;
mod rule;
#[allow(unsafe_code)]
mod sys;

pub use backend::{BackendError, SeccompAction, SeccompCmpArgLen, SeccompCmpOp, TargetArch};
pub use condition::SeccompCondition;
pub use filter::SeccompFilter;
pub use install::{apply_filter, apply_filter_all_threads, apply_filter_with_flags};
#[cfg(feature = "json")]
pub use json::{compile_from_json, compile_from_json_in, JsonFrontendError, NoJson};
pub use program::{
    check, compare, run, sock_filter, BpfProgram, BpfProgramRef, Calls, Comparison, Layout,
    ProgramError, Relation,
};
pub use rule::SeccompRule;

use std::collections::HashMap;
use std::error;
use std::fmt;
use std::io;
use std::os::raw::c_long;

/// Programs under the names of their filters, which are mostly those of kinds of threads.
pub type BpfMap = HashMap<String, BpfProgram>;

/// A result of this crate.
pub type Result<T> = std::result::Result<T, Error>;

/// Why a filter isn't compiled or installed.
#[derive(Debug)]
pub enum Error {
    /// A filter is rejected, or has no program.
    Backend(BackendError),
    /// A program without instructions was to be installed.
    EmptyFilter,
    /// `prctl(PR_SET_NO_NEW_PRIVS)` failed.
    Prctl(io::Error),
    /// `seccomp(2)` failed.
    Seccomp(io::Error),
    /// A thread can't take the program, as it has a filter that the calling thread doesn't have: its number.
    ThreadSync(c_long),
    /// A JSON text gives no filters.
    #[cfg(feature = "json")]
    JsonFrontend(JsonFrontendError),
}

impl error::Error for Error {
    fn source(&self) -> Option<&(dyn error::Error + 'static)> {
        match self {
            Error::Backend(error) => Some(error),
            Error::Prctl(error) | Error::Seccomp(error) => Some(error),
            Error::EmptyFilter | Error::ThreadSync(_) => None,
            #[cfg(feature = "json")]
            Error::JsonFrontend(error) => Some(error),
        }
    }
}

impl fmt::Display for Error {
    fn fmt(&self, f: &mut fmt::Formatter<'_>) -> fmt::Result {
        match self {
            Error::Backend(error) => write!(f, "Backend error: {error}"),
            Error::EmptyFilter => f.write_str("Cannot install empty filter."),
            Error::Prctl(error) => write!(f, "Error calling `prctl`: {error}"),
            Error::Seccomp(error) => write!(f, "Error calling `seccomp`: {error}"),
            Error::ThreadSync(thread) => {
                write!(
                    f,
                    "Seccomp filter synchronization failed in thread `{thread}`"
                )
            }
            #[cfg(feature = "json")]
            Error::JsonFrontend(error) => write!(f, "Json Frontend error: {error}"),
        }
    }
}

impl From<BackendError> for Error {
    fn from(error: BackendError) -> Self {
        Error::Backend(error)
    }
}

#[cfg(feature = "json")]
impl From<JsonFrontendError> for Error {
    fn from(error: JsonFrontendError) -> Self {
        Error::JsonFrontend(error)
    }
}
