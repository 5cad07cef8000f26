//! What keeps a command from being run, and how it is reported.

use std::error::Error;
use std::ffi::{OsStr, OsString};
use std::fmt;
use std::io;
use std::os::unix::ffi::OsStrExt;

/// The forms of the command.
pub const USAGE: &str = "\
usage: jail-rs [OPTION].. POLICY FILTER[,FILTER].. [--] COMMAND [ARGUMENT]..
       jail-rs [OPTION].. POLICY -- COMMAND [ARGUMENT]..
       jail-rs [OPTION].. --program PROGRAM [--] COMMAND [ARGUMENT]..
       jail-rs [OPTION].. --oci [--cap CAP].. [--kernel KERNEL] [--runtime RUNTIME] PROFILE [--] COMMAND [ARGUMENT]..
";

/// What the help says of them.
pub const HELP: &str = "
Runs a command under seccomp filters, as the jailer in C does, with its options
and exit statuses: --tree, --log, --close-fds, --help and --version.
";

/// The most bytes of a program that a kernel takes.
pub const MOST_BYTES: usize = 8 * 4096;

/// What keeps a command from being run.
pub enum Failure {
    /// The arguments are none of the forms.
    Words,
    /// A file can't be read, or descriptors can't be closed.
    File(OsString, io::Error),
    /// The file has so many bytes, which aren't whole instructions, or are more than the kernel takes.
    Program(OsString, usize),
    /// `seccomptool` can't be run.
    Tool(io::Error),
    /// `seccomptool` was killed by this signal.
    Killed(i32),
    /// `seccomptool` rejects the profile, and has said why.
    Profile,
    /// The policy is rejected.
    Filter(OsString, seccompiler::Error),
    /// The policy has no filter of this name.
    NoFilter(OsString, OsString),
    /// The policy has none or several, and none was named.
    NotOne(OsString, &'static str),
    /// The kernel rejects the program of the filter of this name, with a hint on why.
    Install(OsString, OsString, seccompiler::Error, &'static str),
    /// The command can't be run.
    Command(OsString, io::Error),
}

/// Returns the text with each byte that isn't printable ASCII as a number, since it may steer a terminal.
fn shown(text: &OsStr) -> String {
    let byte = |byte: &u8| match byte {
        b' '..=b'~' => char::from(*byte).to_string(),
        _ => format!("\\x{byte:02x}"),
    };
    text.as_bytes().iter().map(byte).collect()
}

impl Failure {
    /// Returns the exit status.
    pub fn status(&self) -> u8 {
        match self {
            Failure::Command(_, error) if error.kind() == io::ErrorKind::NotFound => 127,
            Failure::Command(..) => 126,
            _ => 125,
        }
    }

    /// Returns what the failure is about, and why it is one; nothing if that was said, or is the usage.
    fn parts(&self) -> Option<(OsString, String)> {
        let (what, why) = match self {
            Failure::Words | Failure::Profile => return None,
            Failure::Tool(error) => ("seccomptool".into(), error.to_string()),
            Failure::Killed(signal) => ("seccomptool".into(), format!("killed by signal {signal}")),
            Failure::Program(path, length) => {
                let more = if *length > MOST_BYTES {
                    "more than "
                } else {
                    ""
                };
                let found = format!("found {more}{} bytes", length.min(&MOST_BYTES));
                let expected = "expected 1 to 4096 instructions of 8 bytes";
                (path.clone(), format!("{expected}, {found}"))
            }
            Failure::File(path, error) | Failure::Command(path, error) => {
                (path.clone(), error.to_string())
            }
            Failure::Filter(path, error) => {
                let cause = error.source().map(ToString::to_string);
                (path.clone(), cause.unwrap_or_else(|| error.to_string()))
            }
            Failure::NoFilter(path, name) => (
                path.clone(),
                format!("No filter has this name: {}.", shown(name)),
            ),
            Failure::NotOne(path, why) => (path.clone(), (*why).to_string()),
            Failure::Install(path, name, error, hint) => {
                let why = match error {
                    seccompiler::Error::Prctl(error) => format!("prctl: {error}{hint}"),
                    seccompiler::Error::Seccomp(error) => format!("seccomp: {error}{hint}"),
                    error => error.to_string(),
                };
                (path.clone(), format!("installing {}: {why}", shown(name)))
            }
        };
        Some((what, why))
    }
}

impl fmt::Display for Failure {
    fn fmt(&self, f: &mut fmt::Formatter<'_>) -> fmt::Result {
        match self.parts() {
            Some((what, why)) => writeln!(f, "jail-rs: {}: {}", shown(&what), shown(why.as_ref())),
            None if matches!(self, Failure::Words) => f.write_str(USAGE),
            None => Ok(()),
        }
    }
}
