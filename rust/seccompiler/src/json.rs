//! Filters from JSON.

use crate::backend::{BackendError, TargetArch};
use crate::library::{self, filled, reserved, NO_FILTER, NO_ROOM, OUT_OF_MEMORY, TOO_LARGE};
use crate::program::{BpfProgram, Layout, BLANK, BPF_MAX_LEN};
use crate::sys::{self, Named};
use crate::{BpfMap, Error, Result};
use std::borrow::Cow;
use std::error;
use std::fmt;
use std::io::{self, Read};

/// The most bytes of a message, but for what it shows of the policy.
const MESSAGE: usize = 4096;

/// The most bytes of a message for each byte of the policy: a name's control characters are written as `\x` and two digits.
const MESSAGE_PER_BYTE: usize = 4;

/// Room for a message that shows nothing of the policy.
const SHORT_MESSAGE: usize = 256;

/// How a message begins if the text isn't JSON.
const PARSING: &str = "Error parsing Json: ";
const REPEATED: &str = "Repeated key";

/// Why a text gives no filters.
///
/// The crate's error has three variants too, but can't be named outside of it.
#[derive(Debug)]
#[non_exhaustive]
pub enum JsonFrontendError {
    /// The reader failed.
    Read(io::Error),
    /// The text isn't JSON in UTF-8, nests too deep, or repeats a key.
    Json(NoJson),
    /// The text is JSON, but not a policy for the architecture: the path of the place, and what is wrong there.
    Policy(String),
}

impl error::Error for JsonFrontendError {
    fn source(&self) -> Option<&(dyn error::Error + 'static)> {
        match self {
            JsonFrontendError::Read(error) => Some(error),
            JsonFrontendError::Json(error) => Some(error),
            JsonFrontendError::Policy(_) => None,
        }
    }
}

impl fmt::Display for JsonFrontendError {
    fn fmt(&self, f: &mut fmt::Formatter<'_>) -> fmt::Result {
        match self {
            JsonFrontendError::Read(error) => write!(f, "{PARSING}{error}"),
            JsonFrontendError::Json(error) if error.is_repeated => write!(f, "{error}"),
            JsonFrontendError::Json(error) => write!(f, "{PARSING}{error}"),
            JsonFrontendError::Policy(text) => f.write_str(text),
        }
    }
}

/// Why a text isn't JSON without repeated keys: what is wrong, and the line and column if the library says them.
///
/// In the crate this is an error of `serde_json`.
#[derive(Debug)]
pub struct NoJson {
    is_repeated: bool,
    text: String,
}

impl NoJson {
    /// Returns what a message of the library says of a text that isn't JSON, or the message if it says something else.
    fn of(mut text: String) -> std::result::Result<Self, String> {
        let is_repeated = text.starts_with(REPEATED);
        if text.starts_with(PARSING) {
            text.drain(..PARSING.len());
        } else if !is_repeated {
            return Err(text);
        }
        Ok(NoJson { is_repeated, text })
    }
}

impl error::Error for NoJson {}

impl fmt::Display for NoJson {
    fn fmt(&self, f: &mut fmt::Formatter<'_>) -> fmt::Result {
        f.write_str(&self.text)
    }
}

/// Reads a JSON policy to its end, and returns the program of each of its filters, under the filter's name.
///
/// The programs are in the linear layout. The format is the crate's; an entry without `args` matches its call always.
///
/// # Errors
///
/// - `JsonFrontend` if the reader fails, or if the policy is rejected: it isn't JSON, has the wrong form, names an
///   unknown system call, or has a filter with a fault;
/// - `Backend` with `FilterTooLarge` if a program would have more than 4096 instructions, for the first such filter by
///   name; with `OutOfMemory` if memory runs out.
///
/// # Examples
///
/// ```
/// use seccompiler::{compile_from_json, TargetArch};
///
/// let policy = r#"{
///     "main_thread": {
///         "mismatch_action": { "errno": 1 },
///         "match_action": "allow",
///         "filter": [
///             { "syscall": "write", "args": [{ "index": 0, "type": "dword", "op": "le", "val": 2 }] },
///             { "syscall": "exit_group" }
///         ]
///     }
/// }"#;
/// let programs = compile_from_json(policy.as_bytes(), TargetArch::x86_64)?;
/// assert_eq!(programs["main_thread"].len(), 17);
/// let error = compile_from_json("[]".as_bytes(), TargetArch::x86_64).unwrap_err();
/// let place = "Json Frontend error: the policy: expected an object of filters";
/// assert_eq!(error.to_string(), format!("{place}, found an empty array"));
/// # Ok::<(), seccompiler::Error>(())
/// ```
pub fn compile_from_json<R: Read>(reader: R, arch: TargetArch) -> Result<BpfMap> {
    compile_from_json_in(reader, arch, Layout::Linear)
}

/// Reads a JSON policy as [`compile_from_json`] does, and returns programs in a layout.
///
/// An addition.
///
/// # Errors
///
/// Those of [`compile_from_json`].
pub fn compile_from_json_in<R: Read>(
    mut reader: R,
    arch: TargetArch,
    layout: Layout,
) -> Result<BpfMap> {
    let mut text = Vec::new();
    reader
        .read_to_end(&mut text)
        .map_err(|error| match error.kind() {
            io::ErrorKind::OutOfMemory => Error::Backend(BackendError::OutOfMemory),
            _ => Error::JsonFrontend(JsonFrontendError::Read(error)),
        })?;
    let mut policy = Policy::of(&text, arch)?;
    policy.accept(layout)?;
    let mut filters = Vec::new();
    for member in Members(&text) {
        let name = Policy::of_member(member, arch)?.name()?;
        filters
            .try_reserve(1)
            .map_err(|_| BackendError::OutOfMemory)?;
        filters.push((name, member));
    }
    // Of filters that are too large the first by name is reported.
    filters.sort_unstable();
    let mut programs = BpfMap::new();
    programs
        .try_reserve(filters.len())
        .map_err(|_| BackendError::OutOfMemory)?;
    for (name, member) in filters {
        let program = Policy::of_member(member, arch)?.program(&name, layout)?;
        programs.insert(name, program);
    }
    Ok(programs)
}

/// The members of the object that a JSON text is, each as it stands there, without the commas between. The library has
/// accepted the text, so it is whole and isn't checked again.
struct Members<'a>(&'a [u8]);

impl<'a> Iterator for Members<'a> {
    type Item = &'a [u8];

    fn next(&mut self) -> Option<&'a [u8]> {
        let (mut depth, mut in_string, mut escaped) = (0_usize, false, false);
        let start = self.0.iter().position(|byte| *byte == b'"')?;
        for (place, byte) in self.0.iter().enumerate().skip(start) {
            match byte {
                _ if escaped => escaped = false,
                b'\\' => escaped = true,
                b'"' => in_string = !in_string,
                _ if in_string => {}
                b'{' | b'[' => depth += 1,
                b'}' | b']' if depth > 0 => depth -= 1,
                b',' | b'}' if depth == 0 => {
                    let member = &self.0[start..place];
                    self.0 = &self.0[place + 1..];
                    return Some(member);
                }
                _ => {}
            }
        }
        None
    }
}

/// A policy, and what the library writes of it.
struct Policy<'a> {
    text: Cow<'a, [u8]>,
    arch: TargetArch,
    /// Room for a message. What it shows of the policy are names and a value, which stand in the policy.
    message: Vec<u8>,
}

impl<'a> Policy<'a> {
    /// Returns the policy of a text.
    fn of(text: &'a [u8], arch: TargetArch) -> Result<Self> {
        let told = text.len().saturating_mul(MESSAGE_PER_BYTE);
        let message = filled(0, told.saturating_add(MESSAGE))?;
        let text = Cow::Borrowed(text);
        Ok(Policy {
            text,
            arch,
            message,
        })
    }

    /// Returns the policy that has only this member of another one, which was accepted. So each filter is read three times,
    /// however many there are.
    fn of_member(member: &[u8], arch: TargetArch) -> Result<Self> {
        let mut text = reserved(member.len() + 2)?;
        text.push(b'{');
        text.extend_from_slice(member);
        text.push(b'}');
        let (text, message) = (Cow::Owned(text), filled(0, SHORT_MESSAGE)?);
        Ok(Policy {
            text,
            arch,
            message,
        })
    }

    /// Asks whether the library accepts all filters. It doesn't matter whether one has the empty name, or how large it is.
    fn accept(&mut self, layout: Layout) -> Result<()> {
        let filter = Named {
            policy: &self.text,
            architecture: self.arch.audit_arch(),
            name: &[],
        };
        match sys::compile(filter, layout as u32, &mut [], &mut self.message) {
            NO_FILTER | NO_ROOM | TOO_LARGE => Ok(()),
            answer => Err(self.rejection(answer)),
        }
    }

    /// Returns the name of the first filter.
    fn name(&mut self) -> Result<String> {
        // A name is part of the text, and a byte 0 follows it here.
        let mut room = filled(0, self.text.len().saturating_add(1))?;
        let answer = sys::filter_name(&self.text, 0, &mut room, &mut self.message);
        match usize::try_from(answer) {
            Ok(length) => Ok(library::text(&room[..length])?),
            Err(_) => Err(self.rejection(answer)),
        }
    }

    /// Returns the program of the filter of this name, in a layout.
    fn program(&mut self, name: &str, layout: Layout) -> Result<BpfProgram> {
        let filter = Named {
            policy: &self.text,
            architecture: self.arch.audit_arch(),
            name: name.as_bytes(),
        };
        let mut array = filled(BLANK, BPF_MAX_LEN)?;
        let answer = sys::compile(filter, layout as u32, &mut array, &mut self.message);
        match usize::try_from(answer) {
            Ok(length) => Ok(library::program(&array[..length])?),
            Err(_) => Err(self.rejection(answer)),
        }
    }

    /// Returns the error of a code, of which the message is written.
    fn rejection(&self, code: i64) -> Error {
        // The message ends in a byte 0, and only zeros follow, which were there before.
        let end = self.message.iter().rposition(|byte| *byte != 0);
        let message = match library::text(&self.message[..end.map_or(0, |last| last + 1)]) {
            Ok(message) => message,
            Err(error) => return error.into(),
        };
        match (code, too_large(&message)) {
            (OUT_OF_MEMORY, _) => BackendError::OutOfMemory.into(),
            // A tree that is too large has no length in its message.
            (TOO_LARGE, length) => {
                BackendError::FilterTooLarge(length.unwrap_or(BPF_MAX_LEN + 1)).into()
            }
            _ => match NoJson::of(message) {
                Ok(error) => JsonFrontendError::Json(error).into(),
                Err(message) => JsonFrontendError::Policy(message).into(),
            },
        }
    }
}

/// Returns the length that the message of a filter that is too large names.
fn too_large(message: &str) -> Option<usize> {
    let (_, rest) = message.split_once("BPF instructions: ")?;
    rest.split_once('.')?.0.parse().ok()
}
