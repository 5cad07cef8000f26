//! `jail-rs`: runs a command under seccomp filters, as `examples/jail/jail.c` does, whose `--help` says how.
//!
//! The filters are installed in the order in which they are named, so each but the last has to allow `prctl` and
//! `seccomp`. If one answers `seccomp` with errno 0, the next one isn't installed, and nothing reports it. They also
//! hold for the last steps of this program: it makes `rt_sigprocmask`, `rt_sigaction` and `execve`, and if that fails,
//! `write` and `exit_group`.

#![deny(unsafe_code)]

#[allow(unsafe_code)]
mod calls;
mod failure;

use failure::{Failure, HELP, MOST_BYTES, USAGE};
use seccompiler::{
    apply_filter_with_flags, compile_from_json_in, sock_filter, BpfMap, BpfProgram, Layout,
};
use std::env::{self, consts::ARCH};
use std::ffi::{OsStr, OsString};
use std::fs::{self, File};
use std::io::{self, Read, Write};
use std::os::raw::c_ulong;
use std::os::unix::ffi::OsStrExt;
use std::os::unix::process::{CommandExt, ExitStatusExt};
use std::process::{Command, ExitCode, Stdio};
use std::str;

const SECCOMP_FILTER_FLAG_TSYNC: c_ulong = 1;
const SECCOMP_FILTER_FLAG_LOG: c_ulong = 2;

/// Names and programs.
type Programs = Vec<(OsString, BpfProgram)>;

/// What the options ask for: a layout, flags of `seccomp(2)`, and whether descriptors are closed.
struct Options {
    layout: Layout,
    flags: c_ulong,
    closes: bool,
}

/// Compiles all filters of a policy.
fn compiled(path: &OsStr, layout: Layout) -> Result<BpfMap, Failure> {
    let policy = fs::read(path).map_err(|error| Failure::File(path.into(), error))?;
    let arch = ARCH.try_into().map_err(seccompiler::Error::Backend);
    arch.and_then(|arch| compile_from_json_in(&policy[..], arch, layout))
        .map_err(|error| Failure::Filter(path.into(), error))
}

/// Returns the filters whose names stand between commas.
fn named(path: &OsStr, programs: &BpfMap, names: &OsStr) -> Result<Programs, Failure> {
    let one = |name: &[u8]| {
        let program = str::from_utf8(name).ok();
        let program = program.and_then(|name| programs.get(name));
        let name = OsStr::from_bytes(name).to_owned();
        match program {
            Some(program) => Ok((name, program.clone())),
            None => Err(Failure::NoFilter(path.into(), name)),
        }
    };
    let names = names.as_bytes().split(|byte| *byte == b',');
    names.map(one).collect()
}

/// Returns the only filter.
fn only(path: &OsStr, programs: BpfMap) -> Result<Programs, Failure> {
    let named = |program| ("the only filter".into(), program);
    let why = match programs.len() {
        1 => return Ok(programs.into_values().map(named).collect()),
        0 => "It has no filter.",
        _ => "It has several filters, so one has to be named.",
    };
    Err(Failure::NotOne(path.into(), why))
}

/// Reads what may be a program: no more than one byte past the longest.
fn read_program(from: impl Read) -> io::Result<Vec<u8>> {
    let mut bytes = Vec::new();
    from.take(MOST_BYTES as u64 + 1).read_to_end(&mut bytes)?;
    Ok(bytes)
}

/// Returns the program that these bytes of a path are: its instructions, 8 bytes each, as this machine has them.
fn program_of(path: &OsStr, bytes: &[u8]) -> Result<Programs, Failure> {
    let (instructions, rest) = (bytes.chunks_exact(8), bytes.len() % 8);
    if bytes.is_empty() || rest != 0 {
        return Err(Failure::Program(path.into(), bytes.len()));
    }
    let instruction = |it: &[u8]| sock_filter {
        code: u16::from_ne_bytes([it[0], it[1]]),
        jt: it[2],
        jf: it[3],
        k: u32::from_ne_bytes([it[4], it[5], it[6], it[7]]),
    };
    let program = instructions.map(instruction).collect();
    Ok(vec![("the program".into(), program)])
}

/// Returns what `seccomptool compile --oci` writes of a profile, with these options: the `seccomptool` beside this program,
/// or else that of PATH.
fn compiled_profile(options: &[OsString], path: &OsStr) -> Result<Vec<u8>, Failure> {
    let beside = env::current_exe().map(|it| it.with_file_name("seccomptool"));
    let tool = beside.ok().filter(|it| it.exists());
    let mut command = Command::new(tool.unwrap_or_else(|| "seccomptool".into()));
    // The path may begin as an option does.
    let command = command.args(["compile", "--oci", "-a", ARCH]).args(options);
    let command = command.arg("--").arg(path).stdout(Stdio::piped());
    // While SIGCHLD is ignored, as it may have been before, there is no exit status to wait for.
    let before = calls::handle_children(calls::SIG_DFL);
    let mut child = command.spawn().map_err(Failure::Tool)?;
    let bytes = child.stdout.take().map_or(Ok(Vec::new()), read_program);
    let status = child.wait().map_err(Failure::Tool)?;
    calls::handle_children(before);
    let bytes = bytes.map_err(Failure::Tool)?;
    match status.signal() {
        _ if bytes.len() > MOST_BYTES || status.success() => Ok(bytes),
        Some(signal) => Err(Failure::Killed(signal)),
        None => Err(Failure::Profile),
    }
}

/// Installs the programs for all threads, one after the other. Each also filters the calls that install the next.
fn install(path: &OsStr, programs: &Programs, flags: c_ulong) -> Result<(), Failure> {
    let mut hint = "";
    for (name, program) in programs {
        apply_filter_with_flags(program, flags | SECCOMP_FILTER_FLAG_TSYNC)
            .map_err(|error| Failure::Install(path.into(), name.clone(), error, hint))?;
        hint = "; each filter before it has to allow prctl and seccomp";
    }
    Ok(())
}

/// Takes the options in front; returns them, and what follows them.
fn options(mut words: &[OsString]) -> (Options, &[OsString]) {
    let (layout, flags, closes) = (Layout::Linear, 0, false);
    let mut options = Options {
        layout,
        flags,
        closes,
    };
    while let [word, rest @ ..] = words {
        match word.as_bytes() {
            b"--tree" => options.layout = Layout::Tree,
            b"--log" => options.flags = SECCOMP_FILTER_FLAG_LOG,
            b"--close-fds" => options.closes = true,
            _ => break,
        }
        words = rest;
    }
    (options, words)
}

/// Returns the command with its arguments: without `--` in front, and at least one.
fn command_of(words: &[OsString]) -> Result<&[OsString], Failure> {
    match words {
        [front, command @ ..] if front == "--" && !command.is_empty() => Ok(command),
        [] => Err(Failure::Words),
        [front] if front == "--" => Err(Failure::Words),
        _ => Ok(words),
    }
}

/// Returns a path and the command after it.
fn path_and_command(words: &[OsString]) -> Result<(&OsString, &[OsString]), Failure> {
    match words {
        [path, command @ ..] => Ok((path, command_of(command)?)),
        [] => Err(Failure::Words),
    }
}

/// What is to be run, and under what: a path, its programs, and the command.
type Jailed<'a> = (&'a OsStr, Programs, &'a [OsString]);

/// Takes filters of a policy.
fn of_policy(words: &[OsString], layout: Layout) -> Result<Jailed<'_>, Failure> {
    let words = match words {
        [front, rest @ ..] if front == "--" => rest,
        [front, ..] if front.as_bytes().starts_with(b"--") => return Err(Failure::Words),
        _ => words,
    };
    let (path, names, command) = match words {
        [path, names, command @ ..] => (path, names, command_of(command)?),
        _ => return Err(Failure::Words),
    };
    let programs = compiled(path, layout)?;
    let programs = match names == "--" {
        true => only(path, programs)?,
        false => named(path, &programs, names)?,
    };
    Ok((path, programs, command))
}

/// Takes the program of a file.
fn of_program(words: &[OsString]) -> Result<Jailed<'_>, Failure> {
    let (path, command) = path_and_command(words)?;
    let bytes = File::open(path).and_then(read_program);
    let bytes = bytes.map_err(|error| Failure::File(path.clone(), error))?;
    Ok((path, program_of(path, &bytes)?, command))
}

/// Takes the program of a profile.
fn of_profile(words: &[OsString]) -> Result<Jailed<'_>, Failure> {
    let is_option = |it: &OsString| it == "--cap" || it == "--kernel" || it == "--runtime";
    let mut count = 0;
    while words.get(count).map_or(false, is_option) {
        count += 2;
    }
    let (path, command) = path_and_command(words.get(count..).unwrap_or(&[]))?;
    let bytes = compiled_profile(&words[..count], path)?;
    Ok((path, program_of(path, &bytes)?, command))
}

/// Does what the arguments ask for. If it succeeds, the command has replaced this program.
fn jail(words: &[OsString]) -> Result<(), Failure> {
    let (options, words) = options(words);
    let (path, programs, command) = match words {
        [first, ..]
            if (first == "--program" || first == "--oci") && options.layout == Layout::Tree =>
        {
            return Err(Failure::Words)
        }
        [first, rest @ ..] if first == "--program" => of_program(rest)?,
        [first, rest @ ..] if first == "--oci" => of_profile(rest)?,
        _ => of_policy(words, options.layout)?,
    };
    if options.closes {
        calls::close_others().map_err(|error| Failure::File("--close-fds".into(), error))?;
    }
    install(path, &programs, options.flags)?;
    let error = Command::new(&command[0]).args(&command[1..]).exec();
    Err(Failure::Command(command[0].clone(), error))
}

/// Prints a text. If it can't be written, a line on standard error says why.
fn print(text: &str) -> ExitCode {
    let mut output = io::stdout();
    let written = output.write_all(text.as_bytes());
    match written.and_then(|()| output.flush()) {
        Ok(()) => ExitCode::SUCCESS,
        Err(error) => report(&Failure::File("standard output".into(), error)),
    }
}

/// Reports a failure. If it can't be written, only the exit status says that there is one.
fn report(failure: &Failure) -> ExitCode {
    let _ = io::stderr().write_all(failure.to_string().as_bytes());
    ExitCode::from(failure.status())
}

fn main() -> ExitCode {
    let words: Vec<OsString> = env::args_os().skip(1).collect();
    match &words[..] {
        [word] if word == "--help" => print(&format!("{USAGE}{HELP}")),
        [word] if word == "--version" => print(&format!("jail-rs {}\n", env!("CARGO_PKG_VERSION"))),
        _ => match jail(&words) {
            Ok(()) => ExitCode::SUCCESS,
            Err(failure) => report(&failure),
        },
    }
}
