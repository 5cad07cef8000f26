//! Programs, and what can be asked of them.

use crate::backend::TargetArch;
use crate::library::{NOT_CHECKED, OUT_OF_MEMORY};
use crate::sys::{self, Record};
use std::error;
use std::fmt;

/// The most instructions of a program: what a kernel takes.
pub(crate) const BPF_MAX_LEN: usize = 4096;

/// An instruction that is written over.
pub(crate) const BLANK: sock_filter = sock_filter {
    code: 0,
    jt: 0,
    jf: 0,
    k: 0,
};

/// One instruction of classic BPF: `struct sock_filter` of `linux/filter.h`.
#[allow(non_camel_case_types)]
#[derive(Clone, Debug, PartialEq, Eq)]
#[repr(C)]
pub struct sock_filter {
    /// The operation.
    pub code: u16,
    /// How many instructions a tested jump skips if its test is true.
    pub jt: u8,
    /// How many instructions a tested jump skips if its test is false.
    pub jf: u8,
    /// The operand.
    pub k: u32,
}

/// A program: instructions of classic BPF, as the kernel takes them.
pub type BpfProgram = Vec<sock_filter>;

/// A borrowed program.
pub type BpfProgramRef<'a> = &'a [sock_filter];

/// How a program finds the rules for a call. The programs of both layouts return the same for each call.
///
/// An addition.
#[derive(Clone, Copy, Debug, PartialEq, Eq)]
pub enum Layout {
    /// It tests one call number after the other: the crate's layout, instruction by instruction.
    Linear = 0,
    /// It searches for the call number in a tree of tests.
    Tree = 1,
}

/// Why a program wasn't run or compared.
///
/// An addition.
#[derive(Clone, Copy, Debug, PartialEq, Eq)]
pub enum ProgramError {
    /// The program doesn't pass [`check`].
    NotChecked,
    /// Memory ran out.
    OutOfMemory,
}

impl error::Error for ProgramError {}

impl fmt::Display for ProgramError {
    fn fmt(&self, f: &mut fmt::Formatter<'_>) -> fmt::Result {
        f.write_str(match self {
            ProgramError::NotChecked => "The program doesn't pass the check.",
            ProgramError::OutOfMemory => "Out of memory.",
        })
    }
}

/// Says whether a program may be run.
///
/// It may if it has 1 to 4096 instructions of the seven kinds that compiled programs consist of, and the last one
/// returns. Each load takes 4 aligned bytes of a call record, and each jump leads to a place of the program.
///
/// An addition.
///
/// # Examples
///
/// ```
/// use seccompiler::{check, sock_filter};
///
/// let allow = sock_filter { code: 0x06, jt: 0, jf: 0, k: 0x7fff_0000 };
/// assert!(check(&[allow]));
/// assert!(!check(&[]));
/// ```
#[must_use]
pub fn check(program: BpfProgramRef<'_>) -> bool {
    sys::check(program) == 1
}

/// Runs a program on a call record, and returns what it returns: `SECCOMP_RET_*` with its data.
///
/// A call record is the 64 bytes of a `struct seccomp_data` of `linux/seccomp.h`, little-endian.
///
/// An addition.
///
/// # Errors
///
/// `NotChecked` if the program doesn't pass [`check`].
///
/// # Examples
///
/// ```
/// use seccompiler::{run, sock_filter};
///
/// let allow = sock_filter { code: 0x06, jt: 0, jf: 0, k: 0x7fff_0000 };
/// assert_eq!(run(&[allow], &[0; 64]), Ok(0x7fff_0000));
/// ```
pub fn run(program: BpfProgramRef<'_>, record: &[u8; 64]) -> Result<u32, ProgramError> {
    let answer = sys::run(program, &Record(*record));
    u32::try_from(answer).map_err(|_| fault(answer))
}

/// A set of calls that two programs are compared on. Their instruction pointers and arguments are any.
///
/// An addition.
#[derive(Clone, Copy, Debug, PartialEq, Eq)]
pub struct Calls {
    architecture: u32,
    least: u32,
    greatest: u32,
}

impl Calls {
    /// Returns the set of all calls, of whatever architecture.
    #[must_use]
    pub fn all() -> Self {
        Calls {
            architecture: 0,
            least: 0,
            greatest: u32::MAX,
        }
    }

    /// Returns the set of all calls of an architecture, including numbers that no call has.
    #[must_use]
    pub fn of_arch(arch: TargetArch) -> Self {
        Calls::of_numbers(arch, 0, u32::MAX)
    }

    /// Returns the set of the calls of one number of an architecture.
    #[must_use]
    pub fn of_number(arch: TargetArch, number: u32) -> Self {
        Calls::of_numbers(arch, number, number)
    }

    /// Returns the set of the calls of the numbers from `least` to `greatest` of an architecture, both included. It is
    /// empty if `greatest` is less.
    #[must_use]
    pub fn of_numbers(arch: TargetArch, least: u32, greatest: u32) -> Self {
        Calls {
            architecture: arch.audit_arch(),
            least,
            greatest,
        }
    }
}

/// What two programs are compared for: a relation of the values that they return for a call.
///
/// An addition.
#[derive(Clone, Copy, Debug, PartialEq, Eq)]
pub enum Relation {
    /// Both are the same.
    Alike = 0,
    /// The first one's action permits as much as the second one's, or less. Their data don't count.
    ///
    /// From the least: killing the process, killing the thread, trap, errno, user notification, trace, log,
    /// allow, as `seccomp(2)` ranks them.
    AtMostAsPermissive = 1,
}

/// What a comparison says.
///
/// An addition.
#[derive(Clone, Copy, Debug, PartialEq, Eq)]
pub enum Comparison {
    /// The relation holds for each call of the set.
    Holds,
    /// It doesn't hold for the call of this record, which is in the set.
    Fails([u8; 64]),
    /// The comparison looked at as many sets of calls as it may, and found neither answer.
    Undecided,
}

/// Compares what two programs, of whichever compilers, return for each call of a set.
///
/// It splits the calls into sets of which it knows what the programs return, and looks at `most` such sets at most.
/// Most pairs of programs take some sets for each test.
///
/// An addition.
///
/// # Errors
///
/// `NotChecked` if one of the programs doesn't pass [`check`], `OutOfMemory` if memory runs out.
///
/// # Examples
///
/// ```
/// use seccompiler::{compare, sock_filter, Calls, Comparison, ProgramError, Relation};
///
/// let returning = |k| [sock_filter { code: 0x06, jt: 0, jf: 0, k }];
/// let (log, allow) = (returning(0x7ffc_0000), returning(0x7fff_0000));
/// let permits = |p, q| compare(p, q, &Calls::all(), Relation::AtMostAsPermissive, 1000);
/// assert_eq!(permits(&log, &allow)?, Comparison::Holds);
/// assert!(matches!(permits(&allow, &log)?, Comparison::Fails(_)));
/// # Ok::<(), ProgramError>(())
/// ```
pub fn compare(
    program: BpfProgramRef<'_>,
    other: BpfProgramRef<'_>,
    calls: &Calls,
    relation: Relation,
    most: usize,
) -> Result<Comparison, ProgramError> {
    const UNDECIDED: i64 = -20;
    let mut difference = Record([0; 64]);
    let among = (calls.architecture, calls.least, calls.greatest);
    match sys::compare(
        program,
        other,
        relation as u32,
        among,
        most,
        &mut difference,
    ) {
        1 => Ok(Comparison::Holds),
        0 => Ok(Comparison::Fails(difference.0)),
        UNDECIDED => Ok(Comparison::Undecided),
        code => Err(fault(code)),
    }
}

/// Returns the error that a code stands for.
fn fault(code: i64) -> ProgramError {
    match code {
        NOT_CHECKED => ProgramError::NotChecked,
        OUT_OF_MEMORY => ProgramError::OutOfMemory,
        _ => unreachable!("the library returned {code}, which its header doesn't list here"),
    }
}
