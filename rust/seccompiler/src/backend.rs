//! Architectures, operators, lengths and actions of filters, and the errors.

use crate::library;
use std::error;
use std::fmt;

/// Why a condition, a rule, a filter or an architecture is rejected, or has no program.
#[derive(Debug, PartialEq, Eq)]
pub enum BackendError {
    /// A rule has no conditions.
    EmptyRule,
    /// The filter's program would have this many instructions, which is more than 4096.
    FilterTooLarge(usize),
    /// The two actions of a filter are the same.
    IdenticalActions,
    /// The index of a condition's argument is above 5.
    InvalidArgumentNumber,
    /// The text names no architecture that filters are compiled for.
    InvalidTargetArch(String),
    /// A number under which a filter has rules is below 0 or above 4294967295: the least such number.
    ///
    /// An addition: the crate panics.
    InvalidSyscallNumber(i64),
    /// Memory for the answer ran out.
    ///
    /// An addition: the crate aborts the process.
    OutOfMemory,
}

impl error::Error for BackendError {}

impl fmt::Display for BackendError {
    fn fmt(&self, f: &mut fmt::Formatter<'_>) -> fmt::Result {
        match self {
            BackendError::EmptyRule => {
                f.write_str("The condition vector of a rule cannot be empty.")
            }
            BackendError::FilterTooLarge(length) => write!(
                f,
                "The seccomp filter contains too many BPF instructions: {length}. Max length is 4096."
            ),
            BackendError::IdenticalActions => {
                f.write_str("`match_action` and `mismatch_action` are equal.")
            }
            BackendError::InvalidArgumentNumber => f.write_str(
                "The seccomp rule contains an invalid argument index. Maximum index value: 5",
            ),
            BackendError::InvalidTargetArch(name) => write!(f, "Invalid target arch: {name}."),
            BackendError::InvalidSyscallNumber(number) => {
                write!(f, "Invalid syscall number: {number}.")
            }
            BackendError::OutOfMemory => f.write_str("Out of memory."),
        }
    }
}

/// The architecture that a filter is compiled for.
///
/// A filter's program kills the process at a call of another architecture.
///
/// # Examples
///
/// ```
/// use seccompiler::TargetArch;
///
/// let arch: TargetArch = "AArch64".try_into().unwrap();
/// assert_eq!(arch, TargetArch::aarch64);
/// assert!(TargetArch::try_from("x86").is_err());
/// ```
#[allow(non_camel_case_types)]
#[derive(Clone, Copy, Debug, PartialEq, Eq)]
pub enum TargetArch {
    /// 64-bit x86, `AUDIT_ARCH_X86_64`.
    x86_64,
    /// 64-bit Arm, `AUDIT_ARCH_AARCH64`.
    aarch64,
    /// 64-bit RISC-V, `AUDIT_ARCH_RISCV64`.
    riscv64,
}

impl TargetArch {
    /// Returns the value of `struct seccomp_data`'s `arch`, as `linux/audit.h` has it.
    pub(crate) const fn audit_arch(self) -> u32 {
        match self {
            TargetArch::x86_64 => 0xc000_003e,
            TargetArch::aarch64 => 0xc000_00b7,
            TargetArch::riscv64 => 0xc000_00f3,
        }
    }
}

impl TryFrom<&str> for TargetArch {
    type Error = BackendError;

    /// Reads the name of an architecture, as `std::env::consts::ARCH` has it, in whichever letter case.
    ///
    /// # Errors
    ///
    /// `InvalidTargetArch` with the text, if it is none of the three names.
    fn try_from(name: &str) -> Result<Self, BackendError> {
        let all = [
            ("x86_64", TargetArch::x86_64),
            ("aarch64", TargetArch::aarch64),
            ("riscv64", TargetArch::riscv64),
        ];
        for (known, arch) in all {
            if name.eq_ignore_ascii_case(known) {
                return Ok(arch);
            }
        }
        let name = library::text(name.as_bytes())?;
        Err(BackendError::InvalidTargetArch(name))
    }
}

/// How a condition compares an argument with its value. Both are unsigned.
#[cfg_attr(
    feature = "serde",
    derive(serde::Deserialize),
    serde(rename_all = "snake_case")
)]
#[derive(Clone, Debug, PartialEq, Eq)]
pub enum SeccompCmpOp {
    /// The argument equals the value.
    Eq,
    /// The argument is at least the value.
    Ge,
    /// The argument is greater than the value.
    Gt,
    /// The argument is at most the value.
    Le,
    /// The argument is less than the value.
    Lt,
    /// The argument has the bits of this mask as the value has them.
    MaskedEq(u64),
    /// The argument differs from the value.
    Ne,
}

/// How many bytes of an argument count, and of the value and the mask with it.
#[cfg_attr(
    feature = "serde",
    derive(serde::Deserialize),
    serde(rename_all = "lowercase")
)]
#[derive(Clone, Debug, PartialEq, Eq)]
pub enum SeccompCmpArgLen {
    /// The low 4 bytes.
    Dword,
    /// All 8 bytes.
    Qword,
}

/// What the kernel does with a call: the action of a filter, as `seccomp(2)` describes it.
///
/// # Examples
///
/// ```
/// use seccompiler::SeccompAction;
///
/// // SECCOMP_RET_ERRNO with EPERM.
/// assert_eq!(u32::from(SeccompAction::Errno(1)), 0x0005_0001);
/// ```
#[cfg_attr(
    feature = "serde",
    derive(serde::Deserialize),
    serde(rename_all = "snake_case")
)]
#[derive(Clone, Debug, PartialEq, Eq)]
pub enum SeccompAction {
    /// The call is made.
    Allow,
    /// The call isn't made, and returns this errno, of which programs carry the low 16 bits.
    Errno(u32),
    /// The calling thread is killed.
    KillThread,
    /// The process is killed.
    KillProcess,
    /// The call is made, and logged.
    Log,
    /// The tracer is notified, with this message, of which programs carry the low 16 bits.
    Trace(u32),
    /// The thread is sent `SIGSYS`.
    Trap,
}

impl SeccompAction {
    /// Returns the action's kind, as `linux/seccomp.h` has it, and its data, or 0 if it has none.
    pub(crate) fn kind_and_data(&self) -> (u32, u32) {
        match *self {
            SeccompAction::Allow => (0x7fff_0000, 0),
            SeccompAction::Errno(number) => (0x0005_0000, number),
            SeccompAction::KillThread => (0x0000_0000, 0),
            SeccompAction::KillProcess => (0x8000_0000, 0),
            SeccompAction::Log => (0x7ffc_0000, 0),
            SeccompAction::Trace(message) => (0x7ff0_0000, message),
            SeccompAction::Trap => (0x0003_0000, 0),
        }
    }
}

impl From<SeccompAction> for u32 {
    /// Returns the value that a program returns for the action: `SECCOMP_RET_*` with its data.
    fn from(action: SeccompAction) -> u32 {
        let (kind, data) = action.kind_and_data();
        kind | (data & 0xffff)
    }
}
