//! Names, types, traits and texts of what the crate has too.

use seccompiler::{
    apply_filter, apply_filter_all_threads, sock_filter, BackendError, BpfMap, BpfProgram,
    BpfProgramRef, Error, SeccompAction, SeccompCmpArgLen, SeccompCmpOp, SeccompCondition,
    SeccompFilter, SeccompRule, TargetArch,
};
use std::collections::{BTreeMap, HashMap};
use std::error;
use std::fmt::{Debug, Display};
use std::io;
use std::os::raw::{c_long, c_uchar, c_uint, c_ushort};

/// The types and the calls, as a caller may write them out.
const _: fn(u8, SeccompCmpArgLen, SeccompCmpOp, u64) -> Result<SeccompCondition, BackendError> =
    SeccompCondition::new;
const _: fn(Vec<SeccompCondition>) -> Result<SeccompRule, BackendError> = SeccompRule::new;
type Rules = BTreeMap<i64, Vec<SeccompRule>>;
type Filter = Result<SeccompFilter, BackendError>;
const _: fn(Rules, SeccompAction, SeccompAction, TargetArch) -> Filter = SeccompFilter::new;
const _: fn(SeccompFilter) -> Result<BpfProgram, BackendError> = BpfProgram::try_from;
const _: fn(SeccompRule) -> BpfProgram = BpfProgram::from;
const _: fn(SeccompAction) -> u32 = u32::from;
const _: fn(&'static str) -> Result<TargetArch, BackendError> = TargetArch::try_from;
const _: fn(BpfProgramRef) -> Result<(), Error> = apply_filter;
const _: fn(BpfProgramRef) -> seccompiler::Result<()> = apply_filter_all_threads;
const _: fn(BackendError) -> Error = Error::from;
const _: fn(io::Error) -> Error = Error::Prctl;
const _: fn(io::Error) -> Error = Error::Seccomp;
const _: fn(c_long) -> Error = Error::ThreadSync;
const _: fn(HashMap<String, Vec<sock_filter>>) -> BpfMap = |map| map;

/// What values can do.
fn is_value<T: Clone + Debug + PartialEq + Eq + Send + Sync + 'static>() {}

/// What errors can do.
fn is_error<T: error::Error + Display + Send + Sync + 'static>() {}

/// What can be copied.
fn is_copied<T: Copy>() {}

#[test]
fn types_have_the_traits_of_the_crate() {
    is_value::<SeccompCondition>();
    is_value::<SeccompRule>();
    is_value::<SeccompFilter>();
    is_value::<SeccompAction>();
    is_value::<SeccompCmpOp>();
    is_value::<SeccompCmpArgLen>();
    is_value::<TargetArch>();
    is_value::<sock_filter>();
    is_copied::<TargetArch>();
    is_error::<BackendError>();
    is_error::<Error>();
    assert_eq!(
        BackendError::FilterTooLarge(1),
        BackendError::FilterTooLarge(1)
    );
}

#[test]
fn an_instruction_is_laid_out_as_the_kernel_reads_it() {
    let instruction = sock_filter {
        code: c_ushort::MAX,
        jt: c_uchar::MAX,
        jf: 1,
        k: c_uint::MAX,
    };
    let start: *const sock_filter = &instruction;
    let place = |field: *const u8| field as usize - start as usize;
    assert_eq!(std::mem::size_of::<sock_filter>(), 8);
    assert_eq!(place(std::ptr::addr_of!(instruction.code).cast()), 0);
    assert_eq!(place(std::ptr::addr_of!(instruction.jt)), 2);
    assert_eq!(place(std::ptr::addr_of!(instruction.jf)), 3);
    assert_eq!(place(std::ptr::addr_of!(instruction.k).cast()), 4);
}

#[test]
fn architectures_are_read_in_any_letter_case() {
    let read = [
        ("x86_64", TargetArch::x86_64),
        ("X86_64", TargetArch::x86_64),
        ("aARch64", TargetArch::aarch64),
        ("RiScV64", TargetArch::riscv64),
    ];
    for (name, arch) in read {
        assert_eq!(TargetArch::try_from(name), Ok(arch), "{name}");
    }
    for name in ["", "x8664", "x86_64 ", "amd64", "İ"] {
        let error = BackendError::InvalidTargetArch(name.to_string());
        assert_eq!(TargetArch::try_from(name), Err(error), "{name}");
    }
    let here: TargetArch = std::env::consts::ARCH.try_into().expect("it runs here");
    assert_eq!(here, TargetArch::x86_64);
}

/// `SECCOMP_RET_*` of `linux/seccomp.h`, with the low 16 bits of data.
#[test]
fn actions_are_the_values_of_the_kernel() {
    let values = [
        (SeccompAction::Allow, 0x7fff_0000),
        (SeccompAction::Errno(0), 0x0005_0000),
        (SeccompAction::Errno(0x1_0001), 0x0005_0001),
        (SeccompAction::KillThread, 0),
        (SeccompAction::KillProcess, 0x8000_0000),
        (SeccompAction::Log, 0x7ffc_0000),
        (SeccompAction::Trace(0xffff_ffff), 0x7ff0_ffff),
        (SeccompAction::Trap, 0x0003_0000),
    ];
    for (action, value) in values {
        assert_eq!(u32::from(action.clone()), value, "{action:?}");
    }
}

#[test]
fn errors_have_their_texts() {
    let texts = [
        (
            BackendError::EmptyRule,
            "The condition vector of a rule cannot be empty.",
        ),
        (
            BackendError::FilterTooLarge(4097),
            "The seccomp filter contains too many BPF instructions: 4097. Max length is 4096.",
        ),
        (
            BackendError::IdenticalActions,
            "`match_action` and `mismatch_action` are equal.",
        ),
        (
            BackendError::InvalidArgumentNumber,
            "The seccomp rule contains an invalid argument index. Maximum index value: 5",
        ),
        (
            BackendError::InvalidTargetArch("x86".to_string()),
            "Invalid target arch: x86.",
        ),
        (
            BackendError::InvalidSyscallNumber(-1),
            "Invalid syscall number: -1.",
        ),
        (BackendError::OutOfMemory, "Out of memory."),
    ];
    for (error, text) in texts {
        assert_eq!(error.to_string(), text);
        assert!(error::Error::source(&error).is_none(), "{text}");
        let outer = Error::from(error);
        assert_eq!(outer.to_string(), format!("Backend error: {text}"));
        let source = error::Error::source(&outer).expect("it is of the backend");
        assert_eq!(source.to_string(), text);
    }
}

#[test]
fn errors_of_installing_tell_what_the_kernel_answered() {
    let answer = || io::Error::from_raw_os_error(22);
    let texts = [
        (
            Error::EmptyFilter,
            "Cannot install empty filter.".to_string(),
            false,
        ),
        (
            Error::Prctl(answer()),
            format!("Error calling `prctl`: {}", answer()),
            true,
        ),
        (
            Error::Seccomp(answer()),
            format!("Error calling `seccomp`: {}", answer()),
            true,
        ),
        (
            Error::ThreadSync(4711),
            "Seccomp filter synchronization failed in thread `4711`".to_string(),
            false,
        ),
    ];
    for (error, text, has_source) in texts {
        assert_eq!(error.to_string(), text);
        assert_eq!(error::Error::source(&error).is_some(), has_source, "{text}");
    }
}

#[test]
fn an_error_goes_through_question_marks() {
    fn fails() -> Result<(), Box<dyn error::Error + Send + Sync>> {
        let arch = TargetArch::try_from("x86_64")?;
        SeccompFilter::new(
            BTreeMap::new(),
            SeccompAction::Log,
            SeccompAction::Log,
            arch,
        )?;
        Ok(())
    }
    let error = fails().expect_err("the actions are the same");
    assert_eq!(error.downcast_ref(), Some(&BackendError::IdenticalActions));
}
