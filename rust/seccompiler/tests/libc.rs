//! What the crate `libc` says of the kernel's interface is what is said here.

use seccompiler::{sock_filter, BpfProgram, Error, SeccompAction, SeccompFilter, TargetArch};
use std::mem;

const _: fn(libc::c_long) -> Error = Error::ThreadSync;

#[test]
fn actions_are_the_values_of_the_kernel() {
    let data = libc::SECCOMP_RET_DATA;
    let values = [
        (SeccompAction::Allow, libc::SECCOMP_RET_ALLOW),
        (SeccompAction::Errno(5), libc::SECCOMP_RET_ERRNO | 5),
        (SeccompAction::KillThread, libc::SECCOMP_RET_KILL_THREAD),
        (SeccompAction::KillProcess, libc::SECCOMP_RET_KILL_PROCESS),
        (SeccompAction::Log, libc::SECCOMP_RET_LOG),
        (
            SeccompAction::Trace(u32::MAX),
            libc::SECCOMP_RET_TRACE | data,
        ),
        (SeccompAction::Trap, libc::SECCOMP_RET_TRAP),
    ];
    for (action, value) in values {
        assert_eq!(u32::from(action.clone()), value, "{action:?}");
    }
}

#[test]
fn an_instruction_is_that_of_the_kernel() {
    let size = mem::size_of::<libc::sock_filter>();
    assert_eq!(mem::size_of::<sock_filter>(), size);
    let align = mem::align_of::<libc::sock_filter>();
    assert_eq!(mem::align_of::<sock_filter>(), align);
}

#[test]
fn numbers_of_calls_are_those_of_the_filter() {
    let filter = SeccompFilter::new(
        [(libc::SYS_accept4, vec![]), (libc::SYS_fcntl, vec![])].into(),
        SeccompAction::Allow,
        SeccompAction::Errno(libc::EPERM as u32),
        TargetArch::x86_64,
    );
    let program: BpfProgram = filter.expect("a filter").try_into().expect("a program");
    let tested = [&program[4], &program[9]].map(|instruction| i64::from(instruction.k));
    assert_eq!(tested, [libc::SYS_fcntl, libc::SYS_accept4]);
}
