//! The functions of `include/seccompiler.h`, and the two system calls that install a program.
//!
//! All `unsafe` code of this crate is here. The functions of the library require only what the header says of arguments.
//! A pointer isn't null, is aligned for its type, and points to as many initialized elements as are passed with it; and
//! nothing else reads or writes what a function writes during the call. So each call below passes references and slices,
//! which are borrowed for the call. No tool checks that the declarations are those of the header: compare them.

use crate::program::sock_filter;
use std::io;
#[cfg(feature = "json")]
use std::os::raw::c_char;
use std::os::raw::{c_int, c_long, c_ulong};

/// `struct seccompiler_chain`: the rules for one call.
#[derive(Clone, Copy)]
#[repr(C)]
pub(crate) struct Chain {
    /// The call's number.
    pub number: i64,
    /// How many rules this chain has: they come after those of the chains before.
    pub rules: usize,
}

/// `struct seccompiler_rule`: a rule, whose conditions come after those of the rules before.
#[derive(Clone, Copy)]
#[repr(C)]
pub(crate) struct Rule {
    /// How many conditions it has.
    pub conditions: usize,
}

/// `struct seccompiler_condition`: a condition on an argument.
#[derive(Clone, Copy)]
#[repr(C)]
pub(crate) struct Condition {
    /// What the argument is compared with.
    pub value: u64,
    /// The mask of `SECCOMPILER_MASKED_EQ`.
    pub mask: u64,
    /// The argument's index.
    pub argument: u8,
    /// How many bytes of it count: 4 or 8.
    pub length: u8,
    /// The operator: `SECCOMPILER_EQ`, which is 0, to `SECCOMPILER_MASKED_EQ`, which is 6.
    pub op: u8,
}

/// `struct seccomp_data`, as its bytes.
#[derive(Clone, Copy)]
#[repr(C, align(8))]
pub(crate) struct Record(pub [u8; 64]);

/// A filter as the library takes it, without JSON.
#[derive(Clone, Copy)]
pub(crate) struct Arrays<'a> {
    /// The chains, by ascending numbers.
    pub chains: &'a [Chain],
    /// The rules of all chains.
    pub rules: &'a [Rule],
    /// The conditions of all rules.
    pub conditions: &'a [Condition],
    /// The kind and the data of the action for calls that no chain matches.
    pub mismatch: (u32, u32),
    /// Those of the action for calls that a chain matches.
    pub matched: (u32, u32),
    /// The `AUDIT_ARCH_*` value.
    pub architecture: u32,
}

/// A filter of a policy as JSON text.
#[cfg(feature = "json")]
#[derive(Clone, Copy)]
pub(crate) struct Named<'a> {
    /// The text.
    pub policy: &'a [u8],
    /// The `AUDIT_ARCH_*` value.
    pub architecture: u32,
    /// The filter's name.
    pub name: &'a [u8],
}

extern "C" {
    #[cfg(feature = "json")]
    fn seccompiler_compile(
        policy: *const c_char,
        policy_length: usize,
        architecture: u32,
        name: *const c_char,
        name_length: usize,
        layout: u32,
        program: *mut sock_filter,
        capacity: usize,
        message: *mut c_char,
        message_capacity: usize,
    ) -> i64;

    #[cfg(feature = "json")]
    fn seccompiler_filter_names(
        policy: *const c_char,
        policy_length: usize,
        index: usize,
        name: *mut c_char,
        name_capacity: usize,
        message: *mut c_char,
        message_capacity: usize,
    ) -> i64;

    fn seccompiler_compile_rules(
        chains: *const Chain,
        chain_count: usize,
        rules: *const Rule,
        rule_count: usize,
        conditions: *const Condition,
        condition_count: usize,
        mismatch_kind: u32,
        mismatch_data: u32,
        match_kind: u32,
        match_data: u32,
        architecture: u32,
        layout: u32,
        program: *mut sock_filter,
        capacity: usize,
    ) -> i64;

    fn seccompiler_rules_length(
        chains: *const Chain,
        chain_count: usize,
        rules: *const Rule,
        rule_count: usize,
        conditions: *const Condition,
        condition_count: usize,
        mismatch_kind: u32,
        mismatch_data: u32,
        match_kind: u32,
        match_data: u32,
        architecture: u32,
        layout: u32,
    ) -> i64;

    fn seccompiler_compile_rule(
        conditions: *const Condition,
        condition_count: usize,
        code: *mut sock_filter,
        capacity: usize,
    ) -> i64;

    fn seccompiler_decide_rules(
        chains: *const Chain,
        chain_count: usize,
        rules: *const Rule,
        rule_count: usize,
        conditions: *const Condition,
        condition_count: usize,
        mismatch_kind: u32,
        mismatch_data: u32,
        match_kind: u32,
        match_data: u32,
        architecture: u32,
        record: *const Record,
    ) -> i64;

    fn seccompiler_check(program: *const sock_filter, count: usize) -> i32;

    fn seccompiler_run(program: *const sock_filter, count: usize, record: *const Record) -> i64;

    fn seccompiler_compare(
        program: *const sock_filter,
        count: usize,
        other: *const sock_filter,
        other_count: usize,
        relation: u32,
        architecture: u32,
        least: u32,
        greatest: u32,
        most: usize,
        difference: *mut Record,
    ) -> i64;

    fn prctl(option: c_int, ...) -> c_int;

    fn syscall(number: c_long, ...) -> c_long;
}

/// `seccompiler_compile`, which writes into the two buffers.
#[cfg(feature = "json")]
pub(crate) fn compile(
    filter: Named<'_>,
    layout: u32,
    program: &mut [sock_filter],
    message: &mut [u8],
) -> i64 {
    // SAFETY: the pointers and lengths are those of slices that are borrowed for the call.
    unsafe {
        seccompiler_compile(
            filter.policy.as_ptr().cast(),
            filter.policy.len(),
            filter.architecture,
            filter.name.as_ptr().cast(),
            filter.name.len(),
            layout,
            program.as_mut_ptr(),
            program.len(),
            message.as_mut_ptr().cast(),
            message.len(),
        )
    }
}

/// `seccompiler_filter_names`, which writes into the two buffers.
#[cfg(feature = "json")]
pub(crate) fn filter_name(policy: &[u8], index: usize, name: &mut [u8], message: &mut [u8]) -> i64 {
    // SAFETY: the pointers and lengths are those of slices that are borrowed for the call.
    unsafe {
        seccompiler_filter_names(
            policy.as_ptr().cast(),
            policy.len(),
            index,
            name.as_mut_ptr().cast(),
            name.len(),
            message.as_mut_ptr().cast(),
            message.len(),
        )
    }
}

/// `seccompiler_compile_rules`, which writes into the buffer.
pub(crate) fn compile_rules(filter: Arrays<'_>, layout: u32, program: &mut [sock_filter]) -> i64 {
    // SAFETY: the pointers and lengths are those of slices that are borrowed for the call.
    unsafe {
        seccompiler_compile_rules(
            filter.chains.as_ptr(),
            filter.chains.len(),
            filter.rules.as_ptr(),
            filter.rules.len(),
            filter.conditions.as_ptr(),
            filter.conditions.len(),
            filter.mismatch.0,
            filter.mismatch.1,
            filter.matched.0,
            filter.matched.1,
            filter.architecture,
            layout,
            program.as_mut_ptr(),
            program.len(),
        )
    }
}

/// `seccompiler_rules_length`.
pub(crate) fn rules_length(filter: Arrays<'_>, layout: u32) -> i64 {
    // SAFETY: the pointers and lengths are those of slices that are borrowed for the call.
    unsafe {
        seccompiler_rules_length(
            filter.chains.as_ptr(),
            filter.chains.len(),
            filter.rules.as_ptr(),
            filter.rules.len(),
            filter.conditions.as_ptr(),
            filter.conditions.len(),
            filter.mismatch.0,
            filter.mismatch.1,
            filter.matched.0,
            filter.matched.1,
            filter.architecture,
            layout,
        )
    }
}

/// `seccompiler_compile_rule`, which writes into the buffer.
pub(crate) fn compile_rule(conditions: &[Condition], code: &mut [sock_filter]) -> i64 {
    // SAFETY: the pointers and lengths are those of slices that are borrowed for the call.
    unsafe {
        seccompiler_compile_rule(
            conditions.as_ptr(),
            conditions.len(),
            code.as_mut_ptr(),
            code.len(),
        )
    }
}

/// `seccompiler_decide_rules`.
pub(crate) fn decide_rules(filter: Arrays<'_>, record: &Record) -> i64 {
    // SAFETY: the pointers and lengths are those of slices that are borrowed for the call, and the record
    // has the size and the alignment of `struct seccomp_data`.
    unsafe {
        seccompiler_decide_rules(
            filter.chains.as_ptr(),
            filter.chains.len(),
            filter.rules.as_ptr(),
            filter.rules.len(),
            filter.conditions.as_ptr(),
            filter.conditions.len(),
            filter.mismatch.0,
            filter.mismatch.1,
            filter.matched.0,
            filter.matched.1,
            filter.architecture,
            record,
        )
    }
}

/// `seccompiler_check`.
pub(crate) fn check(program: &[sock_filter]) -> i32 {
    // SAFETY: the pointer and the length are those of a slice that is borrowed for the call.
    unsafe { seccompiler_check(program.as_ptr(), program.len()) }
}

/// `seccompiler_run`.
pub(crate) fn run(program: &[sock_filter], record: &Record) -> i64 {
    // SAFETY: the pointer and the length are those of a slice that is borrowed for the call, and the record
    // has the size and the alignment of `struct seccomp_data`.
    unsafe { seccompiler_run(program.as_ptr(), program.len(), record) }
}

/// `seccompiler_compare`, which writes the record of a difference: `calls` are an `AUDIT_ARCH_*` value, or
/// `SECCOMPILER_ALL_CALLS`, which is 0, and the least and the greatest number.
pub(crate) fn compare(
    program: &[sock_filter],
    other: &[sock_filter],
    relation: u32,
    calls: (u32, u32, u32),
    most: usize,
    difference: &mut Record,
) -> i64 {
    // SAFETY: the pointers and lengths are those of slices that are borrowed for the call, and the record
    // has the size and the alignment of `struct seccomp_data`.
    unsafe {
        seccompiler_compare(
            program.as_ptr(),
            program.len(),
            other.as_ptr(),
            other.len(),
            relation,
            calls.0,
            calls.1,
            calls.2,
            most,
            difference,
        )
    }
}

/// `struct sock_fprog` of `linux/filter.h`.
#[repr(C)]
struct LentProgram {
    length: u16,
    instructions: *const sock_filter,
}

const PR_SET_NO_NEW_PRIVS: c_int = 38;
const SECCOMP_SET_MODE_FILTER: c_ulong = 1;
#[cfg(target_arch = "x86_64")]
const SYS_SECCOMP: c_long = 317;
#[cfg(not(target_arch = "x86_64"))]
const SYS_SECCOMP: c_long = 277;

/// Sets no_new_privs of the calling thread.
pub(crate) fn set_no_new_privs() -> io::Result<()> {
    let (on, off): (c_ulong, c_ulong) = (1, 0);
    // SAFETY: this `prctl` takes four numbers, and reads and writes no memory.
    match unsafe { prctl(PR_SET_NO_NEW_PRIVS, on, off, off, off) } {
        0 => Ok(()),
        _ => Err(io::Error::last_os_error()),
    }
}

/// Installs the program, of which `length` is the length, with these flags of `seccomp(2)`. Returns what the kernel
/// returns, if that isn't an error.
pub(crate) fn set_mode_filter(
    program: &[sock_filter],
    length: u16,
    flags: c_ulong,
) -> io::Result<c_long> {
    debug_assert_eq!(program.len(), usize::from(length));
    let lent = LentProgram {
        length,
        instructions: program.as_ptr(),
    };
    let lent: *const LentProgram = &lent;
    // SAFETY: the kernel reads `lent` and the instructions, which it names with their length, and keeps
    // neither.
    match unsafe { syscall(SYS_SECCOMP, SECCOMP_SET_MODE_FILTER, flags, lent) } {
        answer if answer < 0 => Err(io::Error::last_os_error()),
        answer => Ok(answer),
    }
}
