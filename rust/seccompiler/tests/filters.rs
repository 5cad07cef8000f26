//! Filters that are made in code, their programs and their decisions.

use seccompiler::SeccompCmpArgLen::{Dword, Qword};
use seccompiler::SeccompCmpOp::{Eq, Ge, Gt, Le, Lt, MaskedEq, Ne};
use seccompiler::{
    check, run, sock_filter, BackendError, BpfProgram, Layout, SeccompAction, SeccompCmpArgLen,
    SeccompCmpOp, SeccompCondition, SeccompFilter, SeccompRule, TargetArch,
};
use std::collections::BTreeMap;

const ALLOW: u32 = 0x7fff_0000;
const TRAP: u32 = 0x0003_0000;
const KILL_PROCESS: u32 = 0x8000_0000;

/// A jump, as `JEQ 1,0,3`: the operand, and how many instructions are skipped.
fn jump(code: u16, k: u32, jt: u8, jf: u8) -> sock_filter {
    sock_filter { code, jt, jf, k }
}

/// An instruction without a test.
fn plain(code: u16, k: u32) -> sock_filter {
    jump(code, k, 0, 0)
}

/// Loads the 32 bits at this byte of the call record.
fn ld(k: u32) -> sock_filter {
    plain(0x20, k)
}

/// Skips so many instructions.
fn ja(k: u32) -> sock_filter {
    plain(0x05, k)
}

/// Skips by whether the accumulator equals the operand.
fn jeq(k: u32, jt: u8, jf: u8) -> sock_filter {
    jump(0x15, k, jt, jf)
}

/// Skips by whether the accumulator is greater than the operand.
fn jgt(k: u32, jt: u8, jf: u8) -> sock_filter {
    jump(0x25, k, jt, jf)
}

/// Skips by whether the accumulator is at least the operand.
fn jge(k: u32, jt: u8, jf: u8) -> sock_filter {
    jump(0x35, k, jt, jf)
}

/// Keeps the bits of the operand.
fn and(k: u32) -> sock_filter {
    plain(0x54, k)
}

/// Returns the operand.
fn ret(k: u32) -> sock_filter {
    plain(0x06, k)
}

fn condition(
    index: u8,
    length: &SeccompCmpArgLen,
    operator: &SeccompCmpOp,
    value: u64,
) -> SeccompCondition {
    SeccompCondition::new(index, length.clone(), operator.clone(), value).expect("an argument")
}

fn rule(conditions: Vec<SeccompCondition>) -> SeccompRule {
    SeccompRule::new(conditions).expect("conditions")
}

/// The filter of these rules for x86_64 that allows what they match, and traps.
fn filter(rules: impl IntoIterator<Item = (i64, Vec<SeccompRule>)>) -> SeccompFilter {
    let (trap, allow) = (SeccompAction::Trap, SeccompAction::Allow);
    let rules = rules.into_iter().collect();
    SeccompFilter::new(rules, trap, allow, TargetArch::x86_64).expect("actions that differ")
}

/// What stands in front of each program: the test of the architecture.
fn guarded(architecture: u32, code: impl IntoIterator<Item = sock_filter>) -> BpfProgram {
    let guard = [ld(4), jeq(architecture, 1, 0), ret(KILL_PROCESS)];
    guard.into_iter().chain(code).collect()
}

/// A call record of x86_64.
fn record(number: u32, arguments: [u64; 6]) -> [u8; 64] {
    let mut record = [0; 64];
    record[..4].copy_from_slice(&number.to_le_bytes());
    record[4..8].copy_from_slice(&0xc000_003e_u32.to_le_bytes());
    for (place, argument) in record[16..].chunks_mut(8).zip(arguments) {
        place.copy_from_slice(&argument.to_le_bytes());
    }
    record
}

#[test]
fn a_filter_without_rules_returns_the_mismatch_action() {
    let archs = [
        (TargetArch::x86_64, 0xc000_003e),
        (TargetArch::aarch64, 0xc000_00b7),
        (TargetArch::riscv64, 0xc000_00f3),
    ];
    for (arch, word) in archs {
        let (trap, allow) = (SeccompAction::Trap, SeccompAction::Allow);
        let filter = SeccompFilter::new(BTreeMap::new(), allow, trap, arch).expect("a filter");
        let program: BpfProgram = filter.try_into().expect("a program");
        assert_eq!(program, guarded(word, [ret(ALLOW)]), "{arch:?}");
    }
}

#[test]
fn chains_stand_in_ascending_order() {
    let rules = || {
        let pair = vec![condition(1, &Dword, &Eq, 2), condition(2, &Dword, &Eq, 1)];
        let one = vec![condition(1, &Dword, &Eq, 1)];
        [(288, vec![]), (72, vec![rule(pair), rule(one)])]
    };
    let program = filter(rules())
        .to_bpf_in(Layout::Linear)
        .expect("a program");
    let expected = guarded(
        0xc000_003e,
        [
            vec![ld(0), jeq(72, 0, 1), ja(1), ja(6)],
            vec![ld(32), jeq(1, 0, 3), ld(24), jeq(2, 0, 1), ret(ALLOW)],
            vec![ja(1), ja(4), ld(24), jeq(1, 0, 1), ret(ALLOW), ret(TRAP)],
            vec![
                jeq(288, 0, 1),
                ja(1),
                ja(2),
                ret(ALLOW),
                ret(TRAP),
                ret(TRAP),
            ],
        ]
        .concat(),
    );
    assert_eq!(program, expected);
    assert_eq!(BpfProgram::try_from(filter(rules())), Ok(expected));
}

/// The code of each operator: a rule of one condition, after its two jumps.
#[test]
fn each_operator_has_its_code() {
    let (v, w) = (0x1111_2222, 0x3333_4444);
    let value = u64::from(w) << 32 | u64::from(v);
    let (m, n) = (0x00ff_0000, 0x0000_ff00);
    let masked = MaskedEq(u64::from(n) << 32 | u64::from(m));
    let codes = [
        (Dword, Eq, vec![ld(40), jeq(v, 0, 1)]),
        (Dword, Ne, vec![ld(40), jeq(v, 1, 0)]),
        (Dword, Ge, vec![ld(40), jge(v, 0, 1)]),
        (Dword, Gt, vec![ld(40), jgt(v, 0, 1)]),
        (Dword, Le, vec![ld(40), jgt(v, 1, 0)]),
        (Dword, Lt, vec![ld(40), jge(v, 1, 0)]),
        (
            Dword,
            masked.clone(),
            vec![ld(40), and(m), jeq(v & m, 0, 1)],
        ),
        (Qword, Eq, vec![ld(44), jeq(w, 0, 3), ld(40), jeq(v, 0, 1)]),
        (Qword, Ne, vec![ld(44), jeq(w, 0, 2), ld(40), jeq(v, 1, 0)]),
        (
            Qword,
            Ge,
            vec![ld(44), jgt(w, 3, 0), jeq(w, 0, 3), ld(40), jge(v, 0, 1)],
        ),
        (
            Qword,
            Gt,
            vec![ld(44), jgt(w, 3, 0), jeq(w, 0, 3), ld(40), jgt(v, 0, 1)],
        ),
        (
            Qword,
            Le,
            vec![ld(44), jgt(w, 4, 0), jeq(w, 0, 2), ld(40), jgt(v, 1, 0)],
        ),
        (
            Qword,
            Lt,
            vec![ld(44), jgt(w, 4, 0), jeq(w, 0, 2), ld(40), jge(v, 1, 0)],
        ),
        (
            Qword,
            masked,
            vec![
                ld(44),
                and(n),
                jeq(w & n, 0, 4),
                ld(40),
                and(m),
                jeq(v & m, 0, 1),
            ],
        ),
    ];
    for (length, operator, code) in codes {
        let one = rule(vec![condition(3, &length, &operator, value)]);
        let entry = vec![ja(1), ja(u32::try_from(code.len()).expect("small") + 2)];
        let whole = [entry, code].concat();
        assert_eq!(
            BpfProgram::from(one.clone()),
            whole,
            "{length:?} {operator:?}"
        );
        let program = filter([(7, vec![one])])
            .to_bpf_in(Layout::Linear)
            .expect("a program");
        let around = [
            vec![ld(0), jeq(7, 0, 1)],
            whole,
            vec![ret(ALLOW), ret(TRAP), ret(TRAP)],
        ];
        assert_eq!(
            program,
            guarded(0xc000_003e, around.concat()),
            "{length:?} {operator:?}"
        );
    }
}

/// 42 conditions of 6 instructions each close a group of 252, and a relay of three jumps follows it.
#[test]
fn a_long_rule_has_relays() {
    let masked = condition(0, &Qword, &MaskedEq(0), 0);
    let mut conditions = vec![masked; 42];
    conditions.push(condition(0, &Qword, &Eq, 0));
    let front = [
        ja(1),
        ja(6),
        ld(20),
        jeq(0, 0, 3),
        ld(16),
        jeq(0, 0, 1),
        ja(2),
        ja(254),
        ja(254),
    ];
    let blocks = (0..42).flat_map(|block| {
        let offset = 247 - 6 * block;
        [
            ld(20),
            and(0),
            jeq(0, 0, offset + 3),
            ld(16),
            and(0),
            jeq(0, 0, offset),
        ]
    });
    let code: BpfProgram = front.into_iter().chain(blocks).collect();
    assert_eq!(code.len(), 261);
    assert_eq!(BpfProgram::from(rule(conditions)), code);
}

/// 5000 conditions of 2 instructions: 124 close a group of 248, so there are 40 relays.
#[test]
fn the_code_of_a_rule_may_be_longer_than_a_program() {
    let conditions = vec![condition(0, &Dword, &Eq, 0); 5000];
    let code = BpfProgram::from(rule(conditions.clone()));
    assert_eq!(code.len(), 2 + 2 * 5000 + 3 * 40);
    assert_eq!(code[..2], [ja(1), ja(2 * (5000 - 124 * 40) + 2)]);
    let error = filter([(0, vec![rule(conditions)])]).to_bpf_in(Layout::Linear);
    assert_eq!(error, Err(BackendError::FilterTooLarge(5 + 2 + 10122 + 1)));
}

#[test]
fn what_has_a_fault_is_rejected() {
    for index in [6, 7, 255] {
        let error = SeccompCondition::new(index, Dword, Eq, 60);
        assert_eq!(error, Err(BackendError::InvalidArgumentNumber), "{index}");
    }
    for index in 0..6 {
        assert!(SeccompCondition::new(index, Qword, MaskedEq(u64::MAX), u64::MAX).is_ok());
    }
    assert_eq!(SeccompRule::new(vec![]), Err(BackendError::EmptyRule));
    let actions = |mismatch: &SeccompAction, matched: &SeccompAction| {
        let (mismatch, matched) = (mismatch.clone(), matched.clone());
        SeccompFilter::new(BTreeMap::new(), mismatch, matched, TargetArch::riscv64)
    };
    let all = [
        SeccompAction::Allow,
        SeccompAction::Errno(1),
        SeccompAction::Errno(65537),
        SeccompAction::KillThread,
        SeccompAction::KillProcess,
        SeccompAction::Log,
        SeccompAction::Trace(1),
        SeccompAction::Trap,
    ];
    for (place, mismatch) in all.iter().enumerate() {
        for (other, matched) in all.iter().enumerate() {
            let made = actions(mismatch, matched);
            if place == other {
                assert_eq!(made, Err(BackendError::IdenticalActions), "{mismatch:?}");
            } else {
                assert!(made.is_ok(), "{mismatch:?} {matched:?}");
            }
        }
    }
}

/// Each chain without rules takes 5 instructions, and 5 are around them; a rule of one condition takes 5, or 6 under
/// a mask, and a chain of rules 2 more.
#[test]
fn a_program_has_at_most_4096_instructions() {
    let always = |count| filter((0..count).map(|number| (number, vec![])));
    let program = always(818).to_bpf_in(Layout::Linear).expect("a program");
    assert_eq!((program.len(), check(&program)), (4095, true));
    let error = always(819).to_bpf_in(Layout::Linear);
    assert_eq!(error, Err(BackendError::FilterTooLarge(4100)));

    let plain = rule(vec![condition(0, &Dword, &Eq, 1)]);
    let masked = rule(vec![condition(0, &Dword, &MaskedEq(1), 1)]);
    let mixed = |masks: usize, plains: usize| {
        filter([(
            5,
            [vec![masked.clone(); masks], vec![plain.clone(); plains]].concat(),
        )])
    };
    let program = BpfProgram::try_from(mixed(4, 813)).expect("a program");
    assert_eq!((program.len(), check(&program)), (4096, true));
    let error = BpfProgram::try_from(mixed(5, 812));
    assert_eq!(error, Err(BackendError::FilterTooLarge(4097)));
}

#[test]
fn a_number_of_a_call_has_32_bits() {
    for (numbers, least) in [
        (vec![-1], -1),
        (vec![0, 1 << 32], 1 << 32),
        (vec![i64::MIN, -1, 5, i64::MAX], i64::MIN),
    ] {
        let bad = filter(numbers.into_iter().map(|number| (number, vec![])));
        let error = BackendError::InvalidSyscallNumber(least);
        assert_eq!(bad.decide(&record(0, [0; 6])), Err(error));
        for layout in [Layout::Linear, Layout::Tree] {
            let error = BackendError::InvalidSyscallNumber(least);
            assert_eq!(bad.to_bpf_in(layout), Err(error), "{layout:?}");
        }
    }
    let greatest = filter([(i64::from(u32::MAX), vec![])]);
    let program = greatest.to_bpf_in(Layout::Linear).expect("a program");
    assert_eq!(run(&program, &record(u32::MAX, [0; 6])), Ok(ALLOW));
    assert_eq!(run(&program, &record(u32::MAX - 1, [0; 6])), Ok(TRAP));
}

/// What holds of an argument 0x1_0000_0005, of which `Dword` looks at 5.
#[test]
fn programs_decide_as_the_filter_does() {
    let argument = 0x1_0000_0005;
    let rows = [
        (Dword, Eq, 0x7_0000_0005, true),
        (Dword, Ne, 6, true),
        (Dword, Ge, 5, true),
        (Dword, Gt, 5, false),
        (Dword, Le, 5, true),
        (Dword, Lt, 5, false),
        (Dword, MaskedEq(4), 0xf4, true),
        (Dword, MaskedEq(2), 0xf6, false),
        (Qword, Eq, 5, false),
        (Qword, Ne, 5, true),
        (Qword, Ge, 0x1_0000_0006, false),
        (Qword, Gt, 0xffff_ffff, true),
        (Qword, Le, 0xffff_ffff, false),
        (Qword, Lt, 0x2_0000_0000, true),
        (Qword, MaskedEq(0xf_0000_0000), 0x1_ffff_ffff, true),
        (Qword, MaskedEq(0xf_0000_000f), 0x1_0000_0004, false),
    ];
    for (length, operator, value, holds) in rows {
        let one = rule(vec![condition(5, &length, &operator, value)]);
        let filter = filter([(3, vec![one]), (4, vec![])]);
        let call = record(3, [0, 0, 0, 0, 0, argument]);
        let wanted = if holds { ALLOW } else { TRAP };
        assert_eq!(
            filter.decide(&call),
            Ok(wanted),
            "{length:?} {operator:?} {value:#x}"
        );
        let mut foreign = call;
        foreign[4] = 0xb7;
        let calls = [call, record(4, [0; 6]), record(5, [0; 6]), foreign];
        for layout in [Layout::Linear, Layout::Tree] {
            let program = filter.to_bpf_in(layout).expect("a program");
            let returned = calls.map(|call| run(&program, &call).expect("a checked program"));
            assert_eq!(
                returned,
                [wanted, ALLOW, TRAP, KILL_PROCESS],
                "{layout:?} {operator:?}"
            );
        }
    }
}

#[test]
fn values_are_equal_by_their_parts() {
    let one = condition(1, &Dword, &MaskedEq(2), 3);
    assert_eq!(one, one.clone());
    assert_ne!(one, condition(1, &Qword, &MaskedEq(2), 3));
    assert_ne!(one, condition(1, &Dword, &MaskedEq(1), 3));
    assert_ne!(one, condition(1, &Dword, &MaskedEq(2), 4));
    assert_ne!(
        rule(vec![one.clone()]),
        rule(vec![one.clone(), one.clone()])
    );
    let made = filter([(1, vec![rule(vec![one.clone()])])]);
    assert_eq!(made, made.clone());
    assert_ne!(made, filter([(2, vec![rule(vec![one])])]));
}
