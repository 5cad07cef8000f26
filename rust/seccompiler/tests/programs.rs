//! What is asked of programs, whichever compiler they are of.

use seccompiler::{
    check, compare, run, sock_filter, BpfProgram, Calls, Comparison, Layout, ProgramError,
    Relation, SeccompAction, SeccompFilter, TargetArch,
};

fn plain(code: u16, k: u32) -> sock_filter {
    sock_filter {
        code,
        jt: 0,
        jf: 0,
        k,
    }
}

const ALLOW: u32 = 0x7fff_0000;
const LOG: u32 = 0x7ffc_0000;
const KILL_PROCESS: u32 = 0x8000_0000;
const MOST: usize = 100_000;

/// A program that returns one value for call 39 of any architecture, and another one for all others.
fn split(at_39: u32, else_: u32) -> BpfProgram {
    let test = sock_filter {
        code: 0x15,
        jt: 0,
        jf: 1,
        k: 39,
    };
    vec![plain(0x20, 0), test, plain(0x06, at_39), plain(0x06, else_)]
}

#[test]
fn a_program_that_does_not_pass_is_neither_run_nor_compared() {
    let jump_out = sock_filter {
        code: 0x15,
        jt: 1,
        jf: 0,
        k: 0,
    };
    let programs = [
        vec![],
        vec![plain(0x20, 0)],
        vec![plain(0x20, 2), plain(0x06, 0)],
        vec![plain(0x20, 64), plain(0x06, 0)],
        vec![jump_out, plain(0x06, 0)],
        vec![plain(9999, 0), plain(0x06, 0)],
        vec![plain(0x06, 0); 4097],
    ];
    let good = split(ALLOW, LOG);
    assert!(check(&good));
    for program in programs {
        assert!(!check(&program), "{:?}", program.first());
        assert_eq!(run(&program, &[0; 64]), Err(ProgramError::NotChecked));
        for (p, q) in [(&program, &good), (&good, &program)] {
            let answer = compare(p, q, &Calls::all(), Relation::Alike, MOST);
            assert_eq!(answer, Err(ProgramError::NotChecked));
        }
    }
}

#[test]
fn a_program_returns_by_the_record() {
    let program = split(ALLOW, LOG);
    let mut record = [0xff; 64];
    assert_eq!(run(&program, &record), Ok(LOG));
    record[..4].copy_from_slice(&39_u32.to_le_bytes());
    assert_eq!(run(&program, &record), Ok(ALLOW));
}

#[test]
fn a_difference_is_a_call_of_the_set() {
    let (strict, lax) = (split(ALLOW, KILL_PROCESS), split(ALLOW, LOG));
    let arch = TargetArch::aarch64;
    let rows = [
        (Calls::all(), Relation::Alike, false),
        (Calls::all(), Relation::AtMostAsPermissive, true),
        (Calls::of_arch(arch), Relation::Alike, false),
        (Calls::of_number(arch, 39), Relation::Alike, true),
        (Calls::of_numbers(arch, 38, 39), Relation::Alike, false),
        (Calls::of_numbers(arch, 40, 39), Relation::Alike, true),
    ];
    for (calls, relation, holds) in rows {
        let answer = compare(&strict, &lax, &calls, relation, MOST).expect("an answer");
        match answer {
            Comparison::Holds => assert!(holds, "{calls:?} {relation:?}"),
            Comparison::Fails(record) => {
                assert!(!holds, "{calls:?} {relation:?}");
                assert_ne!(run(&strict, &record), run(&lax, &record));
                if calls != Calls::all() {
                    assert_eq!(record[4..8], 0xc000_00b7_u32.to_le_bytes());
                }
            }
            Comparison::Undecided => panic!("{calls:?} {relation:?}"),
        }
    }
    let back = compare(
        &lax,
        &strict,
        &Calls::all(),
        Relation::AtMostAsPermissive,
        MOST,
    );
    assert!(matches!(back, Ok(Comparison::Fails(_))));
    let none = compare(&strict, &lax, &Calls::all(), Relation::Alike, 0);
    assert_eq!(none, Ok(Comparison::Undecided));
}

#[test]
fn both_layouts_answer_alike() {
    let calls = (0..200).map(|number| (3 * number, vec![])).collect();
    let (allow, errno) = (SeccompAction::Allow, SeccompAction::Errno(13));
    let filter = SeccompFilter::new(calls, errno, allow, TargetArch::x86_64).expect("a filter");
    let [linear, tree] = [Layout::Linear, Layout::Tree].map(|it| filter.to_bpf_in(it));
    let (linear, tree) = (linear.expect("a program"), tree.expect("a program"));
    assert!(tree.len() < linear.len());
    let answer = compare(&linear, &tree, &Calls::all(), Relation::Alike, MOST);
    assert_eq!(answer, Ok(Comparison::Holds));
}

#[test]
fn errors_have_texts() {
    let texts = [ProgramError::NotChecked, ProgramError::OutOfMemory].map(|it| it.to_string());
    assert_eq!(
        texts,
        ["The program doesn't pass the check.", "Out of memory."]
    );
}
