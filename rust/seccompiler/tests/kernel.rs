//! Programs in the kernel, each installed for a thread of its own.

use seccompiler::{
    apply_filter, sock_filter, BpfProgram, Error, Layout, SeccompAction, SeccompCmpArgLen,
    SeccompCmpOp, SeccompCondition, SeccompFilter, SeccompRule,
};
use std::env::{self, consts::ARCH};
use std::fs;
use std::thread;

/// The number of `getcwd`, which no test of these makes but by `current_dir`.
#[cfg(target_arch = "x86_64")]
const GETCWD: i64 = 79;
#[cfg(not(target_arch = "x86_64"))]
const GETCWD: i64 = 17;

/// Returns the errno of asking for the current folder.
fn refused() -> Option<i32> {
    env::current_dir()
        .err()
        .and_then(|error| error.raw_os_error())
}

/// Returns the value of a line of `/proc/thread-self/status`.
fn status(name: &str) -> String {
    let status = fs::read_to_string("/proc/thread-self/status").expect("Linux");
    let line = status.lines().find(|line| line.starts_with(name));
    let (_, value) = line.and_then(|line| line.split_once(':')).expect("a line");
    value.trim().to_string()
}

/// Runs in a thread of its own.
fn apart(test: impl FnOnce() + Send + 'static) {
    thread::spawn(test).join().expect("the test passes");
}

/// The program that answers `getcwd` with an errno if these conditions hold.
fn denying(errno: u32, conditions: Vec<SeccompCondition>, layout: Layout) -> BpfProgram {
    let rules = match conditions.is_empty() {
        true => vec![],
        false => vec![SeccompRule::new(conditions).expect("conditions")],
    };
    let (allow, deny) = (SeccompAction::Allow, SeccompAction::Errno(errno));
    let arch = ARCH.try_into().expect("it runs here");
    let filter = SeccompFilter::new([(GETCWD, rules)].into(), allow, deny, arch);
    filter
        .expect("a filter")
        .to_bpf_in(layout)
        .expect("a program")
}

#[test]
fn a_filter_holds_for_its_thread() {
    for layout in [Layout::Linear, Layout::Tree] {
        apart(move || {
            assert_eq!((status("Seccomp"), refused()), ("0".to_string(), None));
            apply_filter(&denying(1000, vec![], layout)).expect("the kernel takes it");
            assert_eq!(
                (status("Seccomp"), refused()),
                ("2".to_string(), Some(1000))
            );
            assert_eq!(status("NoNewPrivs"), "1");
        });
    }
    assert_eq!((status("Seccomp"), refused()), ("0".to_string(), None));
}

/// The second argument of `getcwd` is the length of a buffer, which is more than 0 and less than 2 to the 32.
#[test]
fn conditions_are_tested_by_the_kernel() {
    let condition = |operator, value| {
        let length = SeccompCmpArgLen::Qword;
        vec![SeccompCondition::new(1, length, operator, value).expect("an argument")]
    };
    let rows = [
        (SeccompCmpOp::Gt, 0, Some(7)),
        (SeccompCmpOp::Ge, 1 << 32, None),
        (SeccompCmpOp::Lt, 1 << 32, Some(7)),
        (SeccompCmpOp::Le, 0, None),
        (SeccompCmpOp::Ne, 0, Some(7)),
        (SeccompCmpOp::Eq, 0, None),
        (SeccompCmpOp::MaskedEq(u64::MAX << 32), 0, Some(7)),
        (SeccompCmpOp::MaskedEq(u64::MAX << 32), 1 << 32, None),
    ];
    for (operator, value, wanted) in rows {
        apart(move || {
            let program = denying(7, condition(operator.clone(), value), Layout::Linear);
            apply_filter(&program).expect("the kernel takes it");
            assert_eq!(refused(), wanted, "{operator:?} {value}");
        });
    }
}

#[test]
fn of_several_filters_the_last_errno_holds() {
    apart(|| {
        for errno in [1000, 1001] {
            apply_filter(&denying(errno, vec![], Layout::Tree)).expect("the kernel takes it");
        }
        assert_eq!(refused(), Some(1001));
    });
}

#[test]
fn an_empty_program_is_rejected_and_nothing_is_done() {
    apart(|| {
        assert!(matches!(apply_filter(&[]), Err(Error::EmptyFilter)));
        assert_eq!(
            (status("Seccomp"), status("NoNewPrivs")),
            ("0".to_string(), "0".to_string())
        );
    });
}

/// `EINVAL` is 22.
#[test]
fn the_kernel_tells_why_it_takes_no_program() {
    let returning = sock_filter {
        code: 6,
        jt: 0,
        jf: 0,
        k: 0x7fff_0000,
    };
    let unknown = sock_filter {
        code: 9999,
        jt: 0,
        jf: 0,
        k: 0,
    };
    for program in [
        vec![returning.clone(); 4097],
        vec![unknown],
        vec![returning; 65536 + 1],
    ] {
        apart(move || {
            match apply_filter(&program) {
                Err(Error::Seccomp(error)) => assert_eq!(error.raw_os_error(), Some(22)),
                answer => panic!("{answer:?}"),
            }
            assert_eq!(status("Seccomp"), "0");
        });
    }
}
