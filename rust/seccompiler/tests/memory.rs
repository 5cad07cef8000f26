//! Memory that the crate asks for and doesn't get. What the library for C asks for is another test's, in C.

use seccompiler::{
    compile_from_json, BackendError, Error, Layout, SeccompAction, SeccompCmpArgLen, SeccompCmpOp,
    SeccompCondition, SeccompFilter, SeccompRule, TargetArch,
};
use std::alloc::{GlobalAlloc, Layout as Size, System};
use std::cell::Cell;
use std::ptr;

thread_local! {
    /// How many requests of this thread are granted before one fails.
    static BEFORE: Cell<usize> = const { Cell::new(usize::MAX) };
}

/// Returns whether a request is granted.
fn is_granted() -> bool {
    let granted = BEFORE.try_with(|before| {
        let left = before.get();
        before.set(left.wrapping_sub(usize::from(left != usize::MAX)));
        left != 0
    });
    granted.unwrap_or(true)
}

/// The system's allocator, of which one request fails.
struct Refusing;

// SAFETY: each call is the system's, or is refused.
unsafe impl GlobalAlloc for Refusing {
    unsafe fn alloc(&self, size: Size) -> *mut u8 {
        match is_granted() {
            // SAFETY: the caller's.
            true => unsafe { System.alloc(size) },
            false => ptr::null_mut(),
        }
    }

    unsafe fn dealloc(&self, start: *mut u8, size: Size) {
        // SAFETY: the caller's.
        unsafe { System.dealloc(start, size) }
    }
}

#[global_allocator]
static ALLOCATOR: Refusing = Refusing;

/// Makes a call with each of its requests failing, one at a time: it reports that, and else what it reports with all granted.
fn refuse_each<T: PartialEq + std::fmt::Debug>(what: &str, call: impl Fn() -> Result<T, Error>) {
    let told = |answer: Result<T, Error>| answer.map_err(|error| error.to_string());
    let ample = told(call());
    for refused in 0..1000 {
        BEFORE.with(|before| before.set(refused));
        let answer = call();
        let left = BEFORE.with(|before| before.replace(usize::MAX));
        if left != usize::MAX {
            // Fewer requests were made than were to be granted.
            assert_eq!(told(answer), ample, "{what}");
            return;
        }
        match answer {
            Err(Error::Backend(BackendError::OutOfMemory)) => {}
            answer => panic!("{what}, request {refused}: {answer:?}"),
        }
    }
    panic!("{what}: no end");
}

#[test]
fn a_refused_request_is_an_error() {
    let condition =
        || SeccompCondition::new(0, SeccompCmpArgLen::Qword, SeccompCmpOp::MaskedEq(5), 4);
    let rule = || SeccompRule::new(vec![condition().expect("a condition"); 100]);
    let rules = [(3, vec![rule().expect("a rule"); 3]), (7, vec![])].into();
    let (allow, trap) = (SeccompAction::Allow, SeccompAction::Trap);
    let filter = SeccompFilter::new(rules, trap, allow, TargetArch::riscv64).expect("a filter");
    refuse_each("a condition", || Ok(condition()?));
    for layout in [Layout::Linear, Layout::Tree] {
        refuse_each("a program", || Ok(filter.to_bpf_in(layout)?));
    }
    refuse_each("a decision", || Ok(filter.decide(&[0; 64])?));
    refuse_each("a name", || Ok(TargetArch::try_from("x86")?));
    let entries = r#"[{"syscall": "read"}, {"syscall": "close"}]"#;
    let one =
        format!(r#"{{"mismatch_action": "trap", "match_action": "allow", "filter": {entries}}}"#);
    for text in [
        format!(r#"{{"a": {one}, "b": {one}}}"#),
        "[]".into(),
        "{".into(),
        "{}".into(),
    ] {
        refuse_each("a policy", || {
            compile_from_json(text.as_bytes(), TargetArch::x86_64)
        });
    }
}
