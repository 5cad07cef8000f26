//! Filters from JSON policies.

use seccompiler::{
    compile_from_json, run, BackendError, BpfMap, BpfProgram, Error, JsonFrontendError,
    SeccompAction, SeccompCmpArgLen, SeccompCmpOp, SeccompCondition, SeccompFilter, SeccompRule,
    TargetArch,
};
use std::error::Error as _;
use std::io::{self, Read};

const ALLOW: u32 = 0x7fff_0000;
const TRAP: u32 = 0x0003_0000;

/// The call with a reader that is borrowed.
const _: fn(&'static [u8], TargetArch) -> seccompiler::Result<BpfMap> = compile_from_json;

/// A policy of one filter that has these entries.
fn policy(entries: &str) -> String {
    format!(
        r#"{{"main": {{"mismatch_action": "trap", "match_action": "allow", "filter": [{entries}]}}}}"#
    )
}

/// The error of a text.
fn refused(text: &[u8]) -> Error {
    compile_from_json(text, TargetArch::x86_64).expect_err("it is rejected")
}

/// The program of the filter `main` of a text.
fn main_program(text: &str) -> BpfProgram {
    let mut programs = compile_from_json(text.as_bytes(), TargetArch::x86_64).expect("a policy");
    programs.remove("main").expect("a filter")
}

#[test]
fn json_and_code_give_the_same_program() {
    let text = policy(
        r#"{"syscall": "accept4", "comment": "any"},
           {"syscall": "fcntl", "args": [
               {"index": 1, "type": "dword", "op": "eq", "val": 2, "comment": "F_SETFD"},
               {"index": 2, "type": "qword", "op": {"masked_eq": 5}, "val": 1}]},
           {"syscall": "fcntl", "args": [{"index": 1, "type": "dword", "op": "ne", "val": 1}]}"#,
    );
    let condition = |index, length, operator, value| {
        SeccompCondition::new(index, length, operator, value).expect("an argument")
    };
    let (dword, qword) = (SeccompCmpArgLen::Dword, SeccompCmpArgLen::Qword);
    let both = vec![
        condition(1, dword.clone(), SeccompCmpOp::Eq, 2),
        condition(2, qword, SeccompCmpOp::MaskedEq(5), 1),
    ];
    let one = vec![condition(1, dword, SeccompCmpOp::Ne, 1)];
    let rules = [both, one].map(|it| SeccompRule::new(it).expect("conditions"));
    let filter = SeccompFilter::new(
        [(288, vec![]), (72, rules.to_vec())].into(),
        SeccompAction::Trap,
        SeccompAction::Allow,
        TargetArch::x86_64,
    );
    let program = BpfProgram::try_from(filter.expect("a filter")).expect("a program");
    assert_eq!(main_program(&text), program);
}

#[test]
fn each_filter_has_its_program() {
    let filter = r#"{"default_action": {"errno": 1}, "filter_action": "allow", "filter": []}"#;
    let text = format!(r#"{{"b": {filter}, "": {filter}, "a\u0000\n\u00e9": {filter}}}"#);
    for arch in [TargetArch::x86_64, TargetArch::aarch64, TargetArch::riscv64] {
        let programs = compile_from_json(text.as_bytes(), arch).expect("a policy");
        let mut names: Vec<_> = programs.keys().map(String::as_str).collect();
        names.sort_unstable();
        assert_eq!(names, ["", "a\0\n\u{e9}", "b"]);
        for program in programs.values() {
            assert_eq!(program.len(), 4);
            assert_eq!(program[3].k, SeccompAction::Errno(1).into());
        }
    }
    let none = compile_from_json("{}".as_bytes(), TargetArch::x86_64).expect("a policy");
    assert!(none.is_empty());
}

/// Each name has what could end a filter in the text, and each filter a number of its own. If the text were read again for each
/// of them, this would take minutes.
#[test]
fn many_filters_are_told_apart() {
    let name = |k: usize| format!("{k}\"}},{{[\\\u{e9}");
    let filter = |k: usize| {
        let args = format!(r#"[{{"index": 0, "type": "qword", "op": "eq", "val": {k}}}]"#);
        let entry = format!(r#"{{"syscall": "read", "args": {args}, "comment": "]}}\\\" }}"}}"#);
        format!(
            r#" "{}" : {{"mismatch_action": "trap", "match_action": "allow", "filter": [{entry}]}} "#,
            name(k).replace('\\', r"\\").replace('"', r#"\""#)
        )
    };
    let text = (0..2000).map(filter).collect::<Vec<_>>().join(",\n");
    let text = format!("\t{{{text}}}\n");
    let programs = compile_from_json(text.as_bytes(), TargetArch::x86_64).expect("a policy");
    assert_eq!(programs.len(), 2000);
    for k in 0..2000 {
        let mut record = [0; 64];
        record[4..8].copy_from_slice(&0xc000_003e_u32.to_le_bytes());
        for (given, answer) in [(k, ALLOW), (k + 1, TRAP)] {
            record[16..24].copy_from_slice(&(given as u64).to_le_bytes());
            assert_eq!(run(&programs[&name(k)], &record), Ok(answer), "{k}");
        }
    }
}

/// `close` is 3 on x86_64 and 57 elsewhere.
#[test]
fn numbers_are_those_of_the_architecture() {
    let text = policy(r#"{"syscall": "close"}"#);
    for (arch, number) in [
        (TargetArch::x86_64, 3),
        (TargetArch::aarch64, 57),
        (TargetArch::riscv64, 57),
    ] {
        let programs = compile_from_json(text.as_bytes(), arch).expect("a policy");
        assert_eq!(programs["main"][4].k, number, "{arch:?}");
    }
}

/// The crate lets only the entry with `args` count.
#[test]
fn an_entry_without_args_matches_always() {
    let with =
        r#"{"syscall": "read", "args": [{"index": 0, "type": "dword", "op": "eq", "val": 5}]}"#;
    let mut record = [0; 64];
    record[4..8].copy_from_slice(&0xc000_003e_u32.to_le_bytes());
    let mixed = main_program(&policy(&format!(r#"{{"syscall": "read"}}, {with}"#)));
    assert_eq!(run(&mixed, &record), Ok(ALLOW));
    assert_eq!(run(&main_program(&policy(with)), &record), Ok(TRAP));
}

#[test]
fn what_is_no_policy_is_told() {
    let entry = |args: &str| policy(&format!(r#"{{"syscall": "read", "args": [{args}]}}"#));
    let rows = [
        (
            "[]".to_string(),
            "the policy: expected an object of filters, found an empty array",
        ),
        (
            r#"{"a": {}}"#.to_string(),
            r#"a: missing "mismatch_action" or "default_action""#,
        ),
        (
            policy(r#"{"syscall": "nosyscall"}"#),
            r#"main.filter[0].syscall: unknown system call "nosyscall" on x86_64"#,
        ),
        (
            entry(""),
            "main.filter[0].args: expected null or at least one condition, found an empty array",
        ),
        (
            entry(r#"{"index": 6, "type": "dword", "op": "eq", "val": 0}"#),
            "main.filter[0].args[0].index: expected 0 to 5, found 6",
        ),
        (
            policy("").replace("trap", "allow"),
            "main: expected two actions that differ, found the same one twice",
        ),
    ];
    for (text, told) in rows {
        let error = refused(text.as_bytes());
        let inner = match &error {
            Error::JsonFrontend(inner) => inner,
            _ => panic!("{error:?}"),
        };
        assert_eq!(inner.to_string(), told);
        assert!(matches!(inner, JsonFrontendError::Policy(text) if text == told));
        assert_eq!(error.to_string(), format!("Json Frontend error: {inner}"));
        let source = error.source().expect("the front end's");
        assert_eq!(source.to_string(), inner.to_string());
        assert!(source.downcast_ref::<JsonFrontendError>().is_some());
        assert!(inner.source().is_none(), "{told}");
    }
}

#[test]
fn what_is_no_json_is_told() {
    for text in [
        &b""[..],
        b"hjkln",
        b"{1}",
        b"{} {}",
        b"{\"\xff\": 1}",
        &[b'['; 200],
    ] {
        let error = refused(text);
        assert!(
            matches!(&error, Error::JsonFrontend(JsonFrontendError::Json(_))),
            "{error:?}"
        );
        let text_of_error = error.to_string();
        let front = "Json Frontend error: Error parsing Json: ";
        assert!(text_of_error.starts_with(front), "{text_of_error}");
        assert!(text_of_error.len() > front.len(), "{text_of_error}");
        // As in the crate, where it is serde_json's error, what is wrong is the end of the chain.
        let last = error.source().and_then(|it| it.source());
        let last = last.expect("what is wrong with the text");
        assert_eq!(last.to_string(), text_of_error[front.len()..]);
        assert!(last.source().is_none(), "{last:?}");
    }
    let error = refused(br#"{"a": 1, "a": 1}"#);
    let text = "Json Frontend error: Repeated key in Json.";
    assert_eq!(error.to_string(), text);
    let last = error.source().and_then(|it| it.source());
    let last = last.expect("what is wrong with the text");
    assert_eq!(last.to_string(), "Repeated key in Json.");
}

/// 1000 rules of one condition take 5 instructions each, and 7 are around them; the first such filter by name is reported.
#[test]
fn a_filter_that_is_too_large_is_an_error_of_the_backend() {
    let rule =
        r#"{"syscall": "read", "args": [{"index": 0, "type": "dword", "op": "le", "val": 1}]}"#;
    let filter = |count: usize| {
        let entries = vec![rule; count].join(",");
        format!(r#"{{"mismatch_action": "trap", "match_action": "allow", "filter": [{entries}]}}"#)
    };
    let text = format!(
        r#"{{"c": {}, "b": {}, "a": {}}}"#,
        filter(1001),
        filter(1000),
        filter(1)
    );
    match refused(text.as_bytes()) {
        Error::Backend(error) => assert_eq!(error, BackendError::FilterTooLarge(5007)),
        error => panic!("{error:?}"),
    }
    // A fault of the front end comes first, wherever it is.
    let text = format!(r#"{{"b": {}, "z": {{}}}}"#, filter(1000));
    assert!(matches!(refused(text.as_bytes()), Error::JsonFrontend(_)));
}

/// A reader that gives one byte, and then fails.
struct Failing(bool);

impl Read for Failing {
    fn read(&mut self, buffer: &mut [u8]) -> io::Result<usize> {
        if std::mem::replace(&mut self.0, true) {
            return Err(io::Error::new(io::ErrorKind::BrokenPipe, "the pipe broke"));
        }
        buffer[0] = b'{';
        Ok(1)
    }
}

#[test]
fn a_failed_read_is_the_source_of_the_error() {
    let error = compile_from_json(Failing(false), TargetArch::x86_64).expect_err("it fails");
    assert_eq!(
        error.to_string(),
        "Json Frontend error: Error parsing Json: the pipe broke"
    );
    assert!(matches!(
        &error,
        Error::JsonFrontend(JsonFrontendError::Read(_))
    ));
    let inner = error
        .source()
        .and_then(|it| it.source())
        .expect("the reader's");
    let inner: &io::Error = inner.downcast_ref().expect("an error of a reader");
    assert_eq!(inner.kind(), io::ErrorKind::BrokenPipe);
}

/// A reader that gives a byte at a time is read to its end.
#[test]
fn a_policy_is_read_in_pieces() {
    struct Slow<'a>(&'a [u8]);
    impl Read for Slow<'_> {
        fn read(&mut self, buffer: &mut [u8]) -> io::Result<usize> {
            let count = buffer.len().min(1);
            self.0.read(&mut buffer[..count])
        }
    }
    let text = policy(r#"{"syscall": "read"}"#);
    let programs = compile_from_json(Slow(text.as_bytes()), TargetArch::x86_64).expect("a policy");
    assert_eq!(programs["main"], main_program(&text));
}
