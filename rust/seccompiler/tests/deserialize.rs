//! Operators, lengths and actions, read as `serde` reads the crate's.

use seccompiler::{SeccompAction, SeccompCmpArgLen, SeccompCmpOp};
use serde::de::value::{Error, MapAccessDeserializer, MapDeserializer};
use serde::de::IntoDeserializer;
use serde::Deserialize;
use std::iter;

/// Reads a name alone.
fn named<'a, T: Deserialize<'a>>(name: &'a str) -> Result<T, Error> {
    T::deserialize(name.into_deserializer())
}

/// Reads an object of one name and a number.
fn numbered<'a, T: Deserialize<'a>>(name: &'a str, number: u64) -> Result<T, Error> {
    let pairs = MapDeserializer::new(iter::once((name, number)));
    T::deserialize(MapAccessDeserializer::new(pairs))
}

#[test]
fn names_are_those_of_the_json_format() {
    assert_eq!(named("dword"), Ok(SeccompCmpArgLen::Dword));
    assert_eq!(named("qword"), Ok(SeccompCmpArgLen::Qword));
    let operators = [
        ("eq", SeccompCmpOp::Eq),
        ("ge", SeccompCmpOp::Ge),
        ("gt", SeccompCmpOp::Gt),
        ("le", SeccompCmpOp::Le),
        ("lt", SeccompCmpOp::Lt),
        ("ne", SeccompCmpOp::Ne),
    ];
    for (name, operator) in operators {
        assert_eq!(named(name), Ok(operator));
    }
    let actions = [
        ("allow", SeccompAction::Allow),
        ("kill_thread", SeccompAction::KillThread),
        ("kill_process", SeccompAction::KillProcess),
        ("log", SeccompAction::Log),
        ("trap", SeccompAction::Trap),
    ];
    for (name, action) in actions {
        assert_eq!(named(name), Ok(action));
    }
    assert_eq!(
        numbered("masked_eq", u64::MAX),
        Ok(SeccompCmpOp::MaskedEq(u64::MAX))
    );
    assert_eq!(numbered("errno", 1), Ok(SeccompAction::Errno(1)));
    assert_eq!(numbered("trace", 2), Ok(SeccompAction::Trace(2)));
}

#[test]
fn other_names_are_rejected() {
    assert!(named::<SeccompAction>("Allow").is_err());
    assert!(named::<SeccompAction>("errno").is_err());
    assert!(named::<SeccompCmpArgLen>("word").is_err());
    assert!(numbered::<SeccompAction>("errno", 1 << 32).is_err());
}
