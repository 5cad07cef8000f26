//! What is asked of the library, and what its codes mean here.
//!
//! The types of this crate hold data. The library says whether they are accepted, what they decide and which program
//! they have.

use crate::backend::{BackendError, SeccompAction, TargetArch};
use crate::program::{sock_filter, BpfProgram, Layout, BLANK};
use crate::sys::{self, Arrays, Chain, Condition, Rule};

pub(crate) const OUT_OF_MEMORY: i64 = -1;
#[cfg(feature = "json")]
pub(crate) const NO_FILTER: i64 = -5;
pub(crate) const TOO_LARGE: i64 = -6;
#[cfg(feature = "json")]
pub(crate) const NO_ROOM: i64 = -7;
pub(crate) const NOT_CHECKED: i64 = -8;
const BAD_ARGUMENT: i64 = -13;
const EMPTY_RULE: i64 = -16;
const EQUAL_ACTIONS: i64 = -17;
pub(crate) const BAD_NUMBER: i64 = -19;

/// A filter whose only fault is that its actions are equal. So the library takes no memory for it, and reports this
/// fault if it finds no other.
const EQUAL: Arrays<'static> = Arrays {
    chains: &[],
    rules: &[],
    conditions: &[],
    mismatch: (0, 0),
    matched: (0, 0),
    architecture: TargetArch::x86_64.audit_arch(),
};

/// Returns the error that a code stands for. The errors of all other codes have data of the filter.
pub(crate) fn rejection(code: i64) -> BackendError {
    match code {
        OUT_OF_MEMORY => BackendError::OutOfMemory,
        BAD_ARGUMENT => BackendError::InvalidArgumentNumber,
        EMPTY_RULE => BackendError::EmptyRule,
        EQUAL_ACTIONS => BackendError::IdenticalActions,
        _ => unreachable!("the library returned {code}, which its header doesn't list here"),
    }
}

/// Asks for the first fault of a filter. `last` is the code of a fault that it has, which comes after those asked for.
fn accept(filter: Arrays<'_>, last: i64) -> Result<(), BackendError> {
    match sys::compile_rules(filter, Layout::Linear as u32, &mut []) {
        code if code == last => Ok(()),
        code => Err(rejection(code)),
    }
}

/// Asks whether a rule may have these conditions.
pub(crate) fn accept_rule(conditions: &[Condition]) -> Result<(), BackendError> {
    let filter = Arrays {
        chains: &[Chain {
            number: 0,
            rules: 1,
        }],
        rules: &[Rule {
            conditions: conditions.len(),
        }],
        conditions,
        ..EQUAL
    };
    accept(filter, EQUAL_ACTIONS)
}

/// Returns the code of the rule of these conditions. No return follows it.
pub(crate) fn rule_code(conditions: &[Condition]) -> Result<BpfProgram, BackendError> {
    // A condition takes at most 6 instructions, a rule 2 more, and 3 more for each 248 of its conditions' or fewer.
    let most = conditions.len().saturating_mul(7).saturating_add(2);
    let mut array = filled(BLANK, most)?;
    let answer = sys::compile_rule(conditions, &mut array);
    let length = usize::try_from(answer).map_err(|_| rejection(answer))?;
    array.truncate(length);
    Ok(array)
}

/// Asks whether a filter may have these actions.
pub(crate) fn accept_actions(
    mismatch: &SeccompAction,
    matched: &SeccompAction,
) -> Result<(), BackendError> {
    let filter = Arrays {
        // No call has this number, a fault that comes after that of equal actions.
        chains: &[Chain {
            number: -1,
            rules: 0,
        }],
        mismatch: mismatch.kind_and_data(),
        matched: matched.kind_and_data(),
        ..EQUAL
    };
    accept(filter, BAD_NUMBER)
}

/// Returns a vector of so many copies of a value.
pub(crate) fn filled<T: Clone>(value: T, count: usize) -> Result<Vec<T>, BackendError> {
    let mut room = reserved(count)?;
    room.resize(count, value);
    Ok(room)
}

/// Returns a program of these instructions.
pub(crate) fn program(instructions: &[sock_filter]) -> Result<BpfProgram, BackendError> {
    let mut program = reserved(instructions.len())?;
    program.extend_from_slice(instructions);
    Ok(program)
}

/// Returns an empty vector with room for so many.
pub(crate) fn reserved<T>(count: usize) -> Result<Vec<T>, BackendError> {
    let mut room = Vec::new();
    match room.try_reserve_exact(count) {
        Ok(()) => Ok(room),
        Err(_) => Err(BackendError::OutOfMemory),
    }
}

/// Returns the text of bytes in UTF-8, as the library writes them. Other bytes are replaced.
pub(crate) fn text(bytes: &[u8]) -> Result<String, BackendError> {
    let text = String::from_utf8_lossy(bytes);
    let mut copy = String::new();
    copy.try_reserve_exact(text.len())
        .map_err(|_| BackendError::OutOfMemory)?;
    copy.push_str(&text);
    Ok(copy)
}
