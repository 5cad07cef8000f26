//! Rules, which join conditions.

use crate::backend::BackendError;
use crate::condition::SeccompCondition;
use crate::library;
use crate::program::BpfProgram;
use crate::sys::Condition;
use std::alloc::{self, Layout};
use std::slice;

/// A rule for a system call, which matches a call if all of its conditions hold.
#[derive(Clone, Debug, PartialEq, Eq)]
pub struct SeccompRule {
    conditions: Vec<SeccompCondition>,
}

impl SeccompRule {
    /// Makes a rule of these conditions.
    ///
    /// # Errors
    ///
    /// `EmptyRule` if there are none. To match every call of a number, give the filter an empty list of rules.
    ///
    /// # Examples
    ///
    /// ```
    /// use seccompiler::{BackendError, SeccompCmpArgLen::Dword, SeccompCmpOp, SeccompCondition, SeccompRule};
    ///
    /// let rule = SeccompRule::new(vec![
    ///     SeccompCondition::new(0, Dword, SeccompCmpOp::Gt, 2)?,
    ///     SeccompCondition::new(0, Dword, SeccompCmpOp::Le, 9)?,
    /// ])?;
    /// assert_eq!(rule, rule.clone());
    /// assert_eq!(SeccompRule::new(vec![]), Err(BackendError::EmptyRule));
    /// # Ok::<(), BackendError>(())
    /// ```
    pub fn new(conditions: Vec<SeccompCondition>) -> Result<Self, BackendError> {
        // Each condition was accepted, so only whether there is one is left to ask.
        let first = conditions.first().map(SeccompCondition::entry);
        library::accept_rule(first.as_ref().map_or(&[], slice::from_ref))?;
        Ok(SeccompRule { conditions })
    }

    /// Returns the conditions.
    pub(crate) fn conditions(&self) -> &[SeccompCondition] {
        &self.conditions
    }
}

impl From<SeccompRule> for BpfProgram {
    /// Returns the rule's code. No return follows it, so it isn't a whole program.
    ///
    /// Run from its first instruction, it leaves at its end if the rule matches, and one instruction further if it
    /// doesn't. If memory runs out the process is aborted, as by the crate.
    fn from(rule: SeccompRule) -> Self {
        let entries = rule.conditions.iter().map(SeccompCondition::entry);
        let entries: Vec<Condition> = entries.collect();
        match library::rule_code(&entries) {
            Ok(code) => code,
            Err(_) => alloc::handle_alloc_error(Layout::for_value(entries.as_slice())),
        }
    }
}
