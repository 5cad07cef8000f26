//! Filters, which have rules for system calls.

use crate::backend::{BackendError, SeccompAction, TargetArch};
use crate::library::{self, filled, reserved, BAD_NUMBER, TOO_LARGE};
use crate::program::{BpfProgram, Layout, BLANK, BPF_MAX_LEN};
use crate::rule::SeccompRule;
use crate::sys::{self, Arrays, Chain, Condition, Record, Rule};
use std::collections::BTreeMap;

/// A filter: rules for system calls, and the two actions that it decides between.
#[derive(Clone, Debug, PartialEq, Eq)]
pub struct SeccompFilter {
    rules: BTreeMap<i64, Vec<SeccompRule>>,
    mismatch_action: SeccompAction,
    match_action: SeccompAction,
    target_arch: TargetArch,
}

impl SeccompFilter {
    /// Makes a filter of rules under the numbers of system calls.
    ///
    /// It matches a call if one of the rules under the call's number does, or if the list of rules there is empty. A call
    /// of another architecture than `target_arch` kills the process.
    ///
    /// # Errors
    ///
    /// `IdenticalActions` if the two actions are the same, with the same data.
    ///
    /// # Examples
    ///
    /// ```
    /// use seccompiler::{BackendError, BpfProgram, SeccompAction, SeccompFilter, TargetArch};
    ///
    /// // Answers getpid, 39 on x86_64, with EPERM.
    /// let filter = SeccompFilter::new(
    ///     [(39, vec![])].into(),
    ///     SeccompAction::Allow,
    ///     SeccompAction::Errno(1),
    ///     TargetArch::x86_64,
    /// )?;
    /// let program: BpfProgram = filter.try_into()?;
    /// assert_eq!(program.len(), 10);
    /// # Ok::<(), BackendError>(())
    /// ```
    pub fn new(
        rules: BTreeMap<i64, Vec<SeccompRule>>,
        mismatch_action: SeccompAction,
        match_action: SeccompAction,
        target_arch: TargetArch,
    ) -> Result<Self, BackendError> {
        library::accept_actions(&mismatch_action, &match_action)?;
        Ok(SeccompFilter {
            rules,
            mismatch_action,
            match_action,
            target_arch,
        })
    }

    /// Returns the filter's program in a layout.
    ///
    /// The program passes [`check`](crate::check), and returns for each call record what
    /// [`decide`](SeccompFilter::decide) gives. In the linear layout it is, instruction by instruction, the crate's.
    ///
    /// An addition: `BpfProgram::try_from` is the linear layout.
    ///
    /// # Errors
    ///
    /// - `InvalidSyscallNumber` with the least number that is below 0 or above 4294967295;
    /// - `FilterTooLarge` if the program would have more than 4096 instructions: with its length in the linear layout,
    ///   with 4097 in the tree layout, in which a length above 4096 isn't counted;
    /// - `OutOfMemory` if memory runs out.
    ///
    /// # Examples
    ///
    /// ```
    /// use seccompiler::{BackendError, Layout, SeccompAction, SeccompFilter, TargetArch};
    ///
    /// let calls = (0..100).map(|number| (number, vec![])).collect();
    /// let (kill, allow) = (SeccompAction::KillProcess, SeccompAction::Allow);
    /// let filter = SeccompFilter::new(calls, kill, allow, TargetArch::aarch64)?;
    /// assert!(filter.to_bpf_in(Layout::Tree)?.len() < filter.to_bpf_in(Layout::Linear)?.len());
    /// # Ok::<(), BackendError>(())
    /// ```
    pub fn to_bpf_in(&self, layout: Layout) -> Result<BpfProgram, BackendError> {
        let flat = Flat::of(self)?;
        let mut array = filled(BLANK, BPF_MAX_LEN)?;
        let answer = sys::compile_rules(flat.lend(self), layout as u32, &mut array);
        match usize::try_from(answer) {
            Ok(length) => library::program(&array[..length]),
            Err(_) if answer == TOO_LARGE => Err(self.too_large(&flat, layout)),
            Err(_) => Err(self.rejection(answer)),
        }
    }

    /// Returns what the filter decides for a call record, without making a program: `SECCOMP_RET_*` with its data.
    ///
    /// A call record is the 64 bytes of a `struct seccomp_data` of `linux/seccomp.h`, little-endian. The answer is
    /// the match action if the filter matches the call, the mismatch action if it doesn't, and
    /// `SECCOMP_RET_KILL_PROCESS` for a record of another architecture.
    ///
    /// An addition.
    ///
    /// # Errors
    ///
    /// - `InvalidSyscallNumber` with the least number that is below 0 or above 4294967295;
    /// - `OutOfMemory` if memory runs out.
    ///
    /// # Examples
    ///
    /// ```
    /// use seccompiler::{BackendError, SeccompAction, SeccompFilter, TargetArch};
    ///
    /// let (allow, deny) = (SeccompAction::Allow, SeccompAction::Errno(1));
    /// let filter = SeccompFilter::new([(39, vec![])].into(), allow, deny, TargetArch::x86_64)?;
    /// let mut record = [0; 64];
    /// record[0] = 39;
    /// record[4..8].copy_from_slice(&0xc000_003e_u32.to_le_bytes());
    /// assert_eq!(filter.decide(&record)?, SeccompAction::Errno(1).into());
    /// # Ok::<(), BackendError>(())
    /// ```
    pub fn decide(&self, record: &[u8; 64]) -> Result<u32, BackendError> {
        let flat = Flat::of(self)?;
        let answer = sys::decide_rules(flat.lend(self), &Record(*record));
        u32::try_from(answer).map_err(|_| self.rejection(answer))
    }

    /// Returns the error of a filter that is too large, with its length, or of a tree with the least that is too large.
    fn too_large(&self, flat: &Flat, layout: Layout) -> BackendError {
        let answer = sys::rules_length(flat.lend(self), layout as u32);
        match usize::try_from(answer) {
            Ok(length) => BackendError::FilterTooLarge(length),
            Err(_) if answer == TOO_LARGE => BackendError::FilterTooLarge(BPF_MAX_LEN + 1),
            Err(_) => self.rejection(answer),
        }
    }

    /// Returns the error that a code stands for, unless the filter is too large.
    fn rejection(&self, code: i64) -> BackendError {
        let is_outside = |number: &&i64| u32::try_from(**number).is_err();
        match self.rules.keys().find(is_outside) {
            Some(number) if code == BAD_NUMBER => BackendError::InvalidSyscallNumber(*number),
            _ => library::rejection(code),
        }
    }
}

impl TryFrom<SeccompFilter> for BpfProgram {
    type Error = BackendError;

    /// Returns the filter's program in the linear layout.
    ///
    /// # Errors
    ///
    /// Those of [`SeccompFilter::to_bpf_in`].
    fn try_from(filter: SeccompFilter) -> Result<Self, BackendError> {
        filter.to_bpf_in(Layout::Linear)
    }
}

/// The rules of a filter, as the library takes them.
struct Flat {
    chains: Vec<Chain>,
    rules: Vec<Rule>,
    conditions: Vec<Condition>,
}

impl Flat {
    /// Returns the rules of a filter.
    fn of(filter: &SeccompFilter) -> Result<Self, BackendError> {
        let rules = || filter.rules.values().flatten();
        let count = rules().map(|rule| rule.conditions().len()).sum();
        let mut flat = Flat {
            chains: reserved(filter.rules.len())?,
            rules: reserved(rules().count())?,
            conditions: reserved(count)?,
        };
        for (number, rules) in &filter.rules {
            flat.chains.push(Chain {
                number: *number,
                rules: rules.len(),
            });
        }
        for rule in rules() {
            let entries = rule.conditions().iter().map(|condition| condition.entry());
            flat.rules.push(Rule {
                conditions: entries.len(),
            });
            flat.conditions.extend(entries);
        }
        Ok(flat)
    }

    /// Borrows them, with the architecture and the actions of the filter.
    fn lend(&self, filter: &SeccompFilter) -> Arrays<'_> {
        Arrays {
            chains: &self.chains,
            rules: &self.rules,
            conditions: &self.conditions,
            mismatch: filter.mismatch_action.kind_and_data(),
            matched: filter.match_action.kind_and_data(),
            architecture: filter.target_arch.audit_arch(),
        }
    }
}
