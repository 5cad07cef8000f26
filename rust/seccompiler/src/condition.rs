//! Conditions on arguments.

use crate::backend::{BackendError, SeccompCmpArgLen, SeccompCmpOp};
use crate::library;
use crate::sys::Condition;

/// A condition on one argument of a system call.
#[derive(Clone, Debug, PartialEq, Eq)]
pub struct SeccompCondition {
    arg_index: u8,
    arg_len: SeccompCmpArgLen,
    operator: SeccompCmpOp,
    value: u64,
}

impl SeccompCondition {
    /// Makes a condition: the argument of this index is compared with the value by the operator.
    ///
    /// With `Dword` only the low 4 bytes of the argument, of the value and of a mask count. The upper bytes may be
    /// anything.
    ///
    /// # Errors
    ///
    /// `InvalidArgumentNumber` if the index is above 5.
    ///
    /// # Examples
    ///
    /// ```
    /// use seccompiler::{BackendError, SeccompCmpArgLen, SeccompCmpOp, SeccompCondition};
    ///
    /// let (length, operator) = (SeccompCmpArgLen::Qword, SeccompCmpOp::MaskedEq(0b110));
    /// assert!(SeccompCondition::new(5, length.clone(), operator.clone(), 0b100).is_ok());
    /// assert_eq!(
    ///     SeccompCondition::new(6, length, operator, 0b100),
    ///     Err(BackendError::InvalidArgumentNumber)
    /// );
    /// ```
    pub fn new(
        arg_index: u8,
        arg_len: SeccompCmpArgLen,
        operator: SeccompCmpOp,
        value: u64,
    ) -> Result<Self, BackendError> {
        let condition = SeccompCondition {
            arg_index,
            arg_len,
            operator,
            value,
        };
        library::accept_rule(&[condition.entry()])?;
        Ok(condition)
    }

    /// Returns the condition as the library takes it.
    pub(crate) fn entry(&self) -> Condition {
        let (op, mask) = match self.operator {
            SeccompCmpOp::Eq => (0, 0),
            SeccompCmpOp::Ne => (1, 0),
            SeccompCmpOp::Gt => (2, 0),
            SeccompCmpOp::Ge => (3, 0),
            SeccompCmpOp::Lt => (4, 0),
            SeccompCmpOp::Le => (5, 0),
            SeccompCmpOp::MaskedEq(mask) => (6, mask),
        };
        let length = match self.arg_len {
            SeccompCmpArgLen::Dword => 4,
            SeccompCmpArgLen::Qword => 8,
        };
        Condition {
            value: self.value,
            mask,
            argument: self.arg_index,
            length,
            op,
        }
    }
}
