//! Sums.

use crate::library;
use crate::refusal::Refusal;

/// Evaluates a sum, as delays are written: decimal numbers, `+ - * /`, unary minus and brackets, at most 16 of them one within the other, without
/// blanks. Unary minus binds closest, then `*` and `/`, then `+` and `-`, equals from the left; a division cuts toward zero.
///
/// ```
/// use fsq::evaluate;
///
/// // Document 02, No. 6.
/// assert_eq!(evaluate("3*(40+2)-1")?, 125);
/// assert_eq!(evaluate("-7/2")?, -3);
/// # Ok::<(), fsq::Refusal>(())
/// ```
///
/// Another text is refused with 16, one that is deeper with 17. Every value on the way is an `i32`, also a number by itself, else it is 18; a minus
/// directly before digits is taken with them. A refusal has no span:
///
/// ```
/// use fsq::{evaluate, Reason};
///
/// // Document 02, No. 6: -2147483648 is allowed while 1-2147483648 is not.
/// assert_eq!(evaluate("-2147483648")?, i32::MIN);
/// assert_eq!(evaluate("1-2147483648").unwrap_err().reason, Reason::ValueOutOfRange);
/// assert_eq!(evaluate("1 +1").unwrap_err().number(), 16);
/// # Ok::<(), fsq::Refusal>(())
/// ```
pub fn evaluate(text: impl AsRef<[u8]>) -> Result<i32, Refusal> {
    library::evaluate(text.as_ref())
}
