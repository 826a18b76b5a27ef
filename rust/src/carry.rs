//! The carry of a DPD number, for a caller who takes it key by key (ISO/IEC 7064, MOD 37,36).

use peliranopi_sys as sys;

use crate::refusal::{accepted, Refusal};

/// The carry before a number's first symbol.
pub const CARRY_START: u32 = 36;

/// The carry behind the last symbol of a number that passes.
pub const CARRY_PASSED: u32 = 2;

/// The carry after one more symbol, 1 to 36.
///
/// The first call is given [`CARRY_START`], each later one the carry that the call before it gave.
/// A number of the right shape passes exactly where the carry behind its last symbol is
/// [`CARRY_PASSED`].
///
/// A number as it is typed, and its last key in small letters:
///
/// ```
/// use peliranopi::{next_carry, Reason, CARRY_PASSED, CARRY_START};
///
/// let keys = b"09980000020041";
/// let carry = keys.iter().try_fold(CARRY_START, |carry, key| next_carry(carry, *key))?;
/// assert_eq!(next_carry(carry, b'F')?, CARRY_PASSED);
/// assert_ne!(next_carry(carry, b'E')?, CARRY_PASSED);
///
/// // The call sees one key, at 0. The carry stays, and the key can be typed again.
/// let refused = next_carry(carry, b'f').unwrap_err();
/// assert_eq!((refused.why, refused.place), (Reason::WrongSymbol, 0));
/// # Ok::<(), peliranopi::Refusal>(())
/// ```
///
/// What is no carry is refused before the key is looked at:
///
/// ```
/// use peliranopi::{next_carry, Reason};
///
/// for carry in [0, 37] {
///     let refused = next_carry(carry, b'f').unwrap_err();
///     assert_eq!((refused.why, refused.place), (Reason::NotThere, 0));
/// }
/// ```
pub fn next_carry(carry: u32, key: u8) -> Result<u32, Refusal> {
    let (mut next, mut place) = (0, 0);
    // SAFETY: both pointers point to one local number each.
    let number = unsafe { sys::peliranopi_next_carry(carry, key, &mut next, &mut place) };
    accepted(number, place)?;
    Ok(next)
}
