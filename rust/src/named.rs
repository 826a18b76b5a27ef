//! The library answers by numbers; this goes from a number to its name.

use std::error::Error;
use std::fmt;

/// A number that names no refusal, no version of a file, no record or no kind in this version of the
/// crate.
///
/// ```
/// use peliranopi::Record;
///
/// let unknown = Record::try_from(41).unwrap_err();
/// assert_eq!(unknown.number(), 41);
/// assert_eq!(unknown.to_string(), "the number 41 has no name in this version");
/// ```
#[derive(Clone, Copy, Debug, PartialEq, Eq, Hash)]
pub struct UnknownNumber(u32);

impl UnknownNumber {
    /// The number.
    pub fn number(self) -> u32 {
        self.0
    }
}

impl fmt::Display for UnknownNumber {
    fn fmt(&self, f: &mut fmt::Formatter<'_>) -> fmt::Result {
        write!(f, "the number {} has no name in this version", self.0)
    }
}

impl Error for UnknownNumber {}

/// The one of these that has the number.
pub(crate) fn named<T: Copy>(
    all: &[T],
    number_of: fn(T) -> u32,
    number: u32,
) -> Result<T, UnknownNumber> {
    let found = all.iter().copied().find(|one| number_of(*one) == number);
    found.ok_or(UnknownNumber(number))
}
