//! The limits, by the names that c/peliranopi.h has for them. Lengths are in bytes.

/// The most bytes that a file may have. A longer one is refused by
/// [`FileTooLong`](crate::Reason::FileTooLong).
pub const FILE_LEN_MAX: usize = 65_535;

/// More lines than this no accepted file has: a list with so many words is never full.
///
/// The shortest 050 line has 7 bytes, and each stands behind a 040 line of its own, which has 30 or
/// more; every other line has 18 or more. So lines have 18 bytes or more on average.
pub const LINES_MAX: usize = FILE_LEN_MAX / 18;

/// The most bytes that a payment purpose has, and the fewest that the output for it must have.
pub const PURPOSE_LEN_MAX: usize = 35;

/// The symbols of a tracking number: a body of 14, and the check.
pub const TRACKING_LEN: usize = 15;

/// The symbols of a label code: a body of 27, and the check.
pub const LABEL_LEN: usize = 28;

/// The fewest symbols that an IBAN has.
pub const IBAN_LEN_MIN: usize = 15;

/// The most symbols that an IBAN has.
pub const IBAN_LEN_MAX: usize = 34;

/// The digits of an identcode: a body of 21, and the check digit.
pub const IDENTCODE_LEN: usize = 22;
