//! The dispatch core of a carrier desk: judges, reads and writes Austrian Post pre-advice flat
//! files (versions 5 and 7), works out payment purposes, checks, reads and issues identcodes, checks
//! and issues DPD parcel numbers, checks a day's tracking numbers at once, tells the carry key by
//! key, and checks IBANs.
//!
//! These are safe functions over the static library of Peliranopi, which is for x86-64 and whose
//! code is proved. Each takes every input, ends, and answers or refuses; a refusal has its number in
//! the table of README.md and a place. What the caller lends holds after a call what the function
//! says, after a refusal too.
//!
//! None panics. The contracts fix which numbers the library answers; should another library be
//! linked that answers others, they are [`Reason::Other`].
//!
//! ```
//! use peliranopi::{find_fields, judge, Version, LINES_MAX};
//!
//! let file = include_bytes!("../../examples/preadvice.csv");
//! let mut list = [0; LINES_MAX];
//!
//! // No countries are lent, so that no sender needs phone and mail.
//! let totals = judge(file, b"", &mut list)?;
//! assert_eq!((totals.lines, totals.parcels, totals.cents), (6, 1, 1250));
//!
//! // Line 5, counted from 0, is a cash line; field 3 is its amount.
//! let amount = find_fields(Version::of(file), file, list[5] as usize)?.nth(2).unwrap();
//! assert_eq!(&file[amount], b"12.50");
//!
//! let refused = judge(&file[..200], b"", &mut list).unwrap_err();
//! assert_eq!(
//!     refused.to_string(),
//!     "refusal 2 at 200: a line's first byte that is no text byte is missing or not CR LF, \
//!      or the offset lies past the file"
//! );
//! # Ok::<(), peliranopi::Refusal>(())
//! ```

#![deny(missing_docs)]
#![deny(unsafe_op_in_unsafe_fn)]

mod carry;
mod day;
mod fields;
mod file;
mod identcode;
mod limits;
mod named;
mod numbers;
mod refusal;
mod version;

pub use carry::{next_carry, CARRY_PASSED, CARRY_START};
pub use day::{check_each, check_numbers, Answers, AnswersIntoIter, AnswersIter};
pub use fields::{find_fields, Fields};
pub use file::{find_field, judge, read_line, write_line, write_purpose, Line, Record, Totals};
pub use identcode::{check_identcode, issue_identcode, read_identcode, IdentcodeParts};
pub use limits::{
    FILE_LEN_MAX, IBAN_LEN_MAX, IBAN_LEN_MIN, IDENTCODE_LEN, LABEL_LEN, LINES_MAX, PURPOSE_LEN_MAX,
    TRACKING_LEN,
};
pub use named::UnknownNumber;
pub use numbers::{check_iban, check_number, issue_number, Kind};
pub use peliranopi_sys as sys;
pub use refusal::{Reason, Refusal};
pub use version::Version;
