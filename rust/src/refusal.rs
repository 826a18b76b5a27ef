//! The refusals: README.md has the table.

use std::error::Error;
use std::fmt;

use crate::named::{named, UnknownNumber};

/// Makes the enum, and all that is said of each refusal, from one row for each: its number, its
/// name, when it is given, and its place, as in the table of README.md.
macro_rules! refusals {
    ($($number:literal $name:ident: $when:literal, $place:literal;)*) => {
        /// Why a call refuses what it was given. Names and numbers are those of the table in
        /// README.md. The writer alone has no file: there the place is the number of the field for
        /// the refusals 6 to 8, else 0.
        ///
        /// Later versions may have more of them, so a `match` needs an arm for the others.
        #[derive(Clone, Copy, Debug, PartialEq, Eq, Hash)]
        #[non_exhaustive]
        pub enum Reason {
            $(
                #[doc = concat!("Refusal ", $number, ": ", $when, ". Place: ", $place, ".")]
                $name,
            )*
            /// No row of the table: the linked library answered this number, as a refusal, a record
            /// or a kind, and this version of the crate has no name for it. The library of the same
            /// version is proved to answer no such number; another one may.
            Other(UnknownNumber),
        }

        impl Reason {
            /// Every row of the table, by rising numbers.
            ///
            /// ```
            /// use peliranopi::Reason;
            ///
            /// for refusal in Reason::ALL {
            ///     println!("{} {refusal}", refusal.number());
            /// }
            /// assert!(Reason::ALL.contains(&Reason::WrongCheck));
            /// ```
            pub const ALL: &'static [Reason] = &[$(Reason::$name),*];

            /// The number in the table.
            ///
            /// ```
            /// use peliranopi::Reason;
            ///
            /// assert_eq!(Reason::WrongCheck.number(), 18);
            /// ```
            pub fn number(self) -> u32 {
                match self {
                    $(Reason::$name => $number,)*
                    Reason::Other(unknown) => unknown.number(),
                }
            }
        }

        /// When it is given, in the words of the table.
        impl fmt::Display for Reason {
            fn fmt(&self, f: &mut fmt::Formatter<'_>) -> fmt::Result {
                match self {
                    $(Reason::$name => f.write_str($when),)*
                    Reason::Other(unknown) => unknown.fmt(f),
                }
            }
        }
    };
}

refusals! {
    1 FileTooLong: "the file has over 65,535 bytes", "65,535";
    2 NoLineEnd: "a line's first byte that is no text byte is missing or not CR LF, or the offset lies past the file",
        "that byte, or the file's length";
    3 UnknownRecord: "the record type is none of 010 to 060", "line start";
    4 OutOfOrder: "the record may not come here", "line start";
    5 FieldCount: "the line has too few or too many fields", "line start";
    6 FieldTooLong: "a field is wider than it may be", "field start";
    7 FieldEmpty: "a field that must be filled is empty", "field start";
    8 FieldForm: "a filled field does not have its form", "field start";
    9 FeatureLacks: "a feature lacks a field that it needs", "line start";
    10 IdentcodeRepeated: "the identcode stands on an earlier line", "field start";
    11 ListFull: "the lent list has no word for the line", "line start";
    12 FileEnds: "the file ends where a record is due", "file length";
    13 OutputTooShort: "the lent output has too few bytes", "0";
    14 FieldEnds: "the ends of the writer's fields do not fit its text", "0";
    15 NotThere: "there is no such field, line or carry, or it is not a 006 line", "0";
    16 WrongLength: "a number or a day's buffer has a wrong length", "0";
    17 WrongSymbol: "a symbol may not stand where it stands", "first such symbol";
    18 WrongCheck: "the check is wrong", "last symbol; for an IBAN 2";
    19 ContactMissing: "a sender's phone or mail is empty, and this shipment's country is on the lent list",
        "line start";
    20 CountriesOdd: "the lent list of countries has an odd length", "0";
    22 UnknownVersion: "a line call is told a version that is neither 5 nor 7", "0";
}

/// The row of the table with this number.
///
/// ```
/// use peliranopi::Reason;
///
/// assert_eq!(Reason::try_from(18), Ok(Reason::WrongCheck));
/// assert!(Reason::try_from(0).is_err());
/// ```
impl TryFrom<u32> for Reason {
    type Error = UnknownNumber;

    fn try_from(number: u32) -> Result<Reason, UnknownNumber> {
        named(Reason::ALL, Reason::number, number)
    }
}

/// A call's refusal: why, and where.
///
/// ```
/// use peliranopi::{check_iban, Reason};
///
/// let refused = check_iban(b"AT161904300234573201").unwrap_err();
/// assert_eq!((refused.why, refused.place), (Reason::WrongCheck, 2));
/// assert_eq!(refused.to_string(), "refusal 18 at 2: the check is wrong");
/// ```
#[derive(Clone, Copy, Debug, PartialEq, Eq, Hash)]
pub struct Refusal {
    /// Why the call refuses.
    pub why: Reason,
    /// Where: a byte of the file, of the number, of the IBAN or of the identcode; when writing, the
    /// field's number.
    pub place: usize,
}

impl fmt::Display for Refusal {
    fn fmt(&self, f: &mut fmt::Formatter<'_>) -> fmt::Result {
        let Refusal { why, place } = self;
        match why {
            Reason::Other(unknown) => {
                write!(f, "another library answered at {place}: {unknown}")
            }
            _ => write!(f, "refusal {} at {place}: {why}", why.number()),
        }
    }
}

impl Error for Refusal {}

/// An answer that has no name is handed on as a refusal, at 0.
impl From<UnknownNumber> for Refusal {
    fn from(unknown: UnknownNumber) -> Refusal {
        let why = Reason::Other(unknown);
        Refusal { why, place: 0 }
    }
}

/// What a call's number means: 0 accepts, every other refuses at the place.
pub(crate) fn accepted(number: u32, place: usize) -> Result<(), Refusal> {
    if number == 0 {
        return Ok(());
    }
    let why = Reason::try_from(number).unwrap_or_else(Reason::Other);
    Err(Refusal { why, place })
}

#[cfg(test)]
mod tests {
    use super::*;

    #[test]
    fn a_number_of_another_library_is_an_error_too() {
        assert_eq!(accepted(0, 0), Ok(()));
        let refused = accepted(1_000, 7).unwrap_err();
        assert_eq!((refused.why.number(), refused.place), (1_000, 7));
        assert!(matches!(refused.why, Reason::Other(_)));
    }
}
