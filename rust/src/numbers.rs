//! DPD numbers and IBANs.

use peliranopi_sys as sys;

use crate::named::{named, UnknownNumber};
use crate::refusal::{accepted, Refusal};

/// The kinds of DPD number.
#[derive(Clone, Copy, Debug, PartialEq, Eq, Hash)]
pub enum Kind {
    /// A tracking number: 14 digits and a check.
    Tracking = 1,
    /// A label code: 27 symbols and a check.
    Label = 2,
}

impl Kind {
    /// Both, by rising numbers.
    ///
    /// ```
    /// use peliranopi::Kind;
    ///
    /// assert_eq!(Kind::ALL, [Kind::Tracking, Kind::Label]);
    /// ```
    pub const ALL: &'static [Kind] = &[Kind::Tracking, Kind::Label];

    /// The number that the library has for it.
    ///
    /// ```
    /// use peliranopi::Kind;
    ///
    /// assert_eq!(Kind::Label.number(), 2);
    /// ```
    pub fn number(self) -> u32 {
        self as u32
    }
}

/// The kind with this number.
///
/// ```
/// use peliranopi::Kind;
///
/// assert_eq!(Kind::try_from(2), Ok(Kind::Label));
/// assert!(Kind::try_from(3).is_err());
/// ```
impl TryFrom<u32> for Kind {
    type Error = UnknownNumber;

    fn try_from(number: u32) -> Result<Kind, UnknownNumber> {
        named(Kind::ALL, Kind::number, number)
    }
}

/// Checks a tracking number (15 symbols) or a label code (28). The length tells the kind.
///
/// ```
/// use peliranopi::{check_number, Kind};
///
/// assert_eq!(check_number(b"09980000020041F"), Ok(Kind::Tracking));
/// assert_eq!(check_number(b"0002800099800000200371550566"), Ok(Kind::Label));
/// let refused = check_number(b"09980000020041f").unwrap_err();
/// assert_eq!((refused.why.number(), refused.place), (17, 14));
/// ```
pub fn check_number(symbols: &[u8]) -> Result<Kind, Refusal> {
    let (mut kind, mut place) = (0, 0);
    // SAFETY: the symbols' pointer comes with their length; the others point to one local number
    // each.
    let number = unsafe {
        sys::peliranopi_check_number(symbols.as_ptr(), symbols.len(), &mut kind, &mut place)
    };
    accepted(number, place)?;
    Ok(Kind::try_from(kind)?)
}

/// Issues the number that has this body (14 or 27 symbols): writes body and check at the output's
/// start, and answers how many bytes that are, 15 or 28.
///
/// Every other byte of the output stays as it was; on a refusal all of them do.
///
/// ```
/// let mut output = [0; 15];
/// assert_eq!(peliranopi::issue_number(b"09980000020041", &mut output)?, 15);
/// assert_eq!(&output, b"09980000020041F");
/// # Ok::<(), peliranopi::Refusal>(())
/// ```
pub fn issue_number(body: &[u8], output: &mut [u8]) -> Result<usize, Refusal> {
    let (mut written, mut place) = (0, 0);
    // SAFETY: each pointer comes with the length of its own slice or points to one local number;
    // the output and the numbers are borrowed for this call alone.
    let number = unsafe {
        sys::peliranopi_issue_number(
            body.as_ptr(),
            body.len(),
            output.as_mut_ptr(),
            output.len(),
            &mut written,
            &mut place,
        )
    };
    accepted(number, place)?;
    Ok(written)
}

/// Checks an IBAN: its length, its symbols and its check digits.
///
/// ```
/// assert_eq!(peliranopi::check_iban(b"AT611904300234573201"), Ok(()));
/// let refused = peliranopi::check_iban(b"AT161904300234573201").unwrap_err();
/// assert_eq!((refused.why.number(), refused.place), (18, 2));
/// ```
pub fn check_iban(symbols: &[u8]) -> Result<(), Refusal> {
    let mut place = 0;
    // SAFETY: the symbols' pointer comes with their length; the other points to a local number.
    let number = unsafe { sys::peliranopi_check_iban(symbols.as_ptr(), symbols.len(), &mut place) };
    accepted(number, place)
}
