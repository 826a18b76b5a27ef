//! Identcodes, which name a parcel on its label and in its 040 line.

use std::ops::Range;

use peliranopi_sys as sys;

use crate::refusal::{accepted, Refusal};

/// The six parts of an identcode, each as its range in the code; [`read_identcode`] gives them.
#[derive(Clone, Debug, PartialEq, Eq, Hash)]
pub struct IdentcodeParts {
    /// The country it comes from, or the partner: 2 digits.
    pub origin: Range<usize>,
    /// The customer's number: 5 digits.
    pub customer: Range<usize>,
    /// The sequential number: 8 digits.
    pub sequence: Range<usize>,
    /// The code of product and process: 2 digits.
    pub product: Range<usize>,
    /// The post code it goes to, or 0 and the country's number: 4 digits.
    pub destination: Range<usize>,
    /// The check digit.
    pub check: Range<usize>,
}

/// Checks an identcode (22 digits): its length, its digits and its check digit. A 040 line needs one
/// that passes in its field 1.
///
/// A code that was keyed by hand, with the letter O for a zero, and with a digit that is wrong:
///
/// ```
/// use peliranopi::{check_identcode, Reason};
///
/// assert_eq!(check_identcode(b"1012345123456781212349"), Ok(()));
/// let refused = check_identcode(b"1O12345123456781212349").unwrap_err();
/// assert_eq!((refused.why, refused.place), (Reason::WrongSymbol, 1));
/// let refused = check_identcode(b"1012346123456781212349").unwrap_err();
/// assert_eq!((refused.why, refused.place), (Reason::WrongCheck, 21));
/// ```
pub fn check_identcode(code: &[u8]) -> Result<(), Refusal> {
    let mut place = 0;
    // SAFETY: the code's pointer comes with its length; the other points to a local number.
    let number = unsafe { sys::peliranopi_check_identcode(code.as_ptr(), code.len(), &mut place) };
    accepted(number, place)
}

/// Checks an identcode as [`check_identcode`] does, and gives its parts.
///
/// ```
/// let code = b"1012345123456781212349";
/// let parts = peliranopi::read_identcode(code)?;
/// assert_eq!(&code[parts.customer], b"12345");
/// assert_eq!(&code[parts.destination], b"1234");
/// # Ok::<(), peliranopi::Refusal>(())
/// ```
pub fn read_identcode(code: &[u8]) -> Result<IdentcodeParts, Refusal> {
    let (mut parts, mut place) = (sys::peliranopi_identcode_parts::default(), 0);
    // SAFETY: the code's pointer comes with its length; the others point to one local each.
    let number = unsafe {
        sys::peliranopi_read_identcode(code.as_ptr(), code.len(), &mut parts, &mut place)
    };
    accepted(number, place)?;
    Ok(IdentcodeParts {
        origin: range(parts.origin),
        customer: range(parts.customer),
        sequence: range(parts.sequence),
        product: range(parts.product),
        destination: range(parts.destination),
        check: range(parts.check),
    })
}

/// A part as a range. Should another library be linked that tells nonsense, it ends at the last
/// number there is: nothing panics.
fn range(part: sys::peliranopi_part) -> Range<usize> {
    part.start..part.start.saturating_add(part.length)
}

/// Issues the identcode that has this body, which is its parts without the check, joined (21
/// digits): writes body and check digit at the output's start, and answers how many bytes that is,
/// 22.
///
/// Every other byte of the output stays as it was; on a refusal all of them do.
///
/// ```
/// let (origin, customer, sequence, product, destination) =
///     ("10", "12345", "12345678", "12", "1234");
/// let body = [origin, customer, sequence, product, destination].concat();
/// let mut output = [0; peliranopi::IDENTCODE_LEN];
/// assert_eq!(peliranopi::issue_identcode(body.as_bytes(), &mut output)?, 22);
/// assert_eq!(&output, b"1012345123456781212349");
/// # Ok::<(), peliranopi::Refusal>(())
/// ```
pub fn issue_identcode(body: &[u8], output: &mut [u8]) -> Result<usize, Refusal> {
    let (mut written, mut place) = (0, 0);
    // SAFETY: each pointer comes with the length of its own slice or points to one local number;
    // the output and the numbers are borrowed for this call alone.
    let number = unsafe {
        sys::peliranopi_issue_identcode(
            body.as_ptr(),
            body.len(),
            output.as_mut_ptr(),
            output.len(),
            &mut written,
            &mut place,
        )
    };
    accepted(number, place)?;
    Ok(written)
}
