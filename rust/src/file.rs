//! Files and their lines: judging, reading, writing, and the payment purpose.

use std::ops::Range;

use peliranopi_sys as sys;

use crate::named::{named, UnknownNumber};
use crate::refusal::{accepted, Refusal};
use crate::version::Version;

/// What an accepted file holds.
#[derive(Clone, Copy, Debug, PartialEq, Eq, Hash)]
pub struct Totals {
    /// How many lines.
    pub lines: usize,
    /// How many parcels, which are the 040 lines.
    pub parcels: usize,
    /// The cash to collect, in cents of euro.
    pub cents: u64,
}

/// The records of a pre-advice file.
#[derive(Clone, Copy, Debug, PartialEq, Eq, Hash)]
pub enum Record {
    /// 010, the first line.
    Header = 10,
    /// 020, who sends.
    Sender = 20,
    /// 030, one shipment and its receiver.
    Shipment = 30,
    /// 040, one parcel of the shipment.
    Parcel = 40,
    /// 050, the product.
    Product = 50,
    /// 060, a feature of the product, for example cash on delivery.
    Feature = 60,
}

impl Record {
    /// All six, by rising numbers.
    ///
    /// ```
    /// use peliranopi::Record;
    ///
    /// assert_eq!(Record::ALL.len(), 6);
    /// ```
    pub const ALL: &'static [Record] = &[
        Record::Header,
        Record::Sender,
        Record::Shipment,
        Record::Parcel,
        Record::Product,
        Record::Feature,
    ];

    /// The record type as a number: 10 for 010, up to 60. The writer takes it.
    ///
    /// ```
    /// use peliranopi::Record;
    ///
    /// assert_eq!(Record::Parcel.number(), 40);
    /// ```
    pub fn number(self) -> u32 {
        self as u32
    }
}

/// The record with this number.
///
/// ```
/// use peliranopi::Record;
///
/// assert_eq!(Record::try_from(40), Ok(Record::Parcel));
/// assert!(Record::try_from(41).is_err());
/// ```
impl TryFrom<u32> for Record {
    type Error = UnknownNumber;

    fn try_from(number: u32) -> Result<Record, UnknownNumber> {
        named(Record::ALL, Record::number, number)
    }
}

/// What one line is.
#[derive(Clone, Copy, Debug, PartialEq, Eq, Hash)]
pub struct Line {
    /// Its record.
    pub record: Record,
    /// How many fields it has behind the record type.
    pub fields: usize,
    /// Where the next line starts, or the file's length.
    pub next: usize,
}

/// Judges a whole file, by the rules of the version on its header.
///
/// The countries are pairs of capitals, one behind the other. A sender with a shipment to one of
/// them needs phone and mail; under an empty list nobody does. An odd length is a refusal.
///
/// Accepted, word i of the list is where line i starts, for each line, and every other word is 0;
/// refused, all words are 0. A list with too few words for the lines is a refusal;
/// [`LINES_MAX`](crate::LINES_MAX) words are always enough.
///
/// ```
/// let file = include_bytes!("../../examples/preadvice.csv");
/// let mut list = [0; 8];
/// let totals = peliranopi::judge(file, b"", &mut list)?;
/// assert_eq!((totals.lines, totals.parcels, totals.cents), (6, 1, 1250));
/// assert_eq!(list, [0, 74, 116, 178, 208, 216, 0, 0]);
/// # Ok::<(), peliranopi::Refusal>(())
/// ```
///
/// A sender without phone and mail who ships to Austria:
///
/// ```
/// use peliranopi::{judge, Reason};
///
/// let file = include_str!("../../examples/preadvice.csv").replace(";1;1;a@b;", ";1;;;");
/// let mut list = [0; 8];
/// assert!(judge(file.as_bytes(), b"", &mut list).is_ok());
/// assert!(judge(file.as_bytes(), b"CHGBUS", &mut list).is_ok());
/// let refused = judge(file.as_bytes(), b"CHAT", &mut list).unwrap_err();
/// assert_eq!((refused.why, refused.place), (Reason::ContactMissing, 112));
/// ```
pub fn judge(file: &[u8], countries: &[u8], list: &mut [u32]) -> Result<Totals, Refusal> {
    let (mut lines, mut parcels, mut cents, mut place) = (0, 0, 0, 0);
    // SAFETY: each pointer comes with the length of its own slice or points to one local number;
    // the list and the numbers are borrowed for this call alone.
    let number = unsafe {
        sys::peliranopi_judge(
            file.as_ptr(),
            file.len(),
            countries.as_ptr(),
            countries.len(),
            list.as_mut_ptr(),
            list.len(),
            &mut lines,
            &mut parcels,
            &mut cents,
            &mut place,
        )
    };
    accepted(number, place)?;
    Ok(Totals {
        lines,
        parcels,
        cents,
    })
}

/// Judges the line that starts at the offset, alone: not its order, not its identcode against
/// others, and not whether a sender needs phone and mail. The rules are those of the version, which a
/// header line must have; [`Version::of`] tells that of an accepted file.
///
/// ```
/// use peliranopi::{read_line, Record, Version};
///
/// let file = include_bytes!("../../examples/preadvice.csv");
/// let line = read_line(Version::Five, file, 178)?;
/// assert_eq!((line.record, line.fields, line.next), (Record::Parcel, 3, 208));
/// # Ok::<(), peliranopi::Refusal>(())
/// ```
///
/// A product code of three bytes, which version 7 does not have:
///
/// ```
/// use peliranopi::{read_line, Reason, Version};
///
/// assert!(read_line(Version::Five, b"050;010\r\n", 0).is_ok());
/// let refused = read_line(Version::Seven, b"050;010\r\n", 0).unwrap_err();
/// assert_eq!((refused.why, refused.place), (Reason::FieldTooLong, 4));
/// ```
pub fn read_line(version: Version, file: &[u8], offset: usize) -> Result<Line, Refusal> {
    let (mut record, mut fields, mut next, mut place) = (0, 0, 0, 0);
    // SAFETY: the file's pointer comes with its length; the others point to one local number each.
    let number = unsafe {
        sys::peliranopi_read_line(
            version.number(),
            file.as_ptr(),
            file.len(),
            offset,
            &mut record,
            &mut fields,
            &mut next,
            &mut place,
        )
    };
    accepted(number, place)?;
    Ok(Line {
        record: Record::try_from(record)?,
        fields,
        next,
    })
}

/// Finds the field with this number, counted from 1, of the line that starts at the offset. The
/// answer is its part of the file, which may be empty. The line is judged as by [`read_line`], at
/// each call anew: [`find_fields`](crate::find_fields) gives all fields of a line at once.
///
/// ```
/// use peliranopi::{find_field, Version};
///
/// let file = include_bytes!("../../examples/preadvice.csv");
/// let identcode = find_field(Version::Five, file, 178, 1)?;
/// assert_eq!(&file[identcode], b"1000000000000000000007");
/// # Ok::<(), peliranopi::Refusal>(())
/// ```
pub fn find_field(
    version: Version,
    file: &[u8],
    offset: usize,
    number: usize,
) -> Result<Range<usize>, Refusal> {
    let (mut start, mut length, mut place) = (0, 0, 0);
    // SAFETY: the file's pointer comes with its length; the others point to one local number each.
    let refusal = unsafe {
        sys::peliranopi_find_field(
            version.number(),
            file.as_ptr(),
            file.len(),
            offset,
            number,
            &mut start,
            &mut length,
            &mut place,
        )
    };
    accepted(refusal, place)?;
    Ok(start..start.saturating_add(length))
}

/// Writes one line into the output from the fill on, and answers how many bytes it has. The rules
/// are those of the version, which a header line must have. The record is a number
/// ([`Record::number`]), the text holds all fields joined, and the ends say where each of them ends in
/// it.
///
/// Every other byte of the output stays as it was; on a refusal all of them do.
///
/// ```
/// use peliranopi::{write_line, Record, Version};
///
/// let mut output = [b'.'; 12];
/// let product = Record::Product.number();
/// let written = write_line(Version::Five, product, b"10", &[2], &mut output, 3)?;
/// assert_eq!(written, 8);
/// assert_eq!(&output, b"...050;10\r\n.");
/// # Ok::<(), peliranopi::Refusal>(())
/// ```
pub fn write_line(
    version: Version,
    record: u32,
    text: &[u8],
    ends: &[usize],
    output: &mut [u8],
    fill: usize,
) -> Result<usize, Refusal> {
    let (mut written, mut place) = (0, 0);
    // SAFETY: each pointer comes with the length of its own slice or points to one local number;
    // the output and the numbers are borrowed for this call alone.
    let number = unsafe {
        sys::peliranopi_write_line(
            version.number(),
            record,
            text.as_ptr(),
            text.len(),
            ends.as_ptr(),
            ends.len(),
            output.as_mut_ptr(),
            output.len(),
            fill,
            &mut written,
            &mut place,
        )
    };
    accepted(number, place)?;
    Ok(written)
}

/// Writes the payment purpose of the cash line with this number, counted from 0, at the output's
/// start, and answers how many bytes it has: at most [`PURPOSE_LEN_MAX`](crate::PURPOSE_LEN_MAX),
/// and the output must have so many or more.
///
/// The file is judged first, and the countries and the list are lent as for [`judge`]; here too the
/// list's words are all 0 after a refusal. Every other byte of the output stays as it was; on a
/// refusal all of them do.
///
/// ```
/// let file = include_bytes!("../../examples/preadvice.csv");
/// let (mut list, mut output) = ([0; 8], [0; 35]);
/// let written = peliranopi::write_purpose(file, b"", 5, &mut list, &mut output)?;
/// assert_eq!(&output[..written], b"1000000000000000000007/B");
/// # Ok::<(), peliranopi::Refusal>(())
/// ```
pub fn write_purpose(
    file: &[u8],
    countries: &[u8],
    line: usize,
    list: &mut [u32],
    output: &mut [u8],
) -> Result<usize, Refusal> {
    let (mut written, mut place) = (0, 0);
    // SAFETY: each pointer comes with the length of its own slice or points to one local number;
    // the list, the output and the numbers are borrowed for this call alone.
    let number = unsafe {
        sys::peliranopi_write_purpose(
            file.as_ptr(),
            file.len(),
            countries.as_ptr(),
            countries.len(),
            line,
            list.as_mut_ptr(),
            list.len(),
            output.as_mut_ptr(),
            output.len(),
            &mut written,
            &mut place,
        )
    };
    accepted(number, place)?;
    Ok(written)
}
