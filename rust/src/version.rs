//! The versions of a file.

use crate::file::{read_line, Line, Record};
use crate::named::{named, UnknownNumber};

/// The version of a file, which its header has in 010.6. It decides how wide each field may be and
/// which must be filled; docs/fields.txt has both tables.
///
/// [`judge`](crate::judge) and [`write_purpose`](crate::write_purpose) find it themselves. The calls on
/// one line are told it, and a header line must have it: [`read_line`],
/// [`find_field`](crate::find_field), [`find_fields`](crate::find_fields) and
/// [`write_line`](crate::write_line).
#[derive(Clone, Copy, Debug, PartialEq, Eq, Hash)]
pub enum Version {
    /// `5` in 010.6. A header with neither is judged as this one, too, and refused.
    Five = 5,
    /// `7` in 010.6.
    Seven = 7,
}

impl Version {
    /// Both, by rising numbers.
    ///
    /// ```
    /// use peliranopi::Version;
    ///
    /// assert_eq!(Version::ALL, [Version::Five, Version::Seven]);
    /// ```
    pub const ALL: &'static [Version] = &[Version::Five, Version::Seven];

    /// The version as a number.
    ///
    /// ```
    /// use peliranopi::Version;
    ///
    /// assert_eq!(Version::Seven.number(), 7);
    /// ```
    pub fn number(self) -> u32 {
        self as u32
    }

    /// The version of a file that [`judge`](crate::judge) accepts: the one whose rules it was judged
    /// by, and under which each of its lines is accepted alone.
    ///
    /// It asks the proved reader, which accepts the first line of an accepted file under one version
    /// alone, because the line has that in 010.6. Of a file that is not accepted this says less:
    /// [`Seven`](Version::Seven) exactly where its first line is a header line that version 7 accepts.
    ///
    /// ```
    /// use peliranopi::{find_field, judge, Version};
    ///
    /// let file = include_bytes!("../../examples/preadvice-7.csv");
    /// let mut list = [0; 8];
    /// judge(file, b"", &mut list)?;
    /// let version = Version::of(file);
    /// assert_eq!(version, Version::Seven);
    /// let parcel_type = find_field(version, file, list[3] as usize, 4)?;
    /// assert_eq!(&file[parcel_type], b"C");
    /// # Ok::<(), peliranopi::Refusal>(())
    /// ```
    pub fn of(file: &[u8]) -> Version {
        match read_line(Version::Seven, file, 0) {
            Ok(Line {
                record: Record::Header,
                ..
            }) => Version::Seven,
            _ => Version::Five,
        }
    }
}

/// The version with this number.
///
/// ```
/// use peliranopi::Version;
///
/// assert_eq!(Version::try_from(7), Ok(Version::Seven));
/// assert!(Version::try_from(6).is_err());
/// ```
impl TryFrom<u32> for Version {
    type Error = UnknownNumber;

    fn try_from(number: u32) -> Result<Version, UnknownNumber> {
        named(Version::ALL, Version::number, number)
    }
}
