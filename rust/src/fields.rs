//! All fields of a line at once.

use std::iter::FusedIterator;
use std::ops::Range;

use crate::file::{read_line, Line};
use crate::refusal::Refusal;
use crate::version::Version;

/// Judges the line that starts at the offset, as [`read_line`] does, and gives its fields in their
/// order, each as its part of the file. The line is judged once, however many fields it has.
///
/// The n-th of them is what [`find_field`](crate::find_field) finds under the number n: the proved
/// reader divides an accepted line at its semicolons, and nothing quotes one. So its text in front
/// of CR LF, cut at every semicolon, is the record type and the fields. This cut is not proved;
/// tests hold it against `find_field`, for every field of every stored line and of generated ones.
///
/// ```
/// use peliranopi::{find_fields, Version};
///
/// let file = include_bytes!("../../examples/preadvice.csv");
/// let mut fields = find_fields(Version::Five, file, 216)?.map(|field| &file[field]);
/// assert_eq!(fields.len(), 10);
/// assert_eq!(fields.next(), Some(&b"006"[..]));
/// # Ok::<(), peliranopi::Refusal>(())
/// ```
pub fn find_fields(version: Version, file: &[u8], offset: usize) -> Result<Fields<'_>, Refusal> {
    let line = read_line(version, file, offset)?;
    let end = line.next.saturating_sub(b"\r\n".len());
    let mut fields = Fields {
        line,
        rest: file.get(offset..end).unwrap_or_default(),
        end,
        left: line.fields,
    };
    fields.next_part(); // the record type
    Ok(fields)
}

/// The fields of an accepted line, each as its part of the file; [`find_fields`] gives them.
#[derive(Clone, Debug)]
pub struct Fields<'a> {
    line: Line,
    /// What is left of the line's text, and where in the file that ends.
    rest: &'a [u8],
    end: usize,
    /// How many fields are left.
    left: usize,
}

impl Fields<'_> {
    /// What [`read_line`] answers of the line.
    ///
    /// ```
    /// use peliranopi::{find_fields, Record, Version};
    ///
    /// let file = include_bytes!("../../examples/preadvice.csv");
    /// let line = find_fields(Version::Five, file, 178)?.line();
    /// assert_eq!((line.record, line.fields, line.next), (Record::Parcel, 3, 208));
    /// # Ok::<(), peliranopi::Refusal>(())
    /// ```
    pub fn line(&self) -> Line {
        self.line
    }

    /// The part in front of the next semicolon, or all that is left; goes on behind it.
    fn next_part(&mut self) -> Range<usize> {
        let start = self.end - self.rest.len();
        let semicolon = self.rest.iter().position(|byte| *byte == b';');
        let length = semicolon.unwrap_or(self.rest.len());
        self.rest = self.rest.get(length + 1..).unwrap_or_default();
        start..start + length
    }
}

impl Iterator for Fields<'_> {
    type Item = Range<usize>;

    fn next(&mut self) -> Option<Range<usize>> {
        self.left = self.left.checked_sub(1)?;
        Some(self.next_part())
    }

    fn size_hint(&self) -> (usize, Option<usize>) {
        (self.left, Some(self.left))
    }
}

impl ExactSizeIterator for Fields<'_> {}

impl FusedIterator for Fields<'_> {}
