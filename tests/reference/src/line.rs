//! One line and one field (document 01, 'The file' and 'One line').

use std::ops::Range;

use crate::profile::{is_text, judge_field, needs_are_met, Record, LIMIT};
use crate::version::Version;
use crate::{refuse, Refusal};

/// "The answer names the record kind, the field count and where the next line starts."
#[derive(Clone, Copy, Debug, PartialEq, Eq, Hash)]
pub struct Line {
    /// 10 for 010, up to 60.
    pub record: u32,
    pub fields: usize,
    pub next: usize,
}

/// "One line at an offset, judged alone (1, 2, 3, 5 to 9)." "Line calls are told the version": 22 for
/// another "before all others".
pub fn read_line(version: u32, file: &[u8], offset: usize) -> Result<Line, Refusal> {
    let (record, parts) = parts_of_line(version, file, offset)?;
    let end = parts[parts.len() - 1].end;
    Ok(Line {
        record: record.number(),
        fields: parts.len() - 1,
        next: end + 2,
    })
}

/// "One field adds a field number, then 15 for 0 or above the count, and answers start and length."
pub fn find_field(
    version: u32,
    file: &[u8],
    offset: usize,
    number: usize,
) -> Result<(usize, usize), Refusal> {
    let (_, parts) = parts_of_line(version, file, offset)?;
    match parts.get(number) {
        Some(part) if number != 0 => Ok((part.start, part.len())),
        _ => refuse(15, 0),
    }
}

/// A line's record and its parts: the record type, then the fields, so that a field's number is its
/// place in the list.
fn parts_of_line(
    version: u32,
    file: &[u8],
    offset: usize,
) -> Result<(Record, Vec<Range<usize>>), Refusal> {
    let version = Version::told(version)?;
    within_limit(file)?;
    let end = line_end(file, offset)?;
    let record = record_of(file, offset, end)?;
    let parts = judged_parts(version, file, offset, end, record)?;
    Ok((record, parts))
}

/// "file over 65,535 bytes" is 1 at 65,535.
pub(crate) fn within_limit(file: &[u8]) -> Result<(), Refusal> {
    if file.len() > LIMIT {
        return refuse(1, LIMIT);
    }
    Ok(())
}

/// "A line runs to its first other byte, which must be CR followed by LF." Answers where the CR is.
/// An offset past the file is 2 at the file's length.
pub(crate) fn line_end(file: &[u8], offset: usize) -> Result<usize, Refusal> {
    let rest = file.get(offset..).unwrap_or(&[]);
    match rest.iter().position(|byte| !is_text(*byte)) {
        Some(length) if rest[length..].starts_with(b"\r\n") => Ok(offset + length),
        Some(length) => refuse(2, offset + length),
        None => refuse(2, file.len()),
    }
}

/// "unknown record type" is 3 at the line's start.
pub(crate) fn record_of(file: &[u8], offset: usize, end: usize) -> Result<Record, Refusal> {
    let name = file[offset..end].split(|byte| *byte == b';').next();
    match name.and_then(Record::from_type) {
        Some(record) => Ok(record),
        None => refuse(3, offset),
    }
}

/// The parts of a line after 5, "then the fields from left to right (6, 7, 8 for each), then 9".
pub(crate) fn judged_parts(
    version: Version,
    file: &[u8],
    offset: usize,
    end: usize,
    record: Record,
) -> Result<Vec<Range<usize>>, Refusal> {
    let line = &file[offset..end];
    let count = line.iter().filter(|byte| **byte == b';').count();
    if !record.allows(count) {
        return refuse(5, offset);
    }
    let mut parts = Vec::with_capacity(count + 1);
    let mut start = offset;
    // "Semicolons divide fields; nothing quotes them."
    for part in line.split(|byte| *byte == b';') {
        parts.push(start..start + part.len());
        start += part.len() + 1;
    }
    let field = |number: usize| &file[parts[number].clone()];
    for (number, part) in parts.iter().enumerate().skip(1) {
        judge_field(version, record, number, &field)
            .or_else(|refusal| refuse(refusal, part.start))?;
    }
    if !needs_are_met(record, &field) {
        return refuse(9, offset);
    }
    Ok(parts)
}
