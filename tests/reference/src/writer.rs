//! Writing one line (document 01, 'Writer').

use crate::profile::{is_text, judge_field, needs_are_met, Record};
use crate::version::Version;
use crate::{refuse, Refusal};

/// "Record type as a number (10 for 010, up to 60), one text with all fields joined, a list of
/// field ends, an output and its fill. Order: 3, 14, 5, fields (6, 7, 8), 9, 13." "Place is the
/// field number for 6 to 8, else 0. The line goes at the fill, other output bytes stay; a refusal
/// changes none." "The answer is how many bytes were written." It is a line call, so it is "told the
/// version", and 22 comes before 3.
pub fn write_line(
    version: u32,
    record: u32,
    text: &[u8],
    ends: &[usize],
    out: &mut [u8],
    fill: usize,
) -> Result<usize, Refusal> {
    let version = Version::told(version)?;
    let Some(record) = Record::from_number(record) else {
        return refuse(3, 0);
    };
    // "field ends fall, or the last is not the text's length, or no ends with text"
    let falls = ends.windows(2).any(|pair| pair[1] < pair[0]);
    if falls || ends.last().copied().unwrap_or(0) != text.len() {
        return refuse(14, 0);
    }
    if !record.allows(ends.len()) {
        return refuse(5, 0);
    }
    let field = |number: usize| {
        let start = match number {
            1 => 0,
            _ => ends[number - 2],
        };
        &text[start..ends[number - 1]]
    };
    for number in 1..=ends.len() {
        judge_field(version, record, number, &field).or_else(|refusal| refuse(refusal, number))?;
        // "A semicolon or non-text byte is 8."
        let clean = |byte: &u8| is_text(*byte) && *byte != b';';
        if !field(number).iter().all(clean) {
            return refuse(8, number);
        }
    }
    if !needs_are_met(record, &field) {
        return refuse(9, 0);
    }
    let mut line = record.type_name().to_vec();
    for number in 1..=ends.len() {
        line.push(b';');
        line.extend_from_slice(field(number));
    }
    line.extend_from_slice(b"\r\n");
    // "A fill past the output is 13."
    match out
        .get_mut(fill..)
        .and_then(|room| room.get_mut(..line.len()))
    {
        Some(room) => room.copy_from_slice(&line),
        None => return refuse(13, 0),
    }
    Ok(line.len())
}
