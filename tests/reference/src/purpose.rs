//! The payment purpose of a cash line (document 01, 'Payment purpose'; 000, 5.6.4).

use crate::file::judge;
use crate::line::find_field;
use crate::version::Version;
use crate::{refuse, Refusal};

/// "The first 35 bytes count", and an "output under 35" is 13.
const MOST: usize = 35;

/// "Payment purpose of the line with a given number in an accepted file, list lent as for the whole
/// file", and the countries as well. "Order: the file's refusals, 15, 13 (output under 35). The
/// output's other bytes stay, and all of them on a refusal; the list's words are all 0 after 15 or
/// 13 too."
pub fn purpose(
    file: &[u8],
    countries: &[u8],
    line: usize,
    list: &mut [u32],
    out: &mut [u8],
) -> Result<usize, Refusal> {
    let totals = judge(file, countries, list)?;
    let Some(text) = purpose_text(file, line, &list[..totals.lines]) else {
        list.fill(0);
        return refuse(15, 0);
    };
    if out.len() < MOST {
        list.fill(0);
        return refuse(13, 0);
    }
    let length = text.len().min(MOST);
    out[..length].copy_from_slice(&text[..length]);
    Ok(length)
}

/// "For a 006 line: 060.8 if filled; else the first filled of 030.1, 030.34, 030.36 and field 3 of
/// the shipment's first 040; else that 040's field 1, `/`, 030.16." None for any other line.
fn purpose_text(file: &[u8], line: usize, starts: &[u32]) -> Option<Vec<u8>> {
    let version = Version::of_file(file).number();
    let field = |line: usize, number: usize| {
        let (start, length) = find_field(version, file, starts[line] as usize, number)
            .expect("the line was accepted and has this field");
        &file[start..start + length]
    };
    let is_record = |line: usize, name: &[u8]| file[starts[line] as usize..].starts_with(name);
    if line >= starts.len() || !is_record(line, b"060") || field(line, 1) != b"006" {
        return None;
    }
    // "The shipment is the nearest 030 above." The order puts its first 040 on the next line.
    let shipment = (0..line)
        .rev()
        .find(|above| is_record(*above, b"030"))
        .expect("every 060 stands below a 030");
    let parcel = shipment + 1;
    let sources = [
        field(line, 8),
        field(shipment, 1),
        field(shipment, 34),
        field(shipment, 36),
        field(parcel, 3),
    ];
    match sources.into_iter().find(|source| !source.is_empty()) {
        Some(source) => Some(source.to_vec()),
        None => Some([field(parcel, 1), field(shipment, 16)].join(&b'/')),
    }
}
