//! Identcodes (document 000, section 4.1, for document 02, request 2): six parts, the last of which
//! is a check digit.

use std::ops::Range;

use crate::{refuse, Refusal};

/// Where each part stands, the first place being 0.
#[derive(Clone, Debug, PartialEq, Eq, Hash)]
pub struct Parts {
    pub origin: Range<usize>,
    pub customer: Range<usize>,
    pub sequence: Range<usize>,
    pub product: Range<usize>,
    pub destination: Range<usize>,
    pub check: Range<usize>,
}

/// "Alone 16, 17, 18 as for DPD numbers, 18 at the last digit."
pub fn check_identcode(code: &[u8]) -> Result<(), Refusal> {
    digits_of(code, 22)?;
    match code[21] == check_digit(&code[..21]) {
        true => Ok(()),
        false => refuse(18, 21),
    }
}

/// "Read the 22 digits as the six parts of document 000, section 4.1, with its widths." A code that
/// does not pass has none.
pub fn read_identcode(code: &[u8]) -> Result<Parts, Refusal> {
    check_identcode(code)?;
    // 4.1.1 to 4.1.6: "Stelle: 1-2 (N2)" and so on, the first place being 1.
    let places = |first: usize, last: usize| first - 1..last;
    Ok(Parts {
        origin: places(1, 2),
        customer: places(3, 7),
        sequence: places(8, 15),
        product: places(16, 17),
        destination: places(18, 21),
        check: places(22, 22),
    })
}

/// "Issue a code from its parts, joined without the check"; "issuing 16, 17, 13, with nothing
/// written". As for DPD numbers, the answer is how many bytes were written.
pub fn issue_identcode(body: &[u8], out: &mut [u8]) -> Result<usize, Refusal> {
    digits_of(body, 21)?;
    let Some(room) = out.get_mut(..22) else {
        return refuse(13, 0);
    };
    room[..21].copy_from_slice(body);
    room[21] = check_digit(body);
    Ok(22)
}

/// 16 where there are not so many symbols, 17 at the first of them that is no digit.
fn digits_of(symbols: &[u8], count: usize) -> Result<(), Refusal> {
    if symbols.len() != count {
        return refuse(16, 0);
    }
    match symbols.iter().position(|symbol| !symbol.is_ascii_digit()) {
        Some(place) => refuse(17, place),
        None => Ok(()),
    }
}

/// 4.1.6: "Der Gewichtungsfaktor 3,1,3,1 wird mit 3 beginnend mit dem Startzeichen - von links nach
/// rechts - unter der Nutzziffernfolge verteilt. Die Nummern werden mit der jeweiligen Wichtung
/// multipliziert. Danach wird die Summe daraus gebildet und durch 10 dividiert. Der Restwert aus
/// dieser Division wird von 10 abgezogen. Diese Ziffer ergibt die Prüfziffer. (Sollte der Rest 0
/// ergeben, ist die Prüfziffer 0)."
pub(crate) fn check_digit(body: &[u8]) -> u8 {
    let weighted = body.iter().zip([3, 1].into_iter().cycle());
    let sum: u32 = weighted
        .map(|(digit, weight)| u32::from(digit - b'0') * weight)
        .sum();
    let check = match sum % 10 {
        0 => 0,
        rest => 10 - rest,
    };
    b'0' + check as u8
}
