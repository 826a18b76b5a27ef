//! Tracking numbers, label codes and IBANs (document 01, 'Check characters').

use crate::{refuse, Refusal};

/// "One call checks both, the length (15 or 28) telling the kind."
#[derive(Clone, Copy, Debug, PartialEq, Eq, Hash)]
pub enum Kind {
    Tracking,
    Label,
}

/// "Digits have values 0 to 9, A to Z 10 to 35": a symbol's value is its place here.
const SYMBOLS: &[u8; 36] = b"0123456789ABCDEFGHIJKLMNOPQRSTUVWXYZ";

/// "Checking a number or an IBAN refuses in the order 16, 17, 18."
pub fn check_number(number: &[u8]) -> Result<Kind, Refusal> {
    let kind = match number.len() {
        15 => Kind::Tracking,
        28 => Kind::Label,
        _ => return refuse(16, 0),
    };
    first_wrong_symbol(kind, number)?;
    let last = number.len() - 1;
    if !check_fits(carry(&number[..last]), number[last]) {
        return refuse(18, last);
    }
    Ok(kind)
}

/// "Tracking numbers into one buffer, 15 bytes after 15 bytes. One call answers for all of them, an
/// answer byte each: 0, 17 or 18 as each number would get alone, with the count of zeros returned.
/// Answer bytes past the last number stay. Refusals: 16 if the length is not a multiple of 15, then
/// 13 if there are fewer answer bytes than numbers; either leaves the answers untouched" (document
/// 02, request 6).
pub fn check_numbers(numbers: &[u8], answers: &mut [u8]) -> Result<usize, Refusal> {
    let each = numbers.chunks_exact(15);
    if !each.remainder().is_empty() {
        return refuse(16, 0);
    }
    if answers.len() < each.len() {
        return refuse(13, 0);
    }
    let mut zeros = 0;
    for (number, answer) in each.zip(answers) {
        *answer = match check_number(number) {
            Ok(_) => 0,
            Err(refusal) if refusal.number == 17 => 17,
            Err(_) => 18,
        };
        zeros += usize::from(*answer == 0);
    }
    Ok(zeros)
}

/// "Issuing takes 14 or 27 symbols: 16, 17, then 13; it writes body and check at the output's start
/// and nothing else, and a refusal writes nothing." "The answer is how many bytes were written."
pub fn issue_number(body: &[u8], out: &mut [u8]) -> Result<usize, Refusal> {
    let kind = match body.len() {
        14 => Kind::Tracking,
        27 => Kind::Label,
        _ => return refuse(16, 0),
    };
    first_wrong_symbol(kind, body)?;
    if out.len() < body.len() + 1 {
        return refuse(13, 0);
    }
    let carry = carry(body);
    let check = SYMBOLS
        .iter()
        .copied()
        .find(|symbol| check_fits(carry, *symbol))
        .expect("36 values leave every remainder modulo 36");
    out[..body.len()].copy_from_slice(body);
    out[body.len()] = check;
    Ok(body.len() + 1)
}

/// "The scanning wedge asks for the carry after each keystroke" (document 02, request 4). Outside 1
/// to 36 there is "no such" carry: 15. Then "symbol not allowed at its place": 17. Both are at 0,
/// where the one symbol stands.
pub fn next_carry(carry: u32, symbol: u8) -> Result<u32, Refusal> {
    if !(1..=36).contains(&carry) {
        return refuse(15, 0);
    }
    match value(symbol) {
        Some(value) => Ok(step(carry, value)),
        None => refuse(17, 0),
    }
}

/// "IBAN: 15 to 34 long, two capitals, two digits, then capitals or digits. The first four move to
/// the end, letters become two digits, and the remainder by 97 is 1. Check digits 00, 01 and 99 are
/// 18." The place of 18 is 2 "for an IBAN".
pub fn check_iban(iban: &[u8]) -> Result<(), Refusal> {
    if !(15..=34).contains(&iban.len()) {
        return refuse(16, 0);
    }
    let allowed = |(place, symbol): (usize, &u8)| match place {
        0 | 1 => symbol.is_ascii_uppercase(),
        2 | 3 => symbol.is_ascii_digit(),
        _ => symbol.is_ascii_uppercase() || symbol.is_ascii_digit(),
    };
    if let Some(place) = iban.iter().enumerate().position(|at| !allowed(at)) {
        return refuse(17, place);
    }
    let barred = matches!(&iban[2..4], b"00" | b"01" | b"99");
    if barred || remainder_by_97(iban) != 1 {
        return refuse(18, 2);
    }
    Ok(())
}

/// The remainder by 97 of the number that an IBAN's symbols spell once "the first four move to the
/// end" and "letters become two digits".
pub(crate) fn remainder_by_97(iban: &[u8]) -> u64 {
    let rearranged = iban[4..].iter().chain(&iban[..4]);
    let mut digits = Vec::with_capacity(2 * iban.len());
    for symbol in rearranged {
        let value = value(*symbol).expect("the symbols were tested");
        if value >= 10 {
            digits.push(value / 10);
        }
        digits.push(value % 10);
    }
    // Long division, up to nine digits at a time: the remainder goes in front of the next ones.
    digits.chunks(9).fold(0, |remainder, chunk| {
        let number = chunk
            .iter()
            .fold(remainder, |number, digit| 10 * number + u64::from(*digit));
        number % 97
    })
}

/// "Tracking number: 14 digits and a check. Label code: 7 symbols (A-Z, 0-9), 14 digits, 3 digits
/// of service, 3 of country, a check, 28 in all. A check is A-Z or 0-9." A body without its check
/// has the same shape. 17 is at the "first such symbol".
fn first_wrong_symbol(kind: Kind, symbols: &[u8]) -> Result<(), Refusal> {
    let digits = match kind {
        Kind::Tracking => 0..14,
        Kind::Label => 7..27,
    };
    let allowed = |(place, symbol): (usize, &u8)| {
        symbol.is_ascii_digit() || (symbol.is_ascii_uppercase() && !digits.contains(&place))
    };
    match symbols.iter().enumerate().position(|at| !allowed(at)) {
        Some(place) => refuse(17, place),
        None => Ok(()),
    }
}

/// "The check character makes carry plus its value leave 1 modulo 36."
fn check_fits(carry: u32, check: u8) -> bool {
    value(check).is_some_and(|value| (carry + value) % 36 == 1)
}

/// "The carry starts at 36."
fn carry(symbols: &[u8]) -> u32 {
    symbols.iter().fold(36, |carry, symbol| {
        step(carry, value(*symbol).expect("the symbols were tested"))
    })
}

/// "For each symbol add its value, reduce modulo 36 with 0 read as 36, double, reduce modulo 37."
fn step(carry: u32, value: u32) -> u32 {
    let sum = match (carry + value) % 36 {
        0 => 36,
        sum => sum,
    };
    2 * sum % 37
}

/// "Digits have values 0 to 9, A to Z 10 to 35."
fn value(symbol: u8) -> Option<u32> {
    match symbol {
        b'0'..=b'9' => Some(u32::from(symbol - b'0')),
        b'A'..=b'Z' => Some(u32::from(symbol - b'A') + 10),
        _ => None,
    }
}
