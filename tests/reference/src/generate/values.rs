//! Values of single fields and numbers: random ones, and the boundary values with what a filled
//! field says of them (0 holds, 6 too long, 8 wrong form).

use super::Rng;
use crate::identcode::check_digit;
use crate::numbers::{issue_number, remainder_by_97};
use crate::profile::FEATURES;
use crate::version::Version::{self, V5, V7};

/// A value and its verdict.
pub type Value = (&'static [u8], u32);

/// 010.1
pub const CUSTOMERS: &[Value] = &[
    (b"0012345678", 0),
    (b"0000000000", 0),
    (b"0099999999", 0),
    (b"0112345678", 8),
    (b"1012345678", 8),
    (b"001234567", 8),
    (b"00", 8),
    (b"00123456789", 6),
    (b"001234567a", 8),
    (b"00 2345678", 8),
    (b"          ", 8),
];

/// 010.3 and 010.4
pub const DATES: &[Value] = &[
    (b"2000-01-01T00:00:00", 0),
    (b"2099-12-31T23:59:59", 0),
    (b"1999-12-31T23:59:59", 8),
    (b"2100-01-01T00:00:00", 8),
    (b"0000-01-01T00:00:00", 8),
    (b"2000-02-29T12:00:00", 0),
    (b"2023-02-28T12:00:00", 0),
    (b"2023-02-29T12:00:00", 8),
    (b"2024-02-29T12:00:00", 0),
    (b"2024-02-30T12:00:00", 8),
    (b"2096-02-29T12:00:00", 0),
    (b"2098-02-29T12:00:00", 8),
    (b"2021-01-31T12:00:00", 0),
    (b"2021-01-32T12:00:00", 8),
    (b"2021-03-31T12:00:00", 0),
    (b"2021-04-30T12:00:00", 0),
    (b"2021-04-31T12:00:00", 8),
    (b"2021-05-31T12:00:00", 0),
    (b"2021-06-30T12:00:00", 0),
    (b"2021-06-31T12:00:00", 8),
    (b"2021-07-31T12:00:00", 0),
    (b"2021-08-31T12:00:00", 0),
    (b"2021-09-30T12:00:00", 0),
    (b"2021-09-31T12:00:00", 8),
    (b"2021-10-31T12:00:00", 0),
    (b"2021-11-30T12:00:00", 0),
    (b"2021-11-31T12:00:00", 8),
    (b"2021-12-31T12:00:00", 0),
    (b"2021-12-32T12:00:00", 8),
    (b"2021-00-10T12:00:00", 8),
    (b"2021-13-10T12:00:00", 8),
    (b"2021-10-00T12:00:00", 8),
    (b"2021-10-99T12:00:00", 8),
    (b"2021-10-10T24:00:00", 8),
    (b"2021-10-10T23:60:00", 8),
    (b"2021-10-10T23:59:60", 8),
    (b"2021-10-10T99:99:99", 8),
    (b"2021-10-10 12:00:00", 8),
    (b"2021-10-10t12:00:00", 8),
    (b"2021/10/10T12:00:00", 8),
    (b"2021-10-10T12-00-00", 8),
    (b"2021-10-10T12:00:0a", 8),
    (b"2o21-10-10T12:00:00", 8),
    (b" 021-10-10T12:00:00", 8),
    (b"2021-1-010T12:00:00", 8),
    (b"2021-10-10T12:00:0", 8),
    (b"2021-10-10", 8),
    (b"                   ", 8),
    (b"2021-10-10T12:00:00Z", 6),
];

/// 010.5
pub const FOUR_DIGITS: &[Value] = &[
    (b"0000", 0),
    (b"1005", 0),
    (b"9999", 0),
    (b"999", 8),
    (b"100a", 8),
    (b"1 05", 8),
    (b"    ", 8),
    (b"10000000000", 6),
];
/// and by version: the width is 4 and 10
pub const FOUR_DIGITS_5: &[Value] = &[(b"10000", 6), (b"1000000000", 6)];
pub const FOUR_DIGITS_7: &[Value] = &[
    (b"10000", 8),
    (b"1005 ", 8),
    (b"1000000000", 8),
    (b"          ", 8),
];

/// 010.6
pub const VERSIONS: &[Value] = &[
    (b"4", 8),
    (b"6", 8),
    (b"8", 8),
    (b"05", 8),
    (b"55", 8),
    (b"57", 8),
    (b"5 ", 8),
    (b" 5", 8),
    (b"5.0", 8),
    (b"07", 8),
    (b"75", 8),
    (b"77", 8),
    (b"7 ", 8),
    (b" 7", 8),
    (b"7.0", 8),
    (b"V", 8),
    (b"\xB7", 8),
    (b" ", 8),
    (b"5555555555", 8),
    (b"55555555555", 6),
    (b"7777777777", 8),
    (b"77777777777", 6),
];
/// and by version: it must be the version
pub const VERSIONS_5: &[Value] = &[(b"5", 0), (b"7", 8)];
pub const VERSIONS_7: &[Value] = &[(b"7", 0), (b"5", 8)];

/// 020.5, 030.7 and 030.20, beside a post code of four digits
pub const COUNTRIES: &[Value] = &[
    (b"AT", 0),
    (b"DE", 0),
    (b"AA", 0),
    (b"ZZ", 0),
    (b"at", 8),
    (b"At", 8),
    (b"A", 8),
    (b"A1", 8),
    (b"A@", 8),
    (b"A[", 8),
    (b"A ", 8),
    (b"  ", 8),
    (b"\xC4T", 8),
    (b"AUT", 6),
];

/// 020.6, 030.8 and 030.21 where the country is `AT`
pub const POST_CODES: &[Value] = &[
    (b"1010", 0),
    (b"0000", 0),
    (b"9999", 0),
    (b"101", 8),
    (b"10100", 8),
    (b"101a", 8),
    (b" 101", 8),
    (b"A-1010", 8),
    (b"    ", 8),
    (b"0123456789", 8),
    (b"01234567890", 6),
];

/// 030.1
pub const SHIPMENTS: &[Value] = &[
    (b"0", 0),
    (b"1234567890123456789012345678901234567890", 0),
    (b"12345678901234567890123456789012345678901", 6),
    (b"1 2", 8),
    (b" ", 8),
    (b"12a", 8),
    (b"-1", 8),
    (b"/", 8),
    (b":", 8),
];

/// 030.2
pub const SHORT_NUMBERS: &[Value] = &[
    (b"0", 0),
    (b"1234567890", 0),
    (b"12345678901", 6),
    (b"123456789a", 8),
    (b" ", 8),
];

/// 030.39
pub const CARRIERS_OWN: &[Value] = &[
    (b"x", 8),
    (b" ", 8),
    (b"0", 8),
    (b"12345678901234567890", 8),
    (b"123456789012345678901", 6),
];

/// 040.1
pub const IDENTCODES: &[Value] = &[
    (b"1000000000000000000007", 0),
    (b"8546379003275981863426", 0),
    (b"1012345123456781212349", 0),
    (b"0000000000000000000000", 0),
    (b"9999999999999999999993", 0),
    // The remainder 0, which gives 0 and not 10.
    (b"1700000000000000000000", 0),
    (b"1700000000000000000001", 8),
    // Other check digits: the next ones, the remainder itself, and that of weights 1, 3, 1, 3.
    (b"1000000000000000000006", 8),
    (b"1000000000000000000008", 8),
    (b"1000000000000000000003", 8),
    (b"8546379003275981863424", 8),
    (b"1000000000000000000009", 8),
    (b"1000000000000000000001", 8),
    (b"9999999999999999999999", 8),
    // Neighbours that differ by 5, and by another number, before and behind a swap.
    (b"1600000000000000000001", 0),
    (b"6100000000000000000001", 0),
    (b"1500000000000000000002", 0),
    (b"5100000000000000000002", 8),
    (b"1000000000000000000038", 0),
    (b"1000000000000000000083", 0),
    (b"1000000000000000000070", 8),
    (b"100000000000000000007", 8),
    (b"100000000000000000000", 8),
    (b"1", 8),
    (b"100000000000000000000a", 8),
    (b"a000000000000000000007", 8),
    (b"10000000000 0000000007", 8),
    (b"10000000000/0000000007", 8),
    (b"10000000000:0000000007", 8),
    (b"100000000000000000000:", 8),
    (b"                      ", 8),
    (b"1000000000000000000000007", 6),
];
/// and by version: the width is 22 and 24
pub const IDENTCODES_5: &[Value] = &[
    (b"17000000000000000000010", 6),
    (b"10000000000000000000007", 6),
    (b"100000000000000000000007", 6),
];
pub const IDENTCODES_7: &[Value] = &[
    (b"17000000000000000000010", 8),
    (b"10000000000000000000007", 8),
    (b"01000000000000000000007", 8),
    (b"1000000000000000000007 ", 8),
    (b"100000000000000000000007", 8),
    (b"                        ", 8),
];

/// 060.1 (the codes that hold are in the profile)
pub const NO_FEATURES: &[Value] = &[
    (b"000", 8),
    (b"001", 8),
    (b"005", 8),
    (b"008", 8),
    (b"010", 8),
    (b"023", 8),
    (b"055", 8),
    (b"064", 8),
    (b"188", 8),
    (b"600", 8),
    (b"999", 8),
    (b"6", 8),
    (b"06", 8),
    (b" 06", 8),
    (b"06 ", 8),
    (b"OO6", 8),
    (b"   ", 8),
    (b"0006", 6),
    (b"006 ", 6),
];

/// 060.3
pub const AMOUNTS: &[Value] = &[
    (b"0.01", 0),
    (b"0.10", 0),
    (b"0.99", 0),
    (b"1.00", 0),
    (b"9.99", 0),
    (b"10.00", 0),
    (b"12.50", 0),
    (b"100000.00", 0),
    (b"999999.99", 0),
    (b"0.00", 8),
    (b"00.01", 8),
    (b"01.00", 8),
    (b"00.00", 8),
    (b"000000.01", 8),
    (b"012345.67", 8),
    (b".50", 8),
    (b".", 8),
    (b"1", 8),
    (b"1.", 8),
    (b"1.0", 8),
    (b"1.000", 8),
    (b"1,00", 8),
    (b"-1.00", 8),
    (b"+1.00", 8),
    (b" 1.00", 8),
    (b"1.00 ", 8),
    (b"1.0a", 8),
    (b"a.00", 8),
    (b"1..00", 8),
    (b"1.0.0", 8),
    (b"1/00", 8),
    (b"123456789", 8),
    (b"1234567.0", 8),
    (b"9999999.9", 8),
    (b"         ", 8),
    (b"1000000.00", 6),
];

/// 060.4
pub const CURRENCIES: &[Value] = &[
    (b"EUR", 0),
    (b"USD", 0),
    (b"AAA", 0),
    (b"ZZZ", 0),
    (b"eur", 8),
    (b"EUr", 8),
    (b"EU", 8),
    (b"EU1", 8),
    (b"EU ", 8),
    (b"   ", 8),
    (b"E@R", 8),
    (b"E[R", 8),
    (b"EURO", 6),
];

/// 060.6
pub const IBANS: &[Value] = &[
    (b"AT611904300234573201", 0),
    (b"NO9386011117947", 0),
    (b"DE89370400440532013000", 0),
    (b"GB82WEST12345698765432", 0),
    (b"MT84MALT011000012345MTLCAST001S", 0),
    (b"AT161904300234573201", 8),
    (b"AT611904300234573210", 8),
    (b"at611904300234573201", 8),
    (b"AT61 1904 3002 3457 3201", 8),
    (b"A1611904300234573201", 8),
    (b"ATA11904300234573201", 8),
    (b"GB82west12345698765432", 8),
    (b"NO938601111794", 8),
    (b"X", 8),
    (b"              ", 8),
    (b"AT61190430023457320111111111111111111111111", 6),
];
/// and by version: the width is 34 and 40
pub const IBANS_5: &[Value] = &[
    (b"AT6119043002345732011111111111111111", 6),
    (b"AT611904300234573201               ", 6),
];
pub const IBANS_7: &[Value] = &[
    (b"AT6119043002345732011111111111111111", 8),
    (b"AT611904300234573201               ", 8),
    (b"AT61190430023457320111111111111111111111", 8),
    (b"AT611904300234573201                    ", 8),
];

/// 060.7
pub const BICS: &[Value] = &[
    (b"ABCDATWW", 0),
    (b"ABCDATWWXXX", 0),
    (b"12345678", 0),
    (b"AAAAAAAAAAA", 0),
    (b"ABCDATW", 8),
    (b"ABCDATWWX", 8),
    (b"ABCDATWWXX", 8),
    (b"abcdatww", 8),
    (b"ABCDATW ", 8),
    (b"ABCD-TWW", 8),
    (b"           ", 8),
    (b"ABCDATWWXXXX", 6),
];

/// 060.8, and 060.2 under 006 and 022
pub const TRANSFER_TEXTS: &[Value] = &[
    (b"azAZ09.,:'+-/()? ", 0),
    (b" ", 0),
    (b"12345678901234567890123456789012345", 0),
    (b"12345678901234567890123456789012345678901", 6),
    (b"a&b", 8),
    (b"a@b", 8),
    (b"a_b", 8),
    (b"a\"b", 8),
    (b"M\xFCller", 8),
    (b"a*b", 8),
];
/// and by width: 35, and 40 of 060.2 in version 7
pub const TRANSFER_TEXTS_35: &[Value] = &[
    (b"123456789012345678901234567890123456", 6),
    (b"1234567890123456789012345678901234567890", 6),
];
pub const TRANSFER_TEXTS_40: &[Value] = &[
    (b"123456789012345678901234567890123456", 0),
    (b"1234567890123456789012345678901234567890", 0),
    (b"123456789012345678901234567890123456&", 8),
];

/// 060.9
pub const EMAILS: &[Value] = &[
    (b"a@b", 0),
    (b" @ ", 0),
    (b"a.b@c.d", 0),
    (b"\xE4@\xF6", 0),
    (b"@", 8),
    (b"a@", 8),
    (b"@b", 8),
    (b"a@@b", 8),
    (b"a@b@c", 8),
    (b"@@", 8),
    (b"@a@", 8),
    (b"ab", 8),
    (b" ", 8),
];

/// The boundary values of a field that has a form, by record number and field number: those of both
/// versions, and those of this one.
pub fn boundary_values(version: Version, record: u32, number: usize) -> Vec<Value> {
    let own = match (version, record, number) {
        (V5, 10, 5) => FOUR_DIGITS_5,
        (V7, 10, 5) => FOUR_DIGITS_7,
        (V5, 10, 6) => VERSIONS_5,
        (V7, 10, 6) => VERSIONS_7,
        (V5, 40, 1) => IDENTCODES_5,
        (V7, 40, 1) => IDENTCODES_7,
        (V7, 60, 2) => TRANSFER_TEXTS_40,
        (_, 60, 2 | 8) => TRANSFER_TEXTS_35,
        (V5, 60, 6) => IBANS_5,
        (V7, 60, 6) => IBANS_7,
        _ => &[],
    };
    [common_values(record, number), own].concat()
}

/// Whether a field has a form, at least beside some other field.
pub fn may_have_form(record: u32, number: usize) -> bool {
    !common_values(record, number).is_empty()
}

fn common_values(record: u32, number: usize) -> &'static [Value] {
    match (record, number) {
        (10, 1) => CUSTOMERS,
        (10, 3 | 4) => DATES,
        (10, 5) => FOUR_DIGITS,
        (10, 6) => VERSIONS,
        (20, 5) | (30, 7 | 20) => COUNTRIES,
        (20, 6) | (30, 8 | 21) => POST_CODES,
        (30, 1) => SHIPMENTS,
        (30, 2) => SHORT_NUMBERS,
        (30, 39) => CARRIERS_OWN,
        (40, 1) => IDENTCODES,
        (60, 1) => NO_FEATURES,
        (60, 2 | 8) => TRANSFER_TEXTS,
        (60, 3) => AMOUNTS,
        (60, 4) => CURRENCIES,
        (60, 6) => IBANS,
        (60, 7) => BICS,
        (60, 9) => EMAILS,
        _ => &[],
    }
}

/// How full the optional fields are and how long the texts.
#[derive(Clone, Copy, Debug)]
pub struct Style {
    /// Share of optional fields that are filled, of a hundred.
    pub filled: usize,
    /// Share of texts as long as their width, of a hundred; the others are of any length.
    pub full: usize,
    /// Longest text otherwise.
    pub longest: usize,
    /// Share of bytes from 160 to 255, of a hundred.
    pub upper: usize,
}

impl Style {
    pub fn any(rng: &mut Rng) -> Style {
        Style {
            filled: rng.pick(&[0, 5, 10, 30, 60, 100]),
            full: rng.pick(&[0, 5, 50]),
            longest: rng.pick(&[3, 8, 100]),
            upper: rng.pick(&[0, 10, 50]),
        }
    }
}

fn length(rng: &mut Rng, style: Style, width: usize) -> usize {
    if rng.percent(style.full) {
        width
    } else {
        rng.between(1, width.min(style.longest))
    }
}

/// A text byte that is no semicolon.
fn text_byte(rng: &mut Rng, style: Style) -> u8 {
    if rng.percent(style.upper) {
        return rng.between(160, 255) as u8;
    }
    match rng.between(32, 125) as u8 {
        byte if byte < b';' => byte,
        byte => byte + 1,
    }
}

/// A filled text of at most the width.
pub fn text(rng: &mut Rng, style: Style, width: usize) -> Vec<u8> {
    let length = length(rng, style, width);
    if rng.percent(3) {
        return vec![b' '; length];
    }
    (0..length).map(|_| text_byte(rng, style)).collect()
}

pub fn digit_text(rng: &mut Rng, style: Style, width: usize) -> Vec<u8> {
    let length = length(rng, style, width);
    rng.digits(length)
}

pub fn transfer_text(rng: &mut Rng, style: Style, width: usize) -> Vec<u8> {
    const ALLOWED: &[u8] =
        b"abcdefghijklmnopqrstuvwxyzABCDEFGHIJKLMNOPQRSTUVWXYZ0123456789.,:'+-/()? ";
    let length = length(rng, style, width);
    (0..length).map(|_| rng.pick(ALLOWED)).collect()
}

pub fn email(rng: &mut Rng, style: Style, width: usize) -> Vec<u8> {
    let mut email = text(rng, style, width - 1);
    email.retain(|byte| *byte != b'@');
    if email.len() < 2 {
        email = b"ab".to_vec();
    }
    let at = rng.between(1, email.len() - 1);
    email.insert(at, b'@');
    email
}

pub fn amount(rng: &mut Rng) -> Vec<u8> {
    if rng.percent(20) {
        return holding(rng, AMOUNTS);
    }
    let length = rng.between(1, 6);
    let whole = 10_usize.pow(length as u32);
    format!("{}.{:02}", rng.below(whole), rng.between(1, 99)).into_bytes()
}

pub fn date_time(rng: &mut Rng) -> Vec<u8> {
    if rng.percent(30) {
        return holding(rng, DATES);
    }
    format!(
        "{:04}-{:02}-{:02}T{:02}:{:02}:{:02}",
        rng.between(2000, 2099),
        rng.between(1, 12),
        rng.between(1, 28),
        rng.below(24),
        rng.below(60),
        rng.below(60)
    )
    .into_bytes()
}

pub fn country(rng: &mut Rng) -> Vec<u8> {
    match rng.below(10) {
        0..=5 => b"AT".to_vec(),
        6..=7 => b"DE".to_vec(),
        _ => rng.capitals(2),
    }
}

pub fn post_code(rng: &mut Rng, style: Style, country: &[u8]) -> Vec<u8> {
    if country == b"AT" || rng.percent(20) {
        rng.digits(4)
    } else {
        text(rng, style, 10)
    }
}

pub fn currency(rng: &mut Rng) -> Vec<u8> {
    match rng.below(10) {
        0..=5 => b"EUR".to_vec(),
        6 => b"EUS".to_vec(),
        _ => rng.capitals(3),
    }
}

pub fn bic(rng: &mut Rng) -> Vec<u8> {
    let length = rng.pick(&[8, 11]);
    (0..length).map(|_| symbol(rng)).collect()
}

/// A feature code, those with needs more often.
pub fn feature(rng: &mut Rng) -> Vec<u8> {
    match rng.below(10) {
        0..=2 => b"006".to_vec(),
        3 => b"022".to_vec(),
        4 => b"011".to_vec(),
        5 => b"063".to_vec(),
        6 => b"054".to_vec(),
        _ => rng.pick(&FEATURES).to_vec(),
    }
}

fn symbol(rng: &mut Rng) -> u8 {
    if rng.percent(50) {
        rng.digit()
    } else {
        rng.capital()
    }
}

/// One of the boundary values that hold.
fn holding(rng: &mut Rng, values: &[Value]) -> Vec<u8> {
    loop {
        let (value, verdict) = rng.pick(values);
        if verdict == 0 {
            return value.to_vec();
        }
    }
}

/// The symbols of a tracking number or a label code without its check.
pub fn number_body(rng: &mut Rng) -> Vec<u8> {
    let mut body = match rng.below(2) {
        0 => Vec::new(),
        _ => (0..7).map(|_| symbol(rng)).collect(),
    };
    let digits = if body.is_empty() { 14 } else { 20 };
    body.extend(rng.digits(digits));
    body
}

/// A tracking number or a label code that passes.
pub fn valid_number(rng: &mut Rng) -> Vec<u8> {
    number_of(number_body(rng))
}

/// A body and its check.
pub fn number_of(body: Vec<u8>) -> Vec<u8> {
    let mut number = vec![0; body.len() + 1];
    issue_number(&body, &mut number).expect("the body has its shape and the output its length");
    number
}

/// A number that passed, then damaged once or twice; some still pass.
pub fn damaged_number(rng: &mut Rng) -> Vec<u8> {
    let mut number = valid_number(rng);
    for _ in 0..rng.between(1, 2) {
        damage_symbols(rng, &mut number);
    }
    number
}

/// An identcode that passes.
pub fn valid_identcode(rng: &mut Rng) -> Vec<u8> {
    identcode_of(rng.digits(21))
}

/// A body of 21 digits and its check digit.
pub fn identcode_of(mut body: Vec<u8>) -> Vec<u8> {
    body.push(check_digit(&body));
    body
}

/// An identcode that passed, then damaged; some still pass. Half of them fail in one way at most:
/// by another check digit, another digit, two neighbours swapped, or a symbol that is no digit.
pub fn damaged_identcode(rng: &mut Rng) -> Vec<u8> {
    let mut code = valid_identcode(rng);
    let place = rng.below(21);
    match rng.below(8) {
        0 => code[21] = rng.digit(),
        1 => code[place] = rng.digit(),
        2 => code.swap(place, place + 1),
        3 => code[place] = rng.pick(b"/:aAzZOIl -"),
        _ => {
            for _ in 0..rng.between(1, 2) {
                damage_symbols(rng, &mut code);
            }
        }
    }
    code
}

/// An IBAN that passes.
pub fn valid_iban(rng: &mut Rng) -> Vec<u8> {
    let length = rng.between(15, 34);
    let letters = rng.pick(&[0, 20, 100]);
    let mut iban = match rng.below(3) {
        0 => b"AT".to_vec(),
        _ => rng.capitals(2),
    };
    iban.extend(b"00");
    while iban.len() < length {
        let symbol = match rng.percent(letters) {
            true => rng.capital(),
            false => rng.digit(),
        };
        iban.push(symbol);
    }
    // With check digits 00 the remainder is r; 98 - r are the digits that make it 1.
    let check = 98 - remainder_by_97(&iban);
    iban[2] = b'0' + (check / 10) as u8;
    iban[3] = b'0' + (check % 10) as u8;
    iban
}

/// An IBAN that passed, then damaged; some still pass. One in ten keeps the remainder 1 with check
/// digits 00, 01 or 99.
pub fn damaged_iban(rng: &mut Rng) -> Vec<u8> {
    if rng.percent(10) {
        return barred_iban(rng);
    }
    let mut iban = valid_iban(rng);
    for _ in 0..rng.between(1, 2) {
        damage_symbols(rng, &mut iban);
    }
    iban
}

/// An IBAN whose remainder is 1 and whose check digits are 00, 01 or 99.
pub fn barred_iban(rng: &mut Rng) -> Vec<u8> {
    loop {
        let mut iban = valid_iban(rng);
        let barred = match &iban[2..4] {
            b"97" => b"00",
            b"98" => b"01",
            b"02" => b"99",
            _ => continue,
        };
        iban[2..4].copy_from_slice(barred);
        return iban;
    }
}

fn damage_symbols(rng: &mut Rng, symbols: &mut Vec<u8>) {
    if symbols.is_empty() {
        return;
    }
    let place = rng.below(symbols.len());
    match rng.below(10) {
        0 => symbols[place] = rng.byte(),
        1 => symbols[place] = rng.digit(),
        2 => symbols[place] = rng.capital(),
        3 => symbols[place] = symbols[place].to_ascii_lowercase(),
        4 if place > 0 => symbols.swap(place - 1, place),
        5 => {
            let other = rng.below(symbols.len());
            symbols.swap(place, other);
        }
        6 => symbols.insert(place, symbols[place]),
        7 => drop(symbols.remove(place)),
        8 => symbols.truncate(place),
        _ => {
            let last = symbols.len() - 1;
            symbols[last] = symbol(rng);
        }
    }
}
