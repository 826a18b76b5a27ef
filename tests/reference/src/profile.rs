//! Our profile of the pre-advice manual: records, widths, duties and forms (document 01, 'The
//! file'), and the widths and duties of version 7 (document 002, tables 8, 10, 12, 14, 22 and 25). The
//! reader and the writer test their fields here, each over its own bytes.

use crate::identcode::check_identcode;
use crate::numbers::check_iban;
use crate::version::Version::{self, V5, V7};

/// "At most 65,535 bytes."
pub const LIMIT: usize = 65_535;

#[derive(Clone, Copy, Debug, PartialEq, Eq, Hash)]
pub enum Record {
    R010,
    R020,
    R030,
    R040,
    R050,
    R060,
}

use Record::*;

impl Record {
    pub const ALL: [Record; 6] = [R010, R020, R030, R040, R050, R060];

    /// "The first field is the record type."
    pub fn from_type(name: &[u8]) -> Option<Record> {
        Record::ALL
            .into_iter()
            .find(|record| record.type_name() == name)
    }

    /// "Record type as a number (10 for 010, up to 60)."
    pub fn from_number(number: u32) -> Option<Record> {
        Record::ALL
            .into_iter()
            .find(|record| record.number() == number)
    }

    pub fn number(self) -> u32 {
        match self {
            R010 => 10,
            R020 => 20,
            R030 => 30,
            R040 => 40,
            R050 => 50,
            R060 => 60,
        }
    }

    pub fn type_name(self) -> &'static [u8; 3] {
        match self {
            R010 => b"010",
            R020 => b"020",
            R030 => b"030",
            R040 => b"040",
            R050 => b"050",
            R060 => b"060",
        }
    }

    /// "Fields per record: 010 has 10, 020 has 16, 030 has 40, 040 has 3 to 24, 050 has 1 to 24,
    /// 060 has 10." The most is the number of widths.
    pub fn allows(self, count: usize) -> bool {
        let least = match self {
            R010 => 10,
            R020 => 16,
            R030 => 40,
            R040 => 3,
            R050 => 1,
            R060 => 10,
        };
        (least..=self.widths(V5).len()).contains(&count)
    }

    /// The widths of the record's fields, field 1 first.
    pub fn widths(self, version: Version) -> &'static [usize] {
        match (version, self) {
            (V5, R010) => &WIDTHS_010,
            (V5, R020) => &WIDTHS_020,
            (V5, R030) => &WIDTHS_030,
            (V5, R040) => &WIDTHS_040,
            (V5, R050) => &WIDTHS_050,
            (V5, R060) => &WIDTHS_060,
            (V7, R010) => &SEVEN_010,
            (V7, R020) => &SEVEN_020,
            (V7, R030) => &SEVEN_030,
            (V7, R040) => &SEVEN_040,
            (V7, R050) => &SEVEN_050,
            (V7, R060) => &SEVEN_060,
        }
    }

    /// "R = must be filled": the numbers of these fields; in version 7 those that 002 calls
    /// required. Not 020.12 and 020.13: "A line read or written alone no longer asks for the two"
    /// (document 02, request 1), and they "follow the lent country list in both" (request 5).
    pub fn required(self, version: Version) -> &'static [usize] {
        match (version, self) {
            (V5, R010) => &[1, 2, 3, 4, 5, 6],
            (V5, R020) => &[1, 5, 6, 7, 9, 11],
            (V5, R030) => &[16, 20, 21, 22, 24, 26],
            (V5, R040) => &[1],
            (V5, R050) => &[1],
            (V5, R060) => &[1],
            (V7, R010) => &[1, 3, 4, 6],
            (V7, R020) => &[1, 5, 6, 7, 9, 11],
            (V7, R030) => &[16, 20, 21, 22, 24, 26],
            (V7, R040) => &[1, 4],
            (V7, R050) => &[1],
            (V7, R060) => &[1],
        }
    }
}

#[rustfmt::skip]
const WIDTHS_010: [usize; 10] = [
    10, 40, 19, 19, 4, // 1 to 5
    10, // 6
    20, // 7
    40, 40, // 8, 9
    64, // 10
];

#[rustfmt::skip]
const WIDTHS_020: [usize; 16] = [
    40, 40, 40, 40, 2, 10, 40, 40, 40, 40, 10, 40, 64, 64, 64, 64,
];

#[rustfmt::skip]
const WIDTHS_030: [usize; 40] = [
    40, // 1
    10, // 2
    40, 40, 40, 40, // 3 to 6
    2, // 7
    10, // 8
    40, 40, 40, 40, // 9 to 12
    10, // 13
    40, // 14
    64, // 15
    40, 40, 40, 40, // 16 to 19
    2, // 20
    10, // 21
    40, 40, 40, 40, // 22 to 25
    10, // 26
    15, // 27
    40, // 28
    64, 64, 64, 64, 64, // 29 to 33
    40, 40, 40, // 34 to 36
    100, // 37
    19, // 38
    20, // 39
    20, // 40
];

#[rustfmt::skip]
const WIDTHS_040: [usize; 24] = [
    22, // 1
    64, 64, 64, 64, 64, 64, 64, 64, 64, 64, 64, // all others
    64, 64, 64, 64, 64, 64, 64, 64, 64, 64, 64, 64,
];

#[rustfmt::skip]
const WIDTHS_050: [usize; 24] = [
    20, // 1
    64, 64, 64, 64, 64, 64, 64, 64, 64, 64, 64, // all others
    64, 64, 64, 64, 64, 64, 64, 64, 64, 64, 64, 64,
];

#[rustfmt::skip]
const WIDTHS_060: [usize; 10] = [
    3, // 1
    64, // 2, but 35 under 006 and 022: see `width`
    9, // 3
    3, // 4
    64, // 5
    34, // 6
    11, // 7
    35, // 8
    64, // 9
    40, // 10
];

// Version 7, each row as 002 prints it. Where 002 gives no length, or has no such field, the page's
// stands.

#[rustfmt::skip]
const SEVEN_010: [usize; 10] = [
    10, // DebitorPayer
    80, // Customer
    19, // CreationDate: the page's
    19, // ShipmentDate: the page's
    10, // ShipmentPostalCode
    10, // AvisoVersion
    20, // AvisoSystem
    40, // ITContactName
    40, // ITContactTelephoneNr
    64, // ITContactMails
];

#[rustfmt::skip]
const SEVEN_020: [usize; 16] = [
    40, 40, 40, 40, // ShipperName1 to 4
    2, // ShipperCountry
    10, // ShipperPostalCode
    40, // ShipperCity
    40, // ShipperRegion
    40, // ShipperStreet
    40, // ShipperAdditionalStreet
    10, // ShipperStreetNr
    40, // ShipperTelephoneNr
    64, // ShipperMail
    64, // ShipperTaxCode
    64, // ShipperVATNo
    64, // ShipperCustomsReference
];

#[rustfmt::skip]
const SEVEN_030: [usize; 40] = [
    40, // ShipmentNr
    10, // ReturnDebitor
    40, 40, 40, 40, // ReturnName1 to 4
    2, // ReturnCountry
    10, // ReturnPostalCode
    40, // ReturnCity
    40, // ReturnRegion
    40, // ReturnStreet
    40, // ReturnAdditionalStreet
    10, // ReturnStreetNr
    40, // ReturnTelephoneNr
    64, // ReturnMail
    40, 40, 40, 40, // ConsigneeName1 to 4
    2, // ConsigneeCountry
    10, // ConsigneePostalCode
    40, // ConsigneeCity
    40, // ConsigneeRegion
    40, // ConsigneeStreet
    40, // ConsigneeAdditionalStreet
    10, // ConsigneeStreetNr
    15, // ConsigneePAC
    40, // ConsigneeTelephoneNr
    64, // ConsigneeMail
    64, // ConsigneeInfo
    64, // ConsigneeTaxCode
    64, // ConsigneeVATNo
    64, // ConsigneeCustomsReference
    40, // ShpRefNr
    40, // CostCenterRefNr
    40, // AlternativeRefNr
    100, // DeliveryRemark
    19, // DeliveryDay: the page's
    20, // LabelType
    20, // MovementReferenceNumber
];

#[rustfmt::skip]
const SEVEN_040: [usize; 24] = [
    24, // IdentCode
    11, // Weight, 7.3: seven digits, the point, three digits
    40, // ColliRefNr
    1, // ParcelType
    40, // InternalRefNr
    40, // ReferencedParcelIdentCode
    9, // TotalValue, 6.2: six digits, the point, two digits
    3, // Currency
    100, // Comment
    2, // NumberOfDocuments
    1, // NonDeliveryRemark
    100, // ReasonForExport
    64, 64, 64, 64, 64, 64, 64, 64, 64, 64, 64, 64, // 13 to 24: the page's
];

#[rustfmt::skip]
const SEVEN_050: [usize; 24] = [
    2, // ProductCode
    64, 64, 64, 64, 64, 64, 64, 64, 64, 64, 64, // 2 to 24: the page's
    64, 64, 64, 64, 64, 64, 64, 64, 64, 64, 64, 64,
];

#[rustfmt::skip]
const SEVEN_060: [usize; 10] = [
    3, // FeatureCode
    40, // Value, under every code
    9, // Amount, 6.2
    3, // Currency
    35, // CodAccountHolder
    40, // IBAN
    11, // BIC
    35, // CodPaymentReason
    40, // Email
    40, // PhoneNumber
];

/// "Feature codes (002)".
#[rustfmt::skip]
pub const FEATURES: [&[u8; 3]; 30] = [
    b"004", b"006", b"007", b"011", b"019", b"022", b"024", b"027", b"029", b"045",
    b"052", b"053", b"054", b"061", b"062", b"063", b"065", b"066", b"072", b"074",
    b"081", b"082", b"083", b"116", b"122", b"123", b"142", b"143", b"186", b"187",
];

/// "Record order: 010 first and once; then 020; after 020 a 030; after 030 a 040; after 040 another
/// 040 or a 050; after 050 or 060 a 060, a 030, a 020 or the end."
pub fn may_follow(before: Option<Record>, record: Record) -> bool {
    match before {
        None => record == R010,
        Some(R010) => record == R020,
        Some(R020) => record == R030,
        Some(R030) => record == R040,
        Some(R040) => record == R040 || record == R050,
        Some(R050) | Some(R060) => matches!(record, R060 | R030 | R020),
    }
}

/// "The end is allowed only there": after 050 or 060.
pub fn may_end(before: Option<Record>) -> bool {
    matches!(before, Some(R050) | Some(R060))
}

/// "Text bytes are 32 to 126 and 160 to 255."
pub fn is_text(byte: u8) -> bool {
    matches!(byte, 32..=126 | 160..=255)
}

/// One field's refusals, "6, 7, 8 for each"; `field` gives a field of the line by its number.
pub(crate) fn judge_field<'a>(
    version: Version,
    record: Record,
    number: usize,
    field: &impl Fn(usize) -> &'a [u8],
) -> Result<(), u32> {
    let part = field(number);
    if part.len() > width(version, record, number, field) {
        return Err(6);
    }
    if part.is_empty() {
        return match record.required(version).contains(&number) {
            true => Err(7),
            false => Ok(()),
        };
    }
    if !form_holds(version, record, number, field) {
        return Err(8);
    }
    Ok(())
}

/// The field's width; of 060.2 in version 5: "64, but 35 under 006 and 022".
fn width<'a>(
    version: Version,
    record: Record,
    number: usize,
    field: &impl Fn(usize) -> &'a [u8],
) -> usize {
    if version == V5 && record == R060 && number == 2 && is_cash(field(1)) {
        35
    } else {
        record.widths(version)[number - 1]
    }
}

/// "Forms apply to filled fields": this one is filled. 002's tables give widths and duties; the forms
/// are the page's in both versions, but for 010.6.
fn form_holds<'a>(
    version: Version,
    record: Record,
    number: usize,
    field: &impl Fn(usize) -> &'a [u8],
) -> bool {
    let part = field(number);
    match (record, number) {
        // "1 R ten digits, the first two 00"
        (R010, 1) => part.len() == 10 && all_digits(part) && part.starts_with(b"00"),
        // "3 R and 4 R date-times"
        (R010, 3 | 4) => is_date_time(part),
        // "5 R four digits"
        (R010, 5) => is_four_digits(part),
        // "6 R width 10, exactly `5`"; "Line calls are told the version, and 010.6 must be it, else
        // 8" (document 02, request 5).
        (R010, 6) => part == version.mark(),
        // "Countries (020.5, 030.7, 030.20) are two capitals."
        (R020, 5) | (R030, 7 | 20) => part.len() == 2 && all_capitals(part),
        // "Where one is `AT`, the filled post code of that address (020.6, 030.8, 030.21) is four
        // digits." The country stands in front of its post code.
        (R020, 6) | (R030, 8 | 21) => field(number - 1) != b"AT" || is_four_digits(part),
        // "Fields 1 and 2, if filled, are digits."
        (R030, 1 | 2) => all_digits(part),
        // "Field 39 is the carrier's own and must be empty: a filled one is 8"
        (R030, 39) => false,
        // "1 R 22 digits (width 22)"; "040.1 must pass from now on", and "a failing code in a file
        // is 8" (document 02, request 2).
        (R040, 1) => check_identcode(part).is_ok(),
        // "1 R width 3, a feature code"
        (R060, 1) => FEATURES.iter().any(|code| part == *code),
        // "Field 8, and 2 under 006 and 022, hold only a-z A-Z 0-9 . , : ' + - / ( ) ? and space."
        (R060, 2) => !is_cash(field(1)) || is_transfer_text(part),
        (R060, 8) => is_transfer_text(part),
        // "3: 9, an amount"
        (R060, 3) => cents(part).is_some(),
        // "4: 3, three capitals"
        (R060, 4) => part.len() == 3 && all_capitals(part),
        // "6: 34, an IBAN"; "In a file all these are 8."
        (R060, 6) => check_iban(part).is_ok(),
        // "7: 11, a BIC of 8 or 11 capitals or digits"
        (R060, 7) => {
            matches!(part.len(), 8 | 11)
                && part
                    .iter()
                    .all(|b| b.is_ascii_uppercase() || b.is_ascii_digit())
        }
        // "9: 64, with exactly one `@`, neither first nor last"
        (R060, 9) => {
            part.iter().filter(|b| **b == b'@').count() == 1
                && !part.starts_with(b"@")
                && !part.ends_with(b"@")
        }
        _ => true,
    }
}

/// "What a feature needs depends on its three-digit code alone: 006 and 022 need 3, 4, 5, 6, 7; 011
/// and 063 need 3 and 4; 054 needs 9 or 10; the rest need nothing." Other records need nothing.
pub(crate) fn needs_are_met<'a>(record: Record, field: &impl Fn(usize) -> &'a [u8]) -> bool {
    let filled = |number: &usize| !field(*number).is_empty();
    if record != R060 {
        return true;
    }
    match field(1) {
        b"006" | b"022" => [3, 4, 5, 6, 7].iter().all(filled),
        b"011" | b"063" => [3, 4].iter().all(filled),
        b"054" => [9, 10].iter().any(filled),
        _ => true,
    }
}

/// Whether a feature code is one of the two cash features.
pub(crate) fn is_cash(code: &[u8]) -> bool {
    code == b"006" || code == b"022"
}

/// "Amount: 1 to 6 digits, a point, two digits; no leading zero before another digit; at least
/// 0.01." Answers the amount in cents.
pub(crate) fn cents(part: &[u8]) -> Option<u64> {
    let point = part.iter().position(|b| *b == b'.')?;
    let (whole, fraction) = (&part[..point], &part[point + 1..]);
    let shaped = (1..=6).contains(&whole.len())
        && all_digits(whole)
        && fraction.len() == 2
        && all_digits(fraction);
    let leading_zero = whole.len() > 1 && whole[0] == b'0';
    if !shaped || leading_zero {
        return None;
    }
    let cents = 100 * decimal(whole) + decimal(fraction);
    (cents >= 1).then_some(cents)
}

/// "Date-time (010.3 and 010.4 only): `YYYY-MM-DDThh:mm:ss`, year 2000 to 2099, Gregorian, hour to
/// 23, minute and second to 59."
fn is_date_time(part: &[u8]) -> bool {
    const SHAPE: &[u8; 19] = b"YYYY-MM-DDThh:mm:ss";
    let shaped = part.len() == SHAPE.len()
        && part.iter().zip(SHAPE).all(|(byte, shape)| match shape {
            b'-' | b'T' | b':' => byte == shape,
            _ => byte.is_ascii_digit(),
        });
    if !shaped {
        return false;
    }
    let (year, month, day) = (
        decimal(&part[0..4]),
        decimal(&part[5..7]),
        decimal(&part[8..10]),
    );
    let (hour, minute, second) = (
        decimal(&part[11..13]),
        decimal(&part[14..16]),
        decimal(&part[17..19]),
    );
    (2000..=2099).contains(&year)
        && (1..=12).contains(&month)
        && (1..=days_in(year, month)).contains(&day)
        && hour <= 23
        && minute <= 59
        && second <= 59
}

/// The days of a Gregorian month.
fn days_in(year: u64, month: u64) -> u64 {
    let leap = year % 4 == 0 && (year % 100 != 0 || year % 400 == 0);
    match month {
        2 if leap => 29,
        2 => 28,
        4 | 6 | 9 | 11 => 30,
        _ => 31,
    }
}

/// "only a-z A-Z 0-9 . , : ' + - / ( ) ? and space"
fn is_transfer_text(part: &[u8]) -> bool {
    part.iter()
        .all(|b| b.is_ascii_alphanumeric() || b".,:'+-/()? ".contains(b))
}

fn all_digits(part: &[u8]) -> bool {
    part.iter().all(u8::is_ascii_digit)
}

fn all_capitals(part: &[u8]) -> bool {
    part.iter().all(u8::is_ascii_uppercase)
}

fn is_four_digits(part: &[u8]) -> bool {
    part.len() == 4 && all_digits(part)
}

/// The number that a few digits spell.
fn decimal(digits: &[u8]) -> u64 {
    digits
        .iter()
        .fold(0, |number, digit| 10 * number + u64::from(digit - b'0'))
}
