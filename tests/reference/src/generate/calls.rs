//! Calls of the other entry points: one line, one field, the writer, the purpose, issuing, the carry
//! and a day's numbers.

use super::countries::countries;
use super::damage::{damage, damage_as, file_case, Damage};
use super::files::{take_apart, valid_file_as, valid_file_of};
use super::values::{number_body, number_of};
use super::versions::{told, version};
use super::Rng;
use crate::version::Version;

/// A call of the line reader and, with the number, of the field finder.
#[derive(Clone, Debug)]
pub struct LineCall {
    /// 5 or 7; any other number is refused.
    pub version: u32,
    pub file: Vec<u8>,
    pub offset: usize,
    pub number: usize,
}

/// Mostly a line that may be damaged, between others; sometimes anywhere in a file or past it.
pub fn line_call(rng: &mut Rng) -> LineCall {
    let mut version = version(rng);
    let (file, offset) = match rng.below(5) {
        0 => {
            let file = file_case(rng).file;
            version = Version::of_file(&file);
            let offset = match rng.below(4) {
                0 => file.len(),
                1 => rng.pick(&[0, file.len() + 1, usize::MAX]),
                _ => rng.below(file.len() + 1),
            };
            (file, offset)
        }
        _ => {
            let mut lines = any_lines(rng, version);
            let index = any_index(rng, &lines);
            let damages = rng.below(3);
            damage_line(rng, version, &mut lines[index], damages);
            (lines.concat(), lines[..index].concat().len())
        }
    };
    let number = match rng.below(10) {
        0 => 0,
        1 => usize::MAX,
        2 => rng.pick(&[1, 3, 10, 11, 16, 17, 24, 25, 40, 41]),
        3..=5 => rng.between(1, 10),
        _ => rng.between(1, 41),
    };
    LineCall {
        version: told(rng, version),
        file,
        offset,
        number,
    }
}

/// The lines of a short accepted file, each with its CR LF.
fn any_lines(rng: &mut Rng, version: Version) -> Vec<Vec<u8>> {
    let lines = rng.pick(&[5, 12]);
    let mut lines = take_apart(&valid_file_as(version, rng, lines));
    lines.pop(); // what follows the last CR LF: nothing
    lines
        .iter()
        .map(|parts| [&parts.join(&b';')[..], b"\r\n"].concat())
        .collect()
}

/// One of the lines; every other time a 060 if there is one, because it has the most rules.
fn any_index(rng: &mut Rng, lines: &[Vec<u8>]) -> usize {
    let feature = lines.iter().rposition(|line| line.starts_with(b"060"));
    match feature {
        Some(index) if rng.percent(50) => index,
        _ => rng.below(lines.len()),
    }
}

/// Damages one line so many times, in ways that can stay within it.
fn damage_line(rng: &mut Rng, version: Version, line: &mut Vec<u8>, times: usize) {
    const DAMAGES: &[Damage] = &[
        Damage::FlipByte,
        Damage::InsertByte,
        Damage::DeleteByte,
        Damage::SwapFields,
        Damage::AddField,
        Damage::DropField,
        Damage::ToWidth,
        Damage::PastWidth,
        Damage::OtherWidth,
        Damage::EmptyRequired,
        Damage::EmptyNeeded,
        Damage::Spaces,
        Damage::BreakLineEnd,
        Damage::Truncate,
        Damage::Amount,
        Damage::DateTime,
        Damage::Iban,
        Damage::Identcode,
        Damage::Feature,
        Damage::RecordType,
        Damage::Form,
        Damage::Header,
    ];
    for _ in 0..times {
        let kind = rng.pick(DAMAGES);
        damage_as(version, kind, rng, line);
    }
}

/// A call of the writer: what is lent is an output of so many bytes.
#[derive(Clone, Debug)]
pub struct WriterCall {
    /// 5 or 7; any other number is refused.
    pub version: u32,
    pub record: u32,
    pub text: Vec<u8>,
    pub ends: Vec<usize>,
    pub output: usize,
    pub fill: usize,
}

impl WriterCall {
    /// A call for these fields whose output just takes the line.
    pub fn new(version: u32, record: u32, fields: &[Vec<u8>]) -> WriterCall {
        let text = fields.concat();
        let ends = fields
            .iter()
            .scan(0, |end, field| {
                *end += field.len();
                Some(*end)
            })
            .collect();
        WriterCall {
            version,
            record,
            output: 3 + fields.len() + text.len() + 2,
            text,
            ends,
            fill: 0,
        }
    }
}

/// An accepted line taken apart, with room for it in the output.
pub fn valid_writer_call(rng: &mut Rng) -> WriterCall {
    call_for_line(rng, 0)
}

/// The same of a line that may be damaged; then the call itself is damaged up to three times. Some
/// are still accepted.
pub fn writer_call(rng: &mut Rng) -> WriterCall {
    let damages = rng.pick(&[0, 0, 1, 2]);
    let mut call = call_for_line(rng, damages);
    for _ in 0..rng.pick(&[0, 0, 1, 1, 1, 2, 3]) {
        damage_writer_call(rng, &mut call);
    }
    call.version = told(rng, Version::told(call.version).expect("it was drawn"));
    call
}

fn call_for_line(rng: &mut Rng, damages: usize) -> WriterCall {
    let version = version(rng);
    let mut lines = any_lines(rng, version);
    let index = any_index(rng, &lines);
    let line = &mut lines[index];
    let record = match &line[..3] {
        b"010" => 10,
        b"020" => 20,
        b"030" => 30,
        b"040" => 40,
        b"050" => 50,
        _ => 60,
    };
    damage_line(rng, version, line, damages);
    let mut call = WriterCall::new(version.number(), record, &take_apart(line)[0][1..]);
    if rng.percent(70) {
        call.fill = rng.below(100);
        call.output += call.fill + rng.pick(&[0, 1, 50]);
    }
    call
}

fn damage_writer_call(rng: &mut Rng, call: &mut WriterCall) {
    const RECORDS: &[u32] = &[
        0,
        1,
        9,
        10,
        11,
        20,
        30,
        40,
        41,
        42,
        50,
        60,
        61,
        70,
        255,
        266,
        65_546,
        u32::MAX,
    ];
    let end = rng.below(call.ends.len().max(1));
    match rng.below(16) {
        0 => call.record = rng.pick(RECORDS),
        1 => drop(call.ends.pop()),
        2 => call.ends.push(call.text.len()),
        3 => call.ends.clear(),
        4 => call.text.clear(),
        5 => {
            call.ends.clear();
            call.text.clear();
        }
        6 if !call.ends.is_empty() => {
            // Falls, rises past the text, or only moves a border between two fields.
            call.ends[end] = match rng.below(5) {
                0 => 0,
                1 => usize::MAX,
                2 => call.ends[end].wrapping_sub(1),
                3 => call.ends[end].wrapping_add(1),
                _ => rng.below(call.text.len() + 2),
            }
        }
        7 => drop(call.text.pop()),
        8 => call.text.push(rng.byte()),
        9 if !call.text.is_empty() => {
            let place = rng.below(call.text.len());
            call.text[place] = rng.byte();
        }
        10 if !call.text.is_empty() => {
            let place = rng.below(call.text.len());
            call.text[place] = rng.pick(b";\r\n\0\x7F\x9F");
        }
        // A field made longer, with the ends behind it moved along.
        11 if call.ends.get(end).is_some_and(|at| *at <= call.text.len()) => {
            let extra = rng.pick(&[1, 2, 10, 40, 64, 100]);
            let (place, byte) = (call.ends[end], rng.byte());
            let added = std::iter::repeat_n(byte, extra);
            call.text.splice(place..place, added);
            for later in &mut call.ends[end..] {
                *later = later.saturating_add(extra);
            }
            call.output += extra;
        }
        // A field emptied, with the ends behind it moved along.
        12 if end < call.ends.len() => {
            let start = if end == 0 { 0 } else { call.ends[end - 1] };
            let stop = call.ends[end];
            if start <= stop && stop <= call.text.len() {
                call.text.drain(start..stop);
                for later in &mut call.ends[end..] {
                    *later = later.saturating_sub(stop - start);
                }
            }
        }
        13 => call.output = call.output.saturating_sub(1),
        14 => call.output = rng.below(call.output + 1),
        _ => call.fill = rng.pick(&[0, 1, call.output, call.output + 1, usize::MAX]),
    }
}

/// A call of the payment purpose, with these countries and so many words and output bytes lent.
#[derive(Clone, Debug)]
pub struct PurposeCall {
    pub file: Vec<u8>,
    pub countries: Vec<u8>,
    pub line: usize,
    pub words: usize,
    pub output: usize,
}

/// Mostly a cash line of an accepted file, sometimes a damaged file, another line or none.
pub fn purpose_call(rng: &mut Rng) -> PurposeCall {
    let (file, words) = match rng.below(10) {
        0..=1 => {
            let case = file_case(rng);
            (case.file, case.words)
        }
        2 => {
            let lines = rng.between(5, 60);
            let mut file = valid_file_of(rng, lines);
            damage(Damage::Spaces, rng, &mut file);
            (file, 4096)
        }
        _ => {
            let lines = rng.between(8, 60);
            (valid_file_of(rng, lines), 4096)
        }
    };
    let lines = take_apart(&file);
    let cash: Vec<usize> = (0..lines.len())
        .filter(|line| lines[*line].starts_with(&[b"060".to_vec(), b"006".to_vec()]))
        .collect();
    let line = match rng.below(20) {
        0 => usize::MAX,
        1 => lines.len() - 1,
        2 => rng.below(lines.len()),
        _ if cash.is_empty() => rng.below(lines.len()),
        _ => rng.pick(&cash),
    };
    let output = match rng.below(10) {
        0 => rng.below(35),
        1 => 34,
        2..=5 => 35,
        _ => rng.between(35, 80),
    };
    let countries = match rng.percent(50) {
        true => Vec::new(),
        false => countries(rng, &file),
    };
    PurposeCall {
        file,
        countries,
        line,
        words,
        output,
    }
}

/// A call of issuing: the body and how many output bytes are lent.
#[derive(Clone, Debug)]
pub struct IssueCall {
    pub body: Vec<u8>,
    pub output: usize,
}

/// A call that issues a tracking number or a label code.
pub fn issue_call(rng: &mut Rng) -> IssueCall {
    let body = number_body(rng);
    issue_call_of(rng, body)
}

/// A call that issues an identcode.
pub fn identcode_issue_call(rng: &mut Rng) -> IssueCall {
    let body = rng.digits(21);
    issue_call_of(rng, body)
}

/// Mostly the body as it is, sometimes damaged or with too short an output.
fn issue_call_of(rng: &mut Rng, mut body: Vec<u8>) -> IssueCall {
    if rng.percent(30) {
        let place = rng.below(body.len());
        match rng.below(4) {
            0 => body.truncate(place),
            1 => body.insert(place, rng.digit()),
            2 => body[place] = rng.capital(),
            _ => body[place] = rng.byte(),
        }
    }
    let output = match rng.below(5) {
        0 => body.len(),
        1 => rng.below(40),
        2 => body.len() + 1,
        _ => body.len() + rng.between(1, 20),
    };
    IssueCall { body, output }
}

/// A call of the carry after one more symbol.
#[derive(Clone, Copy, Debug)]
pub struct CarryCall {
    pub carry: u32,
    pub symbol: u8,
}

/// Mostly a carry and a symbol; sometimes numbers beside the carries, or that are carries once they
/// are cut to fewer bits, and bytes beside the symbols.
pub fn carry_call(rng: &mut Rng) -> CarryCall {
    const BESIDE: &[u32] = &[0, 1, 36, 37, 255, 256, 257, 292, 65_572, u32::MAX];
    let carry = match rng.below(10) {
        0..=1 => rng.pick(BESIDE),
        2 => rng.word() as u32,
        _ => rng.between(1, 36) as u32,
    };
    let symbol = match rng.below(10) {
        0..=3 => rng.digit(),
        4..=7 => rng.capital(),
        8 => rng.pick(b"/09:@AZ[`az{"),
        _ => rng.byte(),
    };
    CarryCall { carry, symbol }
}

/// A call on a day's tracking numbers: their bytes, and how many answer bytes are lent.
#[derive(Clone, Debug)]
pub struct DayCall {
    pub numbers: Vec<u8>,
    pub room: usize,
}

/// Mostly up to twelve numbers, whole and damaged, with a byte for each and some more. Sometimes very
/// many; sometimes cut off or shifted by a few symbols, or with too little room.
pub fn day_call(rng: &mut Rng) -> DayCall {
    let count = match rng.below(200) {
        0 => rng.between(100, 600),
        1..=9 => rng.between(13, 60),
        _ => rng.between(0, 12),
    };
    let whole = rng.pick(&[0, 50, 50, 90, 100]);
    let mut numbers: Vec<u8> = (0..count)
        .flat_map(|_| match rng.percent(whole) {
            true => number_of(rng.digits(14)),
            false => damaged_number_of_a_day(rng),
        })
        .collect();
    match rng.below(12) {
        0 => numbers.truncate(rng.below(numbers.len() + 1)),
        1 => numbers.extend((0..rng.between(1, 16)).map(|_| rng.digit())),
        2 if count > 0 => numbers.rotate_left(rng.between(1, 14)),
        _ => {}
    }
    let count = numbers.len() / 15;
    let room = match rng.below(12) {
        0 => rng.below(count + 1),
        1..=2 => count.saturating_sub(1),
        3 => rng.below(20),
        4..=7 => count,
        8 => count + 1,
        _ => count + rng.between(1, 20),
    };
    DayCall { numbers, room }
}

/// A tracking number that passed, damaged so that it keeps its length; few still pass.
fn damaged_number_of_a_day(rng: &mut Rng) -> Vec<u8> {
    let mut number = number_of(rng.digits(14));
    let place = rng.below(14);
    match rng.below(8) {
        0 => number[14] = rng.digit(),
        1 => number[14] = rng.capital(),
        2 => number[14] = number[14].to_ascii_lowercase(),
        3 => number[place] = rng.digit(),
        4 => number.swap(place, place + 1),
        5 => number[place] = rng.pick(b"/:@AZ[`az{OI -"),
        6 => number[rng.below(15)] = rng.byte(),
        _ => number = (0..15).map(|_| rng.byte()).collect(),
    }
    number
}
