//! Random calls of every kind, valid and damaged, long and short. The same seed draws the same calls.

use crate::Call;
use reference::generate::{
    carry_call, countries, damaged_iban, damaged_identcode, damaged_number, day_call, file_case,
    identcode_issue_call, issue_call, line_call, purpose_call, valid_iban, valid_identcode,
    valid_number, writer_call, Rng,
};

/// The calls of the library.
#[derive(Clone, Copy, Debug, PartialEq, Eq)]
pub enum Kind {
    File,
    Line,
    Field,
    Write,
    Purpose,
    Check,
    Issue,
    Iban,
    CheckIdentcode,
    ReadIdentcode,
    IssueIdentcode,
    Carry,
    Day,
}

/// A call of this kind.
pub fn call(kind: Kind, rng: &mut Rng) -> Call {
    match kind {
        Kind::File => file(rng),
        Kind::Line => {
            let call = line_call(rng);
            Call::Line {
                version: call.version,
                file: call.file,
                offset: call.offset,
            }
        }
        Kind::Field => Call::Field(line_call(rng)),
        Kind::Write => Call::Write(writer_call(rng)),
        Kind::Purpose => Call::Purpose(purpose_call(rng)),
        Kind::Check => Call::Check(symbols(rng, valid_number, damaged_number)),
        Kind::Issue => Call::Issue(issue_call(rng)),
        Kind::Iban => Call::Iban(symbols(rng, valid_iban, damaged_iban)),
        Kind::CheckIdentcode => {
            Call::CheckIdentcode(symbols(rng, valid_identcode, damaged_identcode))
        }
        Kind::ReadIdentcode => {
            Call::ReadIdentcode(symbols(rng, valid_identcode, damaged_identcode))
        }
        Kind::IssueIdentcode => Call::IssueIdentcode(identcode_issue_call(rng)),
        Kind::Carry => Call::Carry(carry_call(rng)),
        Kind::Day => Call::Day(day_call(rng)),
    }
}

/// Mostly a generated file; some of bytes of any kind, and some far over the limit.
fn file(rng: &mut Rng) -> Call {
    let file = match rng.below(200) {
        0..=3 => any_bytes(rng, 200),
        4 => vec![rng.byte(); rng.between(65_535, 200_000)],
        _ => {
            let case = file_case(rng);
            return Call::File {
                file: case.file,
                countries: case.countries,
                words: case.words,
            };
        }
    };
    Call::File {
        countries: countries(rng, &file),
        file,
        words: rng.below(10),
    }
}

/// Numbers that pass and damaged ones; some of any bytes and any length, and a few very long ones.
fn symbols(
    rng: &mut Rng,
    valid: fn(&mut Rng) -> Vec<u8>,
    damaged: fn(&mut Rng) -> Vec<u8>,
) -> Vec<u8> {
    match rng.below(1000) {
        0 => vec![rng.digit(); rng.between(65_535, 70_000)],
        1..=50 => any_bytes(rng, 40),
        51..=450 => valid(rng),
        _ => damaged(rng),
    }
}

fn any_bytes(rng: &mut Rng, most: usize) -> Vec<u8> {
    let length = rng.between(0, most);
    (0..length).map(|_| rng.byte()).collect()
}
