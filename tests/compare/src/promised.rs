//! The calls as c/peliranopi.h promises them, with the answers of the independent implementation.

use crate::{lent, Call, Left};
use reference::file::judge;
use reference::identcode::{check_identcode, issue_identcode, read_identcode};
use reference::line::{find_field, read_line};
use reference::numbers::{check_iban, check_number, check_numbers, issue_number, next_carry, Kind};
use reference::purpose::purpose;
use reference::writer::write_line;
use reference::Refusal;

/// What the call must leave of what was there before it.
pub fn left(call: &Call, mut left: Left) -> Left {
    match values(call, &mut left) {
        Ok(values) => {
            left.answer = 0;
            left.place = 0;
            left.values = values;
        }
        Err(refusal) => {
            left.answer = refusal.number;
            left.place = refusal.place;
            left.values = vec![0; count(call)];
        }
    }
    left
}

/// How many numbers a call sets beside the place.
fn count(call: &Call) -> usize {
    match call {
        Call::File { .. } | Call::Line { .. } => 3,
        Call::Field(_) => 2,
        Call::Write(_) | Call::Purpose(_) | Call::Check(_) => 1,
        Call::Issue(_) | Call::IssueIdentcode(_) | Call::Carry(_) | Call::Day(_) => 1,
        Call::Iban(_) | Call::CheckIdentcode(_) => 0,
        Call::ReadIdentcode(_) => 12,
    }
}

/// These numbers of an accepted call; the lent buffers are written on the way.
fn values(call: &Call, left: &mut Left) -> Result<Vec<u64>, Refusal> {
    let list = lent(&mut left.words);
    let output = lent(&mut left.output);
    match call {
        Call::File {
            file, countries, ..
        } => {
            let totals = judge(file, countries, list)?;
            Ok(vec![
                totals.lines as u64,
                totals.parcels as u64,
                totals.cents,
            ])
        }
        Call::Line {
            version,
            file,
            offset,
        } => {
            let line = read_line(*version, file, *offset)?;
            Ok(vec![
                u64::from(line.record),
                line.fields as u64,
                line.next as u64,
            ])
        }
        Call::Field(call) => {
            let (start, length) = find_field(call.version, &call.file, call.offset, call.number)?;
            Ok(vec![start as u64, length as u64])
        }
        Call::Write(call) => {
            let (version, record) = (call.version, call.record);
            let written = write_line(version, record, &call.text, &call.ends, output, call.fill)?;
            Ok(vec![written as u64])
        }
        Call::Purpose(call) => {
            let written = purpose(&call.file, &call.countries, call.line, list, output)?;
            Ok(vec![written as u64])
        }
        Call::Check(symbols) => match check_number(symbols)? {
            Kind::Tracking => Ok(vec![1]),
            Kind::Label => Ok(vec![2]),
        },
        Call::Issue(call) => Ok(vec![issue_number(&call.body, output)? as u64]),
        Call::Iban(symbols) => check_iban(symbols).map(|()| Vec::new()),
        Call::CheckIdentcode(code) => check_identcode(code).map(|()| Vec::new()),
        Call::ReadIdentcode(code) => {
            let parts = read_identcode(code)?;
            let each = [
                parts.origin,
                parts.customer,
                parts.sequence,
                parts.product,
                parts.destination,
                parts.check,
            ];
            let numbers = each.iter().flat_map(|part| [part.start, part.len()]);
            Ok(numbers.map(|number| number as u64).collect())
        }
        Call::IssueIdentcode(call) => Ok(vec![issue_identcode(&call.body, output)? as u64]),
        Call::Carry(call) => Ok(vec![u64::from(next_carry(call.carry, call.symbol)?)]),
        Call::Day(call) => Ok(vec![check_numbers(&call.numbers, output)? as u64]),
    }
}
