//! The calls as the static library answers them, by its own functions.

use crate::{lent, Call, Left, NONSENSE};
use peliranopi::sys;
use reference::generate::{CarryCall, LineCall, WriterCall};

/// What the library leaves of what was there before the call.
pub fn left(call: &Call, mut left: Left) -> Left {
    match call {
        Call::File { .. } => judge(&mut left),
        Call::Line {
            version, offset, ..
        } => read_line(&mut left, *version, *offset),
        Call::Field(call) => find_field(&mut left, call),
        Call::Write(call) => write_line(&mut left, call),
        Call::Purpose(call) => write_purpose(&mut left, call.line),
        Call::Check(_) => check_number(&mut left),
        Call::Issue(_) => issue_number(&mut left),
        Call::Iban(_) => check_iban(&mut left),
        Call::CheckIdentcode(_) => check_identcode(&mut left),
        Call::ReadIdentcode(_) => read_identcode(&mut left),
        Call::IssueIdentcode(_) => issue_identcode(&mut left),
        Call::Carry(call) => next_carry(&mut left, call),
        Call::Day(_) => check_numbers(&mut left),
    }
    left
}

// Every pointer below is that of a slice or of a number that lives through the call, each length is the slice's own, and what is
// lent for writing overlaps nothing else.

fn judge(left: &mut Left) {
    let (mut lines, mut parcels, mut cents) = (NONSENSE, NONSENSE, NONSENSE as u64);
    let list = lent(&mut left.words);
    // SAFETY: as said above.
    left.answer = unsafe {
        sys::peliranopi_judge(
            left.input.as_ptr(),
            left.input.len(),
            left.countries.as_ptr(),
            left.countries.len(),
            list.as_mut_ptr(),
            list.len(),
            &mut lines,
            &mut parcels,
            &mut cents,
            &mut left.place,
        )
    };
    left.values = vec![lines as u64, parcels as u64, cents];
}

fn read_line(left: &mut Left, version: u32, offset: usize) {
    let (mut record, mut fields, mut next) = (NONSENSE as u32, NONSENSE, NONSENSE);
    // SAFETY: as said above.
    left.answer = unsafe {
        sys::peliranopi_read_line(
            version,
            left.input.as_ptr(),
            left.input.len(),
            offset,
            &mut record,
            &mut fields,
            &mut next,
            &mut left.place,
        )
    };
    left.values = vec![u64::from(record), fields as u64, next as u64];
}

fn find_field(left: &mut Left, call: &LineCall) {
    let (mut start, mut length) = (NONSENSE, NONSENSE);
    // SAFETY: as said above.
    left.answer = unsafe {
        sys::peliranopi_find_field(
            call.version,
            left.input.as_ptr(),
            left.input.len(),
            call.offset,
            call.number,
            &mut start,
            &mut length,
            &mut left.place,
        )
    };
    left.values = vec![start as u64, length as u64];
}

fn write_line(left: &mut Left, call: &WriterCall) {
    let mut written = NONSENSE;
    let output = lent(&mut left.output);
    // SAFETY: as said above.
    left.answer = unsafe {
        sys::peliranopi_write_line(
            call.version,
            call.record,
            left.input.as_ptr(),
            left.input.len(),
            left.ends.as_ptr(),
            left.ends.len(),
            output.as_mut_ptr(),
            output.len(),
            call.fill,
            &mut written,
            &mut left.place,
        )
    };
    left.values = vec![written as u64];
}

fn write_purpose(left: &mut Left, line: usize) {
    let mut written = NONSENSE;
    let list = lent(&mut left.words);
    let output = lent(&mut left.output);
    // SAFETY: as said above.
    left.answer = unsafe {
        sys::peliranopi_write_purpose(
            left.input.as_ptr(),
            left.input.len(),
            left.countries.as_ptr(),
            left.countries.len(),
            line,
            list.as_mut_ptr(),
            list.len(),
            output.as_mut_ptr(),
            output.len(),
            &mut written,
            &mut left.place,
        )
    };
    left.values = vec![written as u64];
}

fn check_number(left: &mut Left) {
    let mut kind = NONSENSE as u32;
    // SAFETY: as said above.
    left.answer = unsafe {
        sys::peliranopi_check_number(
            left.input.as_ptr(),
            left.input.len(),
            &mut kind,
            &mut left.place,
        )
    };
    left.values = vec![u64::from(kind)];
}

fn issue_number(left: &mut Left) {
    let mut written = NONSENSE;
    let output = lent(&mut left.output);
    // SAFETY: as said above.
    left.answer = unsafe {
        sys::peliranopi_issue_number(
            left.input.as_ptr(),
            left.input.len(),
            output.as_mut_ptr(),
            output.len(),
            &mut written,
            &mut left.place,
        )
    };
    left.values = vec![written as u64];
}

fn check_iban(left: &mut Left) {
    // SAFETY: as said above.
    left.answer = unsafe {
        sys::peliranopi_check_iban(left.input.as_ptr(), left.input.len(), &mut left.place)
    };
}

fn check_identcode(left: &mut Left) {
    // SAFETY: as said above.
    left.answer = unsafe {
        sys::peliranopi_check_identcode(left.input.as_ptr(), left.input.len(), &mut left.place)
    };
}

fn read_identcode(left: &mut Left) {
    let nonsense = sys::peliranopi_part {
        start: NONSENSE,
        length: NONSENSE,
    };
    let mut parts = sys::peliranopi_identcode_parts {
        origin: nonsense,
        customer: nonsense,
        sequence: nonsense,
        product: nonsense,
        destination: nonsense,
        check: nonsense,
    };
    // SAFETY: as said above.
    left.answer = unsafe {
        sys::peliranopi_read_identcode(
            left.input.as_ptr(),
            left.input.len(),
            &mut parts,
            &mut left.place,
        )
    };
    let each = [
        parts.origin,
        parts.customer,
        parts.sequence,
        parts.product,
        parts.destination,
        parts.check,
    ];
    let numbers = each.iter().flat_map(|part| [part.start, part.length]);
    left.values = numbers.map(|number| number as u64).collect();
}

fn issue_identcode(left: &mut Left) {
    let mut written = NONSENSE;
    let output = lent(&mut left.output);
    // SAFETY: as said above.
    left.answer = unsafe {
        sys::peliranopi_issue_identcode(
            left.input.as_ptr(),
            left.input.len(),
            output.as_mut_ptr(),
            output.len(),
            &mut written,
            &mut left.place,
        )
    };
    left.values = vec![written as u64];
}

fn next_carry(left: &mut Left, call: &CarryCall) {
    let mut next = NONSENSE as u32;
    // SAFETY: as said above.
    left.answer =
        unsafe { sys::peliranopi_next_carry(call.carry, call.symbol, &mut next, &mut left.place) };
    left.values = vec![u64::from(next)];
}

fn check_numbers(left: &mut Left) {
    let mut passed = NONSENSE;
    let answers = lent(&mut left.output);
    // SAFETY: as said above.
    left.answer = unsafe {
        sys::peliranopi_check_numbers(
            left.input.as_ptr(),
            left.input.len(),
            answers.as_mut_ptr(),
            answers.len(),
            &mut passed,
            &mut left.place,
        )
    };
    left.values = vec![passed as u64];
}
