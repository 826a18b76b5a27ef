//! Answers a call by the safe functions, on plain buffers.

use crate::call::{Answer, Call, BYTE, WORD};
use peliranopi::{IdentcodeParts, Reason, Refusal, Version};

/// The answer, with the numbers as the C header has them: 0 where the call refuses.
pub fn answer(call: &Call) -> Answer {
    let (mut list, mut output) = lent(call);
    let (function, result) = result(call, &mut list, &mut output);
    let (refusal, place, numbers) = match result {
        Ok(numbers) => (0, 0, numbers),
        Err((refused, count)) => (refused.why.number(), refused.place, vec![0; count]),
    };
    Answer {
        function,
        refusal,
        place,
        numbers,
        list,
        output,
    }
}

/// The list and the output that a call lends.
fn lent(call: &Call) -> (Vec<u32>, Vec<u8>) {
    let (words, bytes) = match call {
        Call::Judge { words, .. } => (*words, 0),
        Call::WriteLine(call) => (0, call.output),
        Call::WritePurpose(call) => (call.words, call.output),
        Call::CheckNumbers(call) => (0, call.room),
        Call::IssueNumber(call) | Call::IssueIdentcode(call) => (0, call.output),
        _ => (0, 0),
    };
    (vec![WORD; words], vec![BYTE; bytes])
}

/// The function's name and its numbers, or the refusal and how many numbers there are.
type Named = (&'static str, Result<Vec<u64>, (Refusal, usize)>);

fn result(call: &Call, list: &mut [u32], output: &mut [u8]) -> Named {
    match call {
        Call::Judge {
            file, countries, ..
        } => {
            let totals = peliranopi::judge(file, countries, list);
            let numbers = totals.map(|t| [t.lines as u64, t.parcels as u64, t.cents]);
            named("judge", numbers)
        }
        Call::ReadLine {
            version,
            file,
            offset,
        } => {
            let line =
                told(*version).and_then(|version| peliranopi::read_line(version, file, *offset));
            let numbers = line.map(|l| [l.record as u64, l.fields as u64, l.next as u64]);
            named("read_line", numbers)
        }
        Call::FindField(call) => {
            let (file, offset) = (&call.file, call.offset);
            let field = told(call.version)
                .and_then(|version| peliranopi::find_field(version, file, offset, call.number));
            named(
                "find_field",
                field.map(|f| [f.start as u64, f.len() as u64]),
            )
        }
        Call::WriteLine(call) => {
            let (record, text, ends) = (call.record, &call.text, &call.ends);
            let written = told(call.version).and_then(|version| {
                peliranopi::write_line(version, record, text, ends, output, call.fill)
            });
            named("write_line", written.map(|count| [count as u64]))
        }
        Call::WritePurpose(call) => {
            let (file, countries) = (&call.file, &call.countries);
            let written = peliranopi::write_purpose(file, countries, call.line, list, output);
            named("write_purpose", written.map(|count| [count as u64]))
        }
        Call::CheckNumber { symbols } => {
            let kind = peliranopi::check_number(symbols);
            named("check_number", kind.map(|kind| [kind as u64]))
        }
        Call::CheckNumbers(call) => {
            let passed = peliranopi::check_numbers(&call.numbers, output);
            named("check_numbers", passed.map(|count| [count as u64]))
        }
        Call::IssueNumber(call) => {
            let written = peliranopi::issue_number(&call.body, output);
            named("issue_number", written.map(|count| [count as u64]))
        }
        Call::NextCarry(call) => {
            let next = peliranopi::next_carry(call.carry, call.symbol);
            named("next_carry", next.map(|next| [next.into()]))
        }
        Call::CheckIban { symbols } => {
            let passed = peliranopi::check_iban(symbols);
            named("check_iban", passed.map(|()| []))
        }
        Call::CheckIdentcode { code } => {
            let passed = peliranopi::check_identcode(code);
            named("check_identcode", passed.map(|()| []))
        }
        Call::ReadIdentcode { code } => {
            let parts = peliranopi::read_identcode(code);
            named("read_identcode", parts.map(numbers))
        }
        Call::IssueIdentcode(call) => {
            let written = peliranopi::issue_identcode(&call.body, output);
            named("issue_identcode", written.map(|count| [count as u64]))
        }
    }
}

/// The safe functions take no number that is no version. What the header promises for one stands here:
/// refusal 22 at 0, before all others, and nothing is written.
fn told(version: u32) -> Result<Version, Refusal> {
    Version::try_from(version).map_err(|_| Refusal {
        why: Reason::UnknownVersion,
        place: 0,
    })
}

fn named<const N: usize>(function: &'static str, numbers: Result<[u64; N], Refusal>) -> Named {
    let numbers = numbers.map(Vec::from).map_err(|refused| (refused, N));
    (function, numbers)
}

/// Start and length of each part.
fn numbers(parts: IdentcodeParts) -> [u64; 12] {
    let each = [
        parts.origin,
        parts.customer,
        parts.sequence,
        parts.product,
        parts.destination,
        parts.check,
    ];
    std::array::from_fn(|number| match number % 2 {
        0 => each[number / 2].start as u64,
        _ => each[number / 2].len() as u64,
    })
}
