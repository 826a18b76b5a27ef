//! Answers requests on standard input by the static library, one a line: `number SYMBOLS`, `issue BODY`, `iban SYMBOLS`,
//! `identcode CODE`, `issue-identcode BODY`, `key SYMBOLS` or `day NUMBERS`. Prints for each `tracking`, `label`, the number issued,
//! `iban`, `identcode`, the carry behind the symbols, or how many of the numbers passed and the answer of each; refused, `no NUMBER
//! PLACE`. tests/outside.py asks.

use compare::{lent, library, Call, Left};
use peliranopi::{next_carry, CARRY_START, TRACKING_LEN};
use reference::generate::{DayCall, IssueCall, Rng};
use std::io::{BufRead, Write};

fn main() -> std::io::Result<()> {
    let mut rng = Rng::new(0);
    let mut out = std::io::BufWriter::new(std::io::stdout().lock());
    for line in std::io::stdin().lock().split(b'\n') {
        let line = line?;
        let Some(said) = said(&line, &mut rng) else {
            eprintln!("numbers: no request: {}", String::from_utf8_lossy(&line));
            std::process::exit(2);
        };
        writeln!(out, "{said}")?;
    }
    out.flush()
}

/// The answer to a line; none where it asks for none.
fn said(line: &[u8], rng: &mut Rng) -> Option<String> {
    if let Some(symbols) = line.strip_prefix(b"key ") {
        return Some(keyed(symbols));
    }
    let call = request(line)?;
    let before = Left::before(&call, rng);
    Some(answer(&call, library::left(&call, before)))
}

/// The carry behind symbols that the library gets one by one.
fn keyed(symbols: &[u8]) -> String {
    let mut symbols = symbols.iter();
    match symbols.try_fold(CARRY_START, |carry, symbol| next_carry(carry, *symbol)) {
        Ok(carry) => carry.to_string(),
        Err(refused) => format!("no {} {}", refused.why.number(), refused.place),
    }
}

/// The call that a line asks for; none where it asks for none.
fn request(line: &[u8]) -> Option<Call> {
    let space = line.iter().position(|byte| *byte == b' ')?;
    let symbols = line[space + 1..].to_vec();
    match &line[..space] {
        b"number" => Some(Call::Check(symbols)),
        b"issue" => Some(Call::Issue(IssueCall {
            output: symbols.len() + 1,
            body: symbols,
        })),
        b"iban" => Some(Call::Iban(symbols)),
        b"identcode" => Some(Call::CheckIdentcode(symbols)),
        b"issue-identcode" => Some(Call::IssueIdentcode(IssueCall {
            output: symbols.len() + 1,
            body: symbols,
        })),
        b"day" => Some(Call::Day(DayCall {
            room: symbols.len() / TRACKING_LEN,
            numbers: symbols,
        })),
        _ => None,
    }
}

/// The library's answer in words.
fn answer(call: &Call, mut left: Left) -> String {
    if left.answer != 0 {
        return format!("no {} {}", left.answer, left.place);
    }
    match (call, &left.values[..]) {
        (Call::Check(_), [1]) => "tracking".to_string(),
        (Call::Check(_), [2]) => "label".to_string(),
        (Call::Issue(_) | Call::IssueIdentcode(_), [written]) => {
            let number = &lent(&mut left.output)[..*written as usize];
            String::from_utf8_lossy(number).into_owned()
        }
        (Call::Iban(_), []) => "iban".to_string(),
        (Call::CheckIdentcode(_), []) => "identcode".to_string(),
        (Call::Day(_), [passed]) => {
            let answers = lent(&mut left.output).iter().map(u8::to_string);
            let all = [format!("passed {passed}")].into_iter().chain(answers);
            all.collect::<Vec<_>>().join(" ")
        }
        _ => format!("unknown {:?}", left.values),
    }
}
