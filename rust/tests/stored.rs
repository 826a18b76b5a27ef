//! The stored files and vectors of the test programs, called from Rust.

use peliranopi::*;

/// The folders of the test programs that have them.
const CASES: &str = concat!(env!("CARGO_MANIFEST_DIR"), "/../crates/test_cases");
const VECTORS: &str = concat!(env!("CARGO_MANIFEST_DIR"), "/../crates/test_vectors");

fn rows(folder: &str, name: &str) -> Vec<String> {
    let text = std::fs::read_to_string(format!("{folder}/{name}")).unwrap();
    text.lines().map(String::from).collect()
}

/// An answer in the words of the test programs.
fn said<T>(answer: Result<T, Refusal>, accepted: impl FnOnce(T) -> String) -> String {
    match answer {
        Ok(value) => accepted(value),
        Err(refused) => format!("no {} {}", refused.why.number(), refused.place),
    }
}

/// A row is a name in data/, the words lent, the countries or a hyphen for none, and the answer with
/// the sum of the list's words.
#[test]
fn the_stored_files_are_judged_as_stored() {
    let due = rows(CASES, "stdout");
    let judged = due.iter().map(|row| {
        let mut words = row.split(' ');
        let [name, count, lent] = std::array::from_fn(|_| words.next().unwrap());
        let countries = if lent == "-" { "" } else { lent };
        let file = std::fs::read(format!("{CASES}/data/{name}")).unwrap();
        let mut list = vec![u32::MAX; count.parse().unwrap()];
        let answer = said(judge(&file, countries.as_bytes(), &mut list), |totals| {
            format!("ok {} {} {}", totals.lines, totals.parcels, totals.cents)
        });
        let sum: u64 = list.into_iter().map(u64::from).sum();
        format!("{name} {count} {lent} {answer} list {sum}")
    });
    assert_eq!(judged.collect::<Vec<_>>(), due);
}

#[test]
fn the_examples_are_among_the_stored_files() {
    for (example, name) in [("preadvice", "example"), ("preadvice-7", "example_7")] {
        let example = std::fs::read(format!("{CASES}/../../examples/{example}.csv")).unwrap();
        let stored = std::fs::read(format!("{CASES}/data/{name}")).unwrap();
        assert_eq!(example, stored, "{name}");
    }
}

/// `Version::of` gives the one version under which each line of an accepted file is accepted alone,
/// and which stands on its header.
#[test]
fn the_stored_files_that_are_accepted_have_their_version() {
    let mut of_each = [0; 2];
    for row in rows(CASES, "stdout") {
        let mut words = row.split(' ');
        let [name, count, lent, answer] = std::array::from_fn(|_| words.next().unwrap());
        if answer != "ok" {
            continue;
        }
        let file = std::fs::read(format!("{CASES}/data/{name}")).unwrap();
        let mut list = vec![0; count.parse().unwrap()];
        let countries = if lent == "-" { "" } else { lent };
        let totals = judge(&file, countries.as_bytes(), &mut list).unwrap();
        let version = Version::of(&file);
        for offset in &list[..totals.lines] {
            let line = read_line(version, &file, *offset as usize);
            assert!(line.is_ok(), "{name} at {offset}: {line:?}");
        }
        let mark = find_field(version, &file, 0, 6).unwrap();
        assert_eq!(file[mark], version.number().to_string().into_bytes());
        for (one, files) in Version::ALL.iter().zip(&mut of_each) {
            assert_eq!(read_line(*one, &file, 0).is_ok(), *one == version, "{name}");
            *files += usize::from(*one == version);
        }
    }
    assert!(of_each.iter().all(|files| *files >= 20), "{of_each:?}");
}

/// The answer to a request, which is a letter, a space and symbols.
fn answer(request: &str) -> String {
    let symbols = request[2..].as_bytes();
    match &request[..1] {
        "N" => said(check_number(symbols), |kind| match kind {
            Kind::Tracking => "tracking number".to_string(),
            Kind::Label => "label code".to_string(),
        }),
        "B" => issued(issue_number, symbols),
        "I" => said(check_iban(symbols), |()| "IBAN".to_string()),
        "D" => said(check_identcode(symbols), |()| "identcode".to_string()),
        "P" => said(read_identcode(symbols), |parts| {
            let parts = [
                parts.origin,
                parts.customer,
                parts.sequence,
                parts.product,
                parts.destination,
                parts.check,
            ];
            let text = String::from_utf8_lossy(symbols);
            parts.map(|part| &text[part]).join(" ")
        }),
        "J" => issued(issue_identcode, symbols),
        "K" => {
            let (carry, key) = request[2..].split_once(' ').expect("a carry and a key");
            let next = next_carry(carry.parse().expect("a number"), key.as_bytes()[0]);
            said(next, |next| next.to_string())
        }
        "T" => typed(symbols),
        "A" => day(&request[2..]),
        asked => panic!("no call answers {asked}"),
    }
}

/// What is issued from a body, at the front of an output that is longer.
fn issued(issue: fn(&[u8], &mut [u8]) -> Result<usize, Refusal>, body: &[u8]) -> String {
    let mut output = *b"..............................";
    let written = issue(body, &mut output);
    said(written, |_| String::from_utf8_lossy(&output).into_owned())
}

/// The answer to each key, from the first carry on. Behind a refusal there is none: 0 stands for it.
fn typed(keys: &[u8]) -> String {
    let mut carry = CARRY_START;
    let answers = keys.iter().map(|key| {
        let next = next_carry(carry, *key);
        carry = *next.as_ref().unwrap_or(&0);
        said(next, |next| next.to_string())
    });
    answers.collect::<Vec<_>>().join(" ")
}

/// The answer to a room and a day's numbers, and behind it every answer byte of the room.
fn day(request: &str) -> String {
    let (room, numbers) = request.split_once(' ').expect("a room and numbers");
    let mut answers = vec![99; room.parse().expect("a number")];
    let passed = check_numbers(numbers.as_bytes(), &mut answers);
    let told = said(passed, |passed| format!("passed {passed}"));
    let answers = answers.iter().map(u8::to_string);
    [told]
        .into_iter()
        .chain(answers)
        .collect::<Vec<_>>()
        .join(" ")
}

/// Check characters (`C`) come from no call.
#[test]
fn the_stored_vectors_are_answered_as_stored() {
    let (requests, due) = (rows(VECTORS, "stdin"), rows(VECTORS, "stdout"));
    assert_eq!(requests.len(), due.len());
    for (request, due) in requests.iter().zip(due) {
        if !request.starts_with('C') {
            assert_eq!(format!("{} {}", &request[2..], answer(request)), due);
        }
    }
}
