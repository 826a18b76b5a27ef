//! The calls that are run: each length of each buffer up to a bound, and generated calls, valid and
//! damaged.

use crate::call::Call;
use reference::generate::*;
use reference::version::Version;

/// Six lines that are accepted, the last of them a cash line, as a file of each version. The shipment goes
/// to AT.
const EXAMPLE: &[u8] = include_bytes!("../../../examples/preadvice.csv");
const EXAMPLE_7: &[u8] = include_bytes!("../../../examples/preadvice-7.csv");
/// The two, and where their lines start.
const EXAMPLES: [(u32, &[u8], [usize; 6]); 2] = [
    (5, EXAMPLE, [0, 74, 116, 178, 208, 216]),
    (7, EXAMPLE_7, [0, 64, 106, 168, 205, 213]),
];
const CASH_LINE: usize = 5;
/// Numbers that are no version; cut to 8 or 16 bits some of them would be one.
const NO_VERSIONS: [u32; 9] = [0, 4, 6, 8, 57, 256 + 5, 256 + 7, 65_536 + 7, u32::MAX];

/// Bounds of the lengths of numbers, countries and outputs, and of lists.
const BYTES: usize = 64;
const WORDS: usize = 40;

pub fn all(rng: &mut Rng) -> Vec<Call> {
    let mut calls = Vec::new();
    numbers(rng, &mut calls);
    issues(rng, &mut calls);
    identcodes(rng, &mut calls);
    cut_files(rng, &mut calls);
    lists(rng, &mut calls);
    lent_countries(rng, &mut calls);
    whole_files(rng, &mut calls);
    files_at_the_limit(rng, &mut calls);
    lines(rng, &mut calls);
    fields(&mut calls);
    writings(rng, &mut calls);
    generated_writings(rng, &mut calls);
    purposes(rng, &mut calls);
    carries(rng, &mut calls);
    versions(&mut calls);
    days(rng, &mut calls);
    calls
}

/// The same symbols again and again, to a length.
fn repeated(symbols: &[u8], length: usize) -> Vec<u8> {
    symbols.iter().copied().cycle().take(length).collect()
}

fn numbers(rng: &mut Rng, calls: &mut Vec<Call>) {
    let mut both = |symbols: Vec<u8>| {
        let same = symbols.clone();
        calls.push(Call::CheckNumber { symbols });
        calls.push(Call::CheckIban { symbols: same });
    };
    for length in 0..=BYTES {
        both(repeated(&valid_number(rng), length));
        both(repeated(&valid_iban(rng), length));
        both(rng.digits(length));
        both((0..length).map(|_| rng.byte()).collect());
    }
    for _ in 0..300 {
        both(valid_number(rng));
        both(damaged_number(rng));
        both(valid_iban(rng));
        both(damaged_iban(rng));
    }
}

/// Every length of the body with every length of the output.
fn issues(rng: &mut Rng, calls: &mut Vec<Call>) {
    for length in 0..=BYTES {
        for output in 0..=BYTES {
            let body = rng.digits(length);
            calls.push(Call::IssueNumber(IssueCall { body, output }));
        }
    }
    for _ in 0..500 {
        calls.push(Call::IssueNumber(issue_call(rng)));
    }
}

/// Every length of a code, and of a body with every length of the output.
fn identcodes(rng: &mut Rng, calls: &mut Vec<Call>) {
    let mut both = |code: Vec<u8>| {
        let same = code.clone();
        calls.push(Call::CheckIdentcode { code });
        calls.push(Call::ReadIdentcode { code: same });
    };
    for length in 0..=BYTES {
        both(repeated(&valid_identcode(rng), length));
        both(rng.digits(length));
        both((0..length).map(|_| rng.byte()).collect());
    }
    for _ in 0..300 {
        both(valid_identcode(rng));
        both(damaged_identcode(rng));
    }
    for length in 0..=BYTES {
        for output in 0..=BYTES {
            let body = rng.digits(length);
            calls.push(Call::IssueIdentcode(IssueCall { body, output }));
        }
    }
    for _ in 0..500 {
        calls.push(Call::IssueIdentcode(identcode_issue_call(rng)));
    }
}

/// Files that end anywhere, read at each of their lines.
fn cut_files(rng: &mut Rng, calls: &mut Vec<Call>) {
    for whole in [
        EXAMPLE.to_vec(),
        EXAMPLE_7.to_vec(),
        valid_file_as(Version::V5, rng, 5),
        valid_file_as(Version::V7, rng, 5),
        valid_file_as(Version::V5, rng, 12),
        valid_file_as(Version::V7, rng, 20),
    ] {
        let version = Version::of_file(&whole).number();
        for length in 0..=whole.len() {
            let file = whole[..length].to_vec();
            calls.push(Call::Judge {
                file: file.clone(),
                countries: Vec::new(),
                words: WORDS,
            });
            let offset = last_line(&file);
            let number = rng.between(0, 41);
            calls.push(Call::FindField(LineCall {
                version,
                file: file.clone(),
                offset,
                number,
            }));
            calls.push(Call::ReadLine {
                version,
                file,
                offset,
            });
        }
    }
}

/// Where the last line that was begun starts.
fn last_line(file: &[u8]) -> usize {
    let line_feed = file.iter().rposition(|byte| *byte == b'\n');
    line_feed.map_or(0, |at| at + 1)
}

/// Lists of every length, for files with fewer, as many and more lines.
fn lists(rng: &mut Rng, calls: &mut Vec<Call>) {
    let files = [
        EXAMPLE.to_vec(),
        EXAMPLE_7.to_vec(),
        valid_file_as(Version::V5, rng, 20),
        valid_file_as(Version::V7, rng, 38),
    ];
    for file in files {
        for words in 0..=WORDS {
            calls.push(Call::Judge {
                file: file.clone(),
                countries: Vec::new(),
                words,
            });
            calls.push(Call::WritePurpose(PurposeCall {
                file: file.clone(),
                countries: Vec::new(),
                line: CASH_LINE,
                words,
                output: 35,
            }));
        }
    }
}

/// Countries of every length that name none, or in their last pair the shipment's, with contacts and
/// without.
fn lent_countries(rng: &mut Rng, calls: &mut Vec<Call>) {
    let silent = String::from_utf8_lossy(EXAMPLE).replace(";1;1;a@b;", ";1;;;");
    for file in [EXAMPLE, silent.as_bytes()] {
        for length in 0..=BYTES {
            let none = vec![b'X'; length];
            let mut last = none.clone();
            if let Some(pair) = last.last_chunk_mut() {
                *pair = *b"AT";
            }
            let any = (0..length).map(|_| rng.byte()).collect();
            for countries in [none, last, any] {
                calls.push(Call::Judge {
                    file: file.to_vec(),
                    countries: countries.clone(),
                    words: WORDS,
                });
                calls.push(Call::WritePurpose(PurposeCall {
                    file: file.to_vec(),
                    countries,
                    line: CASH_LINE,
                    words: WORDS,
                    output: 35,
                }));
            }
        }
    }
}

fn whole_files(rng: &mut Rng, calls: &mut Vec<Call>) {
    for _ in 0..200 {
        let case = file_case(rng);
        calls.push(Call::Judge {
            file: case.file,
            countries: case.countries,
            words: case.words,
        });
    }
}

/// Files of 65,534 to 65,537 bytes.
fn files_at_the_limit(rng: &mut Rng, calls: &mut Vec<Call>) {
    const WAYS: [Damage; 4] = [
        Damage::GrowToLimit,
        Damage::GrowPastLimit,
        Damage::PadToLimit,
        Damage::PadPastLimit,
    ];
    for way in WAYS {
        let (version, example, _) = rng.pick(&EXAMPLES);
        let mut grown = example.to_vec();
        damage(way, rng, &mut grown);
        for length in 65_534..=65_537 {
            let mut file = grown.clone();
            file.resize(length, b'\r');
            let offset = rng.pick(&[last_line(&file), length - 1, length]);
            calls.push(Call::Judge {
                file: file.clone(),
                countries: b"AT".to_vec(),
                words: 4_096,
            });
            calls.push(Call::WritePurpose(PurposeCall {
                file: file.clone(),
                countries: b"AT".to_vec(),
                line: CASH_LINE,
                words: 4_096,
                output: 35,
            }));
            calls.push(Call::ReadLine {
                version,
                file,
                offset,
            });
        }
    }
}

/// Every offset of the examples, and generated lines.
fn lines(rng: &mut Rng, calls: &mut Vec<Call>) {
    let generated = (0..1_500).map(|_| line_call(rng)).collect::<Vec<_>>();
    let of_examples = EXAMPLES.iter().flat_map(|(version, file, _)| {
        let offsets = (0..=file.len() + 1).chain([usize::MAX]);
        offsets.map(|offset| LineCall {
            version: *version,
            file: file.to_vec(),
            offset,
            number: 1,
        })
    });
    for call in of_examples.chain(generated) {
        calls.push(Call::ReadLine {
            version: call.version,
            file: call.file.clone(),
            offset: call.offset,
        });
        calls.push(Call::FindField(call));
    }
}

/// Every field number of each line of the examples, and fields at the boundaries of their rules, each
/// line being a file by itself.
fn fields(calls: &mut Vec<Call>) {
    for (version, file, starts) in EXAMPLES {
        for offset in starts {
            for number in (0..=42).chain([usize::MAX]) {
                calls.push(Call::FindField(LineCall {
                    version,
                    file: file.to_vec(),
                    offset,
                    number,
                }));
            }
        }
    }
    // One in 101, to be quick; this is prime, so the steps meet other cases in each field.
    for case in field_cases().into_iter().step_by(101) {
        calls.push(Call::ReadLine {
            version: case.version,
            file: case.line(),
            offset: 0,
        });
        calls.push(Call::WriteLine(case.writer_call()));
    }
}

/// A line of each record: written into outputs of every length and around its own, and with its
/// text and its ends cut everywhere.
fn writings(rng: &mut Rng, calls: &mut Vec<Call>) {
    let records = [10, 20, 30, 40, 50, 60];
    for (version, record) in [5, 7]
        .into_iter()
        .flat_map(|version| records.map(|record| (version, record)))
    {
        let whole = loop {
            let call = valid_writer_call(rng);
            if (call.version, call.record) == (version, record) {
                break call;
            }
        };
        let length = whole.text.len() + whole.ends.len() + 5;
        for output in (0..=BYTES).chain(length - 3..=length + 8) {
            for fill in [0, 5, output] {
                let mut call = whole.clone();
                (call.output, call.fill) = (output, fill);
                calls.push(Call::WriteLine(call));
            }
        }
        for count in 0..whole.ends.len() {
            let mut call = whole.clone();
            call.ends.truncate(count);
            calls.push(Call::WriteLine(call.clone()));
            call.text.truncate(call.ends.last().copied().unwrap_or(0));
            calls.push(Call::WriteLine(call));
        }
        for count in 0..whole.text.len() {
            let mut call = whole.clone();
            call.text.truncate(count);
            calls.push(Call::WriteLine(call));
        }
    }
}

fn generated_writings(rng: &mut Rng, calls: &mut Vec<Call>) {
    for _ in 0..1_500 {
        calls.push(Call::WriteLine(writer_call(rng)));
    }
}

/// Outputs of every length, every line of the examples, and generated calls.
fn purposes(rng: &mut Rng, calls: &mut Vec<Call>) {
    for output in 0..=BYTES {
        for line in (0..=6).chain([usize::MAX]) {
            for (_, file, _) in EXAMPLES {
                calls.push(Call::WritePurpose(PurposeCall {
                    file: file.to_vec(),
                    countries: Vec::new(),
                    line,
                    words: 6,
                    output,
                }));
            }
        }
    }
    for _ in 0..300 {
        calls.push(Call::WritePurpose(purpose_call(rng)));
    }
}

/// Every carry and the numbers beside them, with symbols and the bytes beside these.
fn carries(rng: &mut Rng, calls: &mut Vec<Call>) {
    for carry in (0..=37).chain([u32::MAX]) {
        for symbol in *b"/09:@AZ[`az{" {
            calls.push(Call::NextCarry(CarryCall { carry, symbol }));
        }
    }
    for _ in 0..500 {
        calls.push(Call::NextCarry(carry_call(rng)));
    }
}

/// Line calls that are told no version, on lines and outputs that would be accepted and on others.
fn versions(calls: &mut Vec<Call>) {
    for version in NO_VERSIONS.into_iter().chain([5, 7]) {
        for (_, file, starts) in EXAMPLES {
            for offset in starts.into_iter().chain([file.len(), usize::MAX]) {
                let file = file.to_vec();
                calls.push(Call::FindField(LineCall {
                    version,
                    file: file.clone(),
                    offset,
                    number: 1,
                }));
                calls.push(Call::ReadLine {
                    version,
                    file,
                    offset,
                });
            }
        }
        calls.push(Call::ReadLine {
            version,
            file: vec![b' '; 65_536],
            offset: 0,
        });
        for record in [50, 51] {
            for output in 0..=12 {
                let mut call = WriterCall::new(version, record, &[b"10".to_vec()]);
                call.output = output;
                calls.push(Call::WriteLine(call));
            }
        }
    }
}

/// Every length of the numbers with rooms for fewer, as many and more of them, and generated days.
fn days(rng: &mut Rng, calls: &mut Vec<Call>) {
    for length in 0..=BYTES {
        for room in 0..=6 {
            let whole = repeated(&number_of(rng.digits(14)), length);
            let any = (0..length).map(|_| rng.byte()).collect();
            for numbers in [whole, rng.digits(length), any] {
                calls.push(Call::CheckNumbers(DayCall { numbers, room }));
            }
        }
    }
    for room in 0..=BYTES {
        let numbers = repeated(&number_of(rng.digits(14)), 15 * room);
        for lent in [room.saturating_sub(1), room, room + 1] {
            let numbers = numbers.clone();
            calls.push(Call::CheckNumbers(DayCall {
                numbers,
                room: lent,
            }));
        }
    }
    for _ in 0..1_000 {
        calls.push(Call::CheckNumbers(day_call(rng)));
    }
}
