//! Measures the static library beside the independent implementation in tests/reference and beside csv-core, which only splits
//! files into fields: bench [DAY], where DAY is a file that the numbers of the measured day are written to, for others to check. ./bench
//! runs it; docs/BENCHMARKS.md says what the numbers mean.

mod day;
mod files;
mod splitting;
mod timing;

use files::{file, Codes, Kind, SEED};
use peliranopi::{Version, CARRY_PASSED, CARRY_START, IDENTCODE_LEN, LABEL_LEN, TRACKING_LEN};
use reference::generate::{valid_iban, valid_identcode, valid_number, Rng};
use splitting::Splitter;
use std::hint::black_box;
use std::ops::Range;
use timing::best;

const LONG: usize = 65_535;
const SHORT: usize = 16_384;

/// How many words of a list are lent.
const WORDS: usize = 4096;

const MILLION: usize = 1_000_000;

/// How often everything is measured at least.
const ROUNDS: usize = 30;
const ROUNDS_OF_A_MILLION: usize = 5;

/// Thirty countries, to none of which a file here ships.
const COUNTRIES: &[u8] = b"ALARAUBABRCACHCLCNGBGEILINISJPKRLIMDMEMKMXNONZRSSGTRUAUSXKZA";

/// A file by its name and kind, and the countries that are lent with it.
type Row = (&'static str, Kind, &'static [u8]);

#[rustfmt::skip]
const ROWS: [Row; 12] = [
    ("typical", Kind::Typical, b""),
    ("typical, version 7", Kind::TypicalSeven, b""),
    ("typical, refused at its last line", Kind::RefusedAtItsEnd, b""),
    ("typical, 30 countries lent", Kind::Typical, COUNTRIES),
    ("typical without contacts, 30 countries lent", Kind::WithoutContacts, COUNTRIES),
    ("parcels, identcodes drawn", Kind::Parcels(Codes::Drawn), b""),
    ("parcels, last digits rise", Kind::Parcels(Codes::LastDigitsRise), b""),
    ("parcels, last digits fall", Kind::Parcels(Codes::LastDigitsFall), b""),
    ("parcels, first digits rise", Kind::Parcels(Codes::FirstDigitsRise), b""),
    ("parcels, first digits fall", Kind::Parcels(Codes::FirstDigitsFall), b""),
    ("parcels, last two alike", Kind::Parcels(Codes::LastTwoAlike), b""),
    ("parcels, deep tree", Kind::Parcels(Codes::DeepTree), b""),
];

/// The rows whose parts are measured as well. From the third on the files are crafted.
const TYPICAL: usize = 0;
const TYPICAL_SEVEN: usize = 1;
const PARCELS: usize = 5;

fn main() {
    let measured = measure_files();
    print_long(&measured);
    print_growth(&measured);
    print_targets(&measured);
    measure_parts();
    measure_numbers();
    day::measure();
}

/// What judging a long and a short file of a kind took: the library, the reference, and csv-core for splitting.
struct Judged {
    name: &'static str,
    lines: usize,
    answer: String,
    long: [f64; 3],
    short: [f64; 3],
}

impl Judged {
    /// How many times as long as a short file the long one takes the library.
    fn growth(&self) -> f64 {
        self.long[0] / self.short[0]
    }
}

/// Judging whole files, long and short.
fn measure_files() -> [Judged; ROWS.len()] {
    ROWS.map(|(name, kind, countries)| {
        let (long, short) = (file(kind, LONG), file(kind, SHORT));
        Judged {
            name,
            lines: lines(&long).len(),
            answer: answer(&long, countries),
            long: judged(&long, countries),
            short: judged(&short, countries),
        }
    })
}

fn print_long(measured: &[Judged]) {
    println!(
        "Files of {LONG} bytes, judged; csv-core only splits them. Best of {ROUNDS} runs or more."
    );
    println!("A list of {WORDS} words is lent with its old content: clearing it is in the time.");
    head(&[
        "File",
        "Lines",
        "Answer",
        "Library µs",
        "MB/s",
        "Reference µs",
        "csv-core µs",
        "Library / reference",
        "Library / csv-core",
    ]);
    for judged in measured {
        let [library, reference, splitting] = judged.long;
        row(&[
            judged.name.to_string(),
            judged.lines.to_string(),
            judged.answer.clone(),
            format!("{library:.0}"),
            format!("{:.1}", LONG as f64 / library),
            format!("{reference:.0}"),
            format!("{splitting:.0}"),
            format!("{:.2}", library / reference),
            format!("{:.2}", library / splitting),
        ]);
    }
}

fn print_growth(measured: &[Judged]) {
    println!();
    println!("The same kinds with {SHORT} bytes, and how many times as long {LONG} bytes take.");
    println!("The last column is the part of the long file's time that grows with the square.");
    head(&[
        "File",
        "Library µs",
        "Library, times",
        "Reference, times",
        "csv-core, times",
        "Library, square µs",
    ]);
    for Judged {
        name, long, short, ..
    } in measured
    {
        // Of a + b the short file, a quarter as long, takes a / 4 + b / 16; b is the square's.
        let square = (long[0] - 4.0 * short[0]) * 4.0 / 3.0;
        let times = |which: usize| format!("{:.2}", long[which] / short[which]);
        row(&[
            name.to_string(),
            format!("{:.0}", short[0]),
            times(0),
            times(1),
            times(2),
            format!("{square:.0}"),
        ]);
    }
}

/// The first targets, and how far the library is from them.
fn print_targets(measured: &[Judged]) {
    let typical = &measured[TYPICAL];
    let crafted = measured[PARCELS..].iter();
    let worst = crafted.max_by(|one, other| one.growth().total_cmp(&other.growth()));
    let worst = worst.expect("there are crafted files");
    let target = |name: String, most: f64, measured: f64| {
        row(&[name, format!("{most:.2}"), format!("{measured:.2}")])
    };
    println!();
    println!("The first targets; the crafted file is the one that grows most.");
    head(&["Target", "At most", "Measured"]);
    target(
        format!("{}: library / csv-core", typical.name),
        1.0,
        typical.long[0] / typical.long[2],
    );
    target(
        format!("{}: long / short", typical.name),
        4.4,
        typical.growth(),
    );
    target(format!("{}: long / short", worst.name), 4.4, worst.growth());
}

/// The head of a table, below an empty line.
fn head(columns: &[&str]) {
    println!();
    println!("| {} |", columns.join(" | "));
    println!("|---|{}", "--:|".repeat(columns.len() - 1));
}

fn row(cells: &[String]) {
    println!("| {} |", cells.join(" | "));
}

/// The library's answer in a word.
fn answer(file: &[u8], countries: &[u8]) -> String {
    match peliranopi::judge(file, countries, &mut [0; WORDS]) {
        Ok(_) => "accepted".to_string(),
        Err(refused) => format!("refused by {}", refused.why.number()),
    }
}

/// Microseconds to judge a file under countries: the library's, the reference's, and csv-core's for splitting it.
fn judged(file: &[u8], countries: &[u8]) -> [f64; 3] {
    let (mut list, mut other_list) = (vec![u32::MAX; WORDS], vec![u32::MAX; WORDS]);
    let mut splitter = Splitter::new();
    require_same_work(file, countries, &mut list, &mut other_list, &mut splitter);
    best(
        ROUNDS,
        [
            &mut || _ = black_box(peliranopi::judge(black_box(file), countries, &mut list)),
            &mut || {
                _ = black_box(reference::file::judge(
                    black_box(file),
                    countries,
                    &mut other_list,
                ))
            },
            &mut || _ = black_box(splitter.split(black_box(file))),
        ],
    )
}

/// The same answer, list and number of parts.
fn require_same_work(
    file: &[u8],
    countries: &[u8],
    list: &mut [u32],
    other_list: &mut [u32],
    splitter: &mut Splitter,
) {
    let answer = peliranopi::judge(file, countries, list)
        .map(|totals| (totals.lines, totals.parcels, totals.cents))
        .map_err(|refused| (refused.why.number(), refused.place));
    let other = reference::file::judge(file, countries, other_list)
        .map(|totals| (totals.lines, totals.parcels, totals.cents))
        .map_err(|refusal| (refusal.number, refusal.place));
    assert_eq!(answer, other);
    assert_eq!(list, other_list);
    let parts = file
        .iter()
        .filter(|byte| matches!(byte, b';' | b'\n'))
        .count();
    assert_eq!(splitter.split(file), parts);
}

/// The bytes of each line, CR LF among them.
fn lines(file: &[u8]) -> Vec<Range<usize>> {
    let mut start = 0;
    let whole = file.split_inclusive(|byte| *byte == b'\n').map(|line| {
        let range = start..start + line.len();
        start = range.end;
        range
    });
    whole.collect()
}

/// Where the library's time goes: lines read alone, in whole or refused on the way, against judging the file.
fn measure_parts() {
    println!();
    println!("Where the library's time goes: `read_line` on each line by itself, and `judge` on the whole file.");
    head(&[
        "File",
        "Part",
        "Lines",
        "Bytes",
        "µs",
        "ns a byte",
        "Share of judging",
    ]);
    for (name, kind, _) in [ROWS[TYPICAL], ROWS[TYPICAL_SEVEN], ROWS[PARCELS]] {
        measure_parts_of(name, &file(kind, LONG));
    }
    let cleared = format!("{:.0}", judged(b"", b"")[0]);
    println!("| empty | judged: the list cleared twice | 0 | 0 | {cleared} | | |");
}

fn measure_parts_of(name: &str, file: &[u8]) {
    let whole = judged(file, b"")[0];
    let version = Version::of(file);
    let print = |part: &str, lines: &[Range<usize>], micros: f64| {
        let bytes: usize = lines.iter().map(Range::len).sum();
        row(&[
            name.to_string(),
            part.to_string(),
            lines.len().to_string(),
            bytes.to_string(),
            format!("{micros:.0}"),
            format!("{:.1}", 1000.0 * micros / bytes as f64),
            format!("{:.0} %", 100.0 * micros / whole),
        ]);
    };
    let all = lines(file);
    print(
        "line ends found",
        &all,
        read(version, &renamed(file, |_| *b"999"), &all),
    );
    print(
        "and fields counted",
        &all,
        read(version, &renamed(file, with_other_count), &all),
    );
    let tested = read(version, file, &all);
    print("and fields tested: lines read", &all, tested);
    for record in ["020", "030", "040", "050", "060"] {
        let mut some = all.clone();
        some.retain(|line| file[line.start..].starts_with(record.as_bytes()));
        print(
            &format!("of these the {record} lines"),
            &some,
            read(version, file, &some),
        );
    }
    print("left: order, identcodes, cash, list", &all, whole - tested);
    print("judged", &all, whole);
}

/// Microseconds that the library takes to read these lines, each by itself.
fn read(version: Version, file: &[u8], lines: &[Range<usize>]) -> f64 {
    let mut task = || {
        for line in lines {
            let read = peliranopi::read_line(version, black_box(file), line.start);
            _ = black_box(read);
        }
    };
    best(ROUNDS, [&mut task])[0]
}

/// The file with other record types, so that reading a line ends early: by 3 once its end is found, or by 5 once its fields are
/// counted.
fn renamed(file: &[u8], name: fn(&[u8]) -> [u8; 3]) -> Vec<u8> {
    let mut renamed = file.to_vec();
    for line in lines(file) {
        let record = line.start..line.start + 3;
        renamed[record.clone()].copy_from_slice(&name(&file[record]));
    }
    renamed
}

/// A record type that never has as many fields as this one.
fn with_other_count(record: &[u8]) -> [u8; 3] {
    match record {
        b"030" => *b"010",
        _ => *b"030",
    }
}

/// A million numbers of each kind, each checked or issued by its own call, or keyed by one for each symbol.
fn measure_numbers() {
    println!();
    println!("A million numbers that pass, each checked by its own call, or issued; keyed, by a call for each symbol.");
    println!("Best of {ROUNDS_OF_A_MILLION} runs or more.");
    head(&[
        "Numbers",
        "Library ns each",
        "Reference ns each",
        "Library / reference",
    ]);
    let passes = |number: &[u8]| peliranopi::check_number(number).is_ok();
    let passes_there = |number: &[u8]| reference::numbers::check_number(number).is_ok();
    let tracking = |rng: &mut Rng| number_of(rng, TRACKING_LEN);
    let label = |rng: &mut Rng| number_of(rng, LABEL_LEN);
    print_numbers("tracking numbers", tracking, passes, passes_there);
    print_numbers("label codes", label, passes, passes_there);
    let issues = |number: &[u8]| {
        let body = &number[..number.len() - 1];
        peliranopi::issue_number(body, black_box(&mut [0; LABEL_LEN])).is_ok()
    };
    let issues_there = |number: &[u8]| {
        let body = &number[..number.len() - 1];
        reference::numbers::issue_number(body, black_box(&mut [0; LABEL_LEN])).is_ok()
    };
    print_numbers("tracking numbers, issued", tracking, issues, issues_there);
    print_numbers("label codes, issued", label, issues, issues_there);
    let passes = |number: &[u8]| {
        let mut keys = number.iter();
        let carry = keys.try_fold(CARRY_START, |carry, key| {
            peliranopi::next_carry(carry, *key)
        });
        carry == Ok(CARRY_PASSED)
    };
    let passes_there = |number: &[u8]| {
        let mut keys = number.iter();
        let carry = keys.try_fold(36, |carry, key| reference::numbers::next_carry(carry, *key));
        carry == Ok(2)
    };
    print_numbers("tracking numbers, keyed", tracking, passes, passes_there);
    let passes = |iban: &[u8]| peliranopi::check_iban(iban).is_ok();
    let passes_there = |iban: &[u8]| reference::numbers::check_iban(iban).is_ok();
    print_numbers("IBANs", valid_iban, passes, passes_there);
    print_numbers("IBANs, Austrian", iban_of_digits, passes, passes_there);
    let passes = |code: &[u8]| peliranopi::check_identcode(code).is_ok();
    let passes_there = |code: &[u8]| reference::identcode::check_identcode(code).is_ok();
    print_numbers("identcodes", valid_identcode, passes, passes_there);
    let issues =
        |body: &[u8]| peliranopi::issue_identcode(body, black_box(&mut [0; IDENTCODE_LEN])).is_ok();
    let issues_there = |body: &[u8]| {
        reference::identcode::issue_identcode(body, black_box(&mut [0; IDENTCODE_LEN])).is_ok()
    };
    print_numbers(
        "identcodes, issued",
        |rng| rng.digits(IDENTCODE_LEN - 1),
        issues,
        issues_there,
    );
}

/// A number that passes, of this length.
fn number_of(rng: &mut Rng, length: usize) -> Vec<u8> {
    loop {
        let number = valid_number(rng);
        if number.len() == length {
            return number;
        }
    }
}

/// An Austrian IBAN that passes: `AT`, the check digits and 16 digits. Behind the account, `AT00` counts as 102900.
fn iban_of_digits(rng: &mut Rng) -> Vec<u8> {
    let account = String::from_utf8(rng.digits(16)).expect("digits are text");
    let number: u128 = account.parse().expect("digits are a number");
    let check = 98 - (number * 1_000_000 + 102_900) % 97;
    format!("AT{check:02}{account}").into_bytes()
}

fn print_numbers(
    name: &str,
    draw: impl Fn(&mut Rng) -> Vec<u8>,
    library: impl Fn(&[u8]) -> bool,
    reference: impl Fn(&[u8]) -> bool,
) {
    let mut rng = Rng::new(SEED);
    let numbers: Vec<Vec<u8>> = (0..MILLION).map(|_| draw(&mut rng)).collect();
    let ours = || {
        numbers
            .iter()
            .filter(|number| library(black_box(number)))
            .count()
    };
    let theirs = || {
        numbers
            .iter()
            .filter(|number| reference(black_box(number)))
            .count()
    };
    assert_eq!((ours(), theirs()), (MILLION, MILLION));
    let tasks: [&mut dyn FnMut(); 2] = [&mut || _ = black_box(ours()), &mut || {
        _ = black_box(theirs())
    }];
    let [library, reference] =
        best(ROUNDS_OF_A_MILLION, tasks).map(|micros| micros * 1000.0 / MILLION as f64);
    row(&[
        name.to_string(),
        format!("{library:.0}"),
        format!("{reference:.0}"),
        format!("{:.2}", library / reference),
    ]);
}
