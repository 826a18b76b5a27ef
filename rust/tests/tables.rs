//! What stands in more than one place, held together: the refusals, the other constants of the C
//! header, its functions and structs, the version, and the printed tables of the carry and of the
//! fields. A test fails with the name of the place that lacks a row.

use std::fmt::Debug;

use peliranopi::*;

const README: &str = include_str!("../../README.md");
const CHANGELOG: &str = include_str!("../../CHANGELOG.md");
const HEADER: &str = include_str!("../../c/peliranopi.h");
const PRINTED: &str = include_str!("../../docs/carry-table.txt");
const FIELDS: &str = include_str!("../../docs/fields.txt");
const PROVED: &str = include_str!("../../crates/refusal/src/lib.rt");
const CRATE: &str = include_str!("../src/refusal.rs");
const IDENTCODE: &str = include_str!("../src/identcode.rs");
const SYS: &str = include_str!("../sys/src/lib.rs");
const SYS_MANIFEST: &str = include_str!("../sys/Cargo.toml");

/// Requires that a place has these rows and no others, in their order.
fn hold<T: PartialEq + Debug>(place: &str, rows: &[T], due: &[T]) {
    let lacks: Vec<&T> = due.iter().filter(|row| !rows.contains(row)).collect();
    let beyond: Vec<&T> = rows.iter().filter(|row| !due.contains(row)).collect();
    assert!(
        rows == due,
        "{place} lacks {lacks:?}, has {beyond:?} which nobody else has, or has another order"
    );
}

/// The text between two others, the first of which stands there once.
fn between<'a>(text: &'a str, front: &str, back: &str) -> &'a str {
    assert_eq!(
        text.matches(front).count(),
        1,
        "`{front}` stands there once"
    );
    let behind = text.split(front).nth(1).unwrap();
    behind.split(back).next().unwrap()
}

/// The words of a text with one space between them.
fn spaced(text: &str) -> String {
    text.split_whitespace().collect::<Vec<_>>().join(" ")
}

/// The variants of the enum that is proved, as they stand there: each with its number, which is what
/// `number` answers.
fn variants() -> Vec<&'static str> {
    between(PROVED, "pub enum Reason {", "}")
        .lines()
        .filter_map(|line| line.trim().strip_suffix(','))
        .collect()
}

/// Number and name of each refusal in the code that is proved.
fn proved() -> Vec<(u32, String)> {
    let numbered = variants().into_iter().filter_map(|variant| {
        let (name, number) = variant.split_once(" = ")?;
        Some((number.parse().ok()?, name.to_string()))
    });
    numbered.collect()
}

#[test]
fn the_proved_enum_and_its_numbers() {
    let proved = proved();
    assert!(!proved.is_empty(), "the enum has variants");
    assert_eq!(proved.len(), variants().len(), "each has its number");
    assert!(proved.is_sorted(), "the numbers rise");
    assert!(
        PROVED.contains("{\n    why as u32\n}"),
        "`number` answers them"
    );
}

#[test]
fn the_refusals_of_the_crate_are_the_proved_ones() {
    let rows: Vec<(u32, String)> = Reason::ALL
        .iter()
        .map(|refusal| (refusal.number(), format!("{refusal:?}")))
        .collect();
    hold("rust/src/refusal.rs", &rows, &proved());
}

/// A row of README.md's table.
struct Row {
    number: u32,
    name: String,
    when: String,
    place: String,
}

fn table() -> Vec<Row> {
    let head = "| No. | Name in the code | Given when | Place |\n|---|---|---|---|\n";
    let rows = between(README, head, "\n\n").lines().map(|line| {
        let cells: Vec<&str> = line.split('|').map(str::trim).collect();
        Row {
            number: cells[1].parse().unwrap(),
            name: cells[2].trim_matches('`').to_string(),
            when: cells[3].to_string(),
            place: cells[4].to_string(),
        }
    });
    rows.collect()
}

#[test]
fn the_table_of_the_readme_has_the_proved_refusals() {
    let rows: Vec<(u32, String)> = table()
        .into_iter()
        .map(|row| (row.number, row.name))
        .collect();
    hold("the table of README.md", &rows, &proved());
}

#[test]
fn the_table_of_the_readme_has_the_words_of_the_crate() {
    let rows = spaced(between(CRATE, "\nrefusals! {", "\n}"));
    for row in table() {
        let (number, name, when, place) = (row.number, row.name, row.when, row.place);
        let due = format!("{number} {name}: {when:?}, {place:?};");
        assert!(rows.contains(&due), "rust/src/refusal.rs lacks {due}");
    }
}

/// A constant of the header: its name without the prefix, its number and the words beside it.
type Constant = (String, usize, String);

/// The constants of each enum of the header.
fn constants() -> Vec<Vec<Constant>> {
    let enums = HEADER.split("enum {").skip(1);
    enums
        .map(|rest| constants_in(rest.split("};").next().unwrap()))
        .collect()
}

fn constants_in(block: &str) -> Vec<Constant> {
    let block = spaced(block);
    let constants = block.split("PELIRANOPI_").skip(1).map(|constant| {
        let (name, rest) = constant
            .split_once(" = ")
            .expect("a constant has its number");
        let digits = rest.split(|c: char| !c.is_ascii_digit()).next().unwrap();
        let words = rest[digits.len()..].trim_matches([',', '/', '*', ' ']);
        (name.to_string(), digits.parse().unwrap(), words.to_string())
    });
    constants.collect()
}

/// A name of the code as C's constants are written: `FileTooLong` as `FILE_TOO_LONG`.
fn constant(name: &str) -> String {
    let mut constant = String::new();
    for letter in name.chars() {
        if letter.is_uppercase() && !constant.is_empty() {
            constant.push('_');
        }
        constant.push(letter.to_ascii_uppercase());
    }
    constant
}

/// Names of the code and their numbers as the header has them.
fn in_c(names: impl Iterator<Item = (String, u32)>) -> Vec<(String, usize)> {
    names
        .map(|(name, number)| (constant(&name), number as usize))
        .collect()
}

/// Names and numbers of the constants of one enum of the header.
fn numbers(which: usize) -> Vec<(String, usize)> {
    let constants = constants().swap_remove(which).into_iter();
    constants.map(|(name, number, _)| (name, number)).collect()
}

#[test]
fn the_c_header_has_the_proved_refusals() {
    let refusals = proved().into_iter().map(|(number, name)| (name, number));
    let due = [("Accepted".to_string(), 0)].into_iter().chain(refusals);
    hold("c/peliranopi.h", &numbers(0), &in_c(due));
}

#[test]
fn the_c_header_has_the_words_of_the_crate() {
    let refusals = constants().swap_remove(0);
    for (name, number, words) in &refusals[1..] {
        let refusal = Reason::try_from(*number as u32);
        let due = refusal.map(|refusal| refusal.to_string());
        assert_eq!(due.as_ref(), Ok(words), "{name} in c/peliranopi.h");
    }
}

#[test]
fn the_c_header_has_the_versions_the_records_the_kinds_the_limits_and_the_carries() {
    let versions = Version::ALL.iter().map(|version| version.number());
    let versions = versions.map(|number| (format!("FILE_VERSION_{number}"), number as usize));
    hold("c/peliranopi.h", &numbers(1), &versions.collect::<Vec<_>>());
    let records = Record::ALL
        .iter()
        .map(|record| (format!("{record:?}"), record.number()));
    hold("c/peliranopi.h", &numbers(2), &in_c(records));
    let kinds = Kind::ALL
        .iter()
        .map(|kind| (format!("{kind:?}"), kind.number()));
    hold("c/peliranopi.h", &numbers(3), &in_c(kinds));
    let limits = [
        ("FILE_LEN_MAX", FILE_LEN_MAX),
        ("LINES_MAX", LINES_MAX),
        ("PURPOSE_LEN_MAX", PURPOSE_LEN_MAX),
        ("TRACKING_LEN", TRACKING_LEN),
        ("LABEL_LEN", LABEL_LEN),
        ("IBAN_LEN_MIN", IBAN_LEN_MIN),
        ("IBAN_LEN_MAX", IBAN_LEN_MAX),
        ("IDENTCODE_LEN", IDENTCODE_LEN),
    ];
    let limits = limits.map(|(name, limit)| (name.to_string(), limit));
    hold("c/peliranopi.h", &numbers(4), &limits);
    let carries = [
        ("CARRY_START", CARRY_START as usize),
        ("CARRY_PASSED", CARRY_PASSED as usize),
    ];
    let carries = carries.map(|(name, carry)| (name.to_string(), carry));
    hold("c/peliranopi.h", &numbers(5), &carries);
    assert_eq!(
        constants().len(),
        6,
        "an enum of the header that no test knows"
    );
}

/// A function, and its parameters with their types as Rust has them.
type Function = (String, Vec<(String, String)>);

/// The functions of the header.
fn functions_of_header() -> Vec<Function> {
    let parts = HEADER.split("\nuint32_t ").skip(1);
    let functions = parts.map(|part| {
        let (name, rest) = part.split_once('(').unwrap();
        let parameters = rest
            .split(");")
            .next()
            .unwrap()
            .split(',')
            .map(|parameter| {
                let parameter = parameter.trim();
                let (kind, name) = parameter.split_at(parameter.rfind([' ', '*']).unwrap() + 1);
                (name.to_string(), rust_type(kind.trim()))
            });
        (name.to_string(), parameters.collect())
    });
    functions.collect()
}

/// A type of C as Rust has it.
fn rust_type(kind: &str) -> String {
    match kind.strip_suffix(" *") {
        Some(kind) => match kind.strip_prefix("const ") {
            Some(kind) => format!("*const {}", rust_type(kind)),
            None => format!("*mut {}", rust_type(kind)),
        },
        None if kind == "size_t" => "usize".to_string(),
        None => match kind.strip_prefix("uint") {
            Some(bits) => format!("u{}", bits.trim_end_matches("_t")),
            None => kind.to_string(), // a struct of the header, under its own name
        },
    }
}

/// The functions that peliranopi-sys declares.
fn functions_of_sys() -> Vec<Function> {
    let parts = SYS.split("    pub fn ").skip(1);
    let functions = parts.map(|part| {
        let (name, rest) = part.split_once('(').unwrap();
        let (parameters, _) = rest.split_once(") -> u32;").unwrap();
        let parameters = parameters.split(',').filter_map(|parameter| {
            let (name, kind) = parameter.trim().split_once(": ")?;
            Some((name.to_string(), kind.to_string()))
        });
        (name.to_string(), parameters.collect())
    });
    functions.collect()
}

#[test]
fn the_declarations_for_rust_are_those_of_the_c_header() {
    let header = functions_of_header();
    assert!(!header.is_empty(), "the header has functions");
    hold("rust/sys/src/lib.rs", &functions_of_sys(), &header);
}

/// A struct, and its fields with their types as Rust has them.
type Struct = (String, Vec<(String, String)>);

/// The structs of the header.
fn structs_of_header() -> Vec<Struct> {
    let parts = HEADER.split("typedef struct {").skip(1);
    let structs = parts.map(|part| {
        let (fields, rest) = part.split_once("} ").unwrap();
        let fields = fields.lines().filter_map(|line| {
            let (kind, name) = line.split(';').next()?.trim().split_once(' ')?;
            Some((name.to_string(), rust_type(kind)))
        });
        let name = rest.split(';').next().unwrap();
        (name.to_string(), fields.collect())
    });
    structs.collect()
}

/// The fields of a struct of Rust: what stands between its braces.
fn fields_of(text: &str) -> Vec<(String, String)> {
    let fields = text.lines().filter_map(|line| {
        let field = line.trim().strip_prefix("pub ")?.strip_suffix(',')?;
        let (name, kind) = field.split_once(": ")?;
        Some((name.to_string(), kind.to_string()))
    });
    fields.collect()
}

/// The structs that peliranopi-sys declares, each laid out as C does.
fn structs_of_sys() -> Vec<Struct> {
    let parts = SYS.split("#[repr(C)]\n").skip(1);
    let structs = parts.map(|part| {
        let (_, part) = part.split_once("pub struct ").unwrap();
        let (name, rest) = part.split_once(" {").unwrap();
        (name.to_string(), fields_of(rest.split('}').next().unwrap()))
    });
    structs.collect()
}

#[test]
fn the_structs_for_rust_are_those_of_the_c_header() {
    let header = structs_of_header();
    let names: Vec<&str> = header.iter().map(|(name, _)| name.as_str()).collect();
    assert_eq!(names, ["peliranopi_part", "peliranopi_identcode_parts"]);
    hold("rust/sys/src/lib.rs", &structs_of_sys(), &header);
    assert_eq!(
        SYS.matches("pub struct ").count(),
        names.len(),
        "a struct of peliranopi-sys that is not laid out as C does"
    );
}

/// Start and length of one part of an identcode are a range for Rust.
#[test]
fn the_parts_of_an_identcode_are_those_of_the_c_header() {
    let parts = between(IDENTCODE, "pub struct IdentcodeParts {", "\n}");
    let due: Vec<(String, String)> = structs_of_header()
        .swap_remove(1)
        .1
        .into_iter()
        .map(|(name, kind)| (name, kind.replace("peliranopi_part", "Range<usize>")))
        .collect();
    hold("rust/src/identcode.rs", &fields_of(parts), &due);
    let numbers = size_of::<sys::peliranopi_identcode_parts>() / size_of::<usize>();
    assert_eq!(numbers, 12, "two numbers for each of six parts");
}

#[test]
fn the_version_is_one() {
    let version = env!("CARGO_PKG_VERSION");
    let parts: Vec<&str> = version.split('.').collect();
    let macros = ["_MAJOR", "_MINOR", "_PATCH", ""].map(|part| {
        let front = format!("#define PELIRANOPI_VERSION{part} ");
        between(HEADER, &front, "\n").trim_matches('"')
    });
    assert_eq!(macros[..3], parts, "c/peliranopi.h");
    assert_eq!(macros[3], version, "c/peliranopi.h");
    let sys = between(SYS_MANIFEST, "\nversion = \"", "\"");
    assert_eq!(sys, version, "rust/sys/Cargo.toml");
    let heading = format!("\n## {version}");
    assert!(
        CHANGELOG.contains(&heading),
        "CHANGELOG.md has no heading for {version}"
    );
}

/// The rows of the printed table: what stands in front of the bar, and the entries behind it.
fn printed() -> Vec<(&'static str, Vec<&'static str>)> {
    let rows = PRINTED.lines().filter_map(|line| {
        let (name, entries) = line.split_once('|')?;
        Some((name.trim(), entries.split_whitespace().collect()))
    });
    rows.collect()
}

/// Each entry is what the call says for the carry of its row and the symbol of its column.
#[test]
fn the_printed_table_has_the_carries_of_the_call() {
    let rows = printed();
    let [("symbol", symbols), ("value", values), carries @ ..] = &rows[..] else {
        panic!("docs/carry-table.txt has other rows at its head");
    };
    let all = ('0'..='9').chain('A'..='Z').map(String::from);
    assert!(symbols.iter().copied().eq(all), "{symbols:?}");
    let all = (0..36).map(|value| value.to_string());
    assert!(values.iter().copied().eq(all), "{values:?}");
    assert_eq!(carries.len(), 36);
    for (carry, (name, entries)) in (1..=36).zip(carries) {
        assert_eq!(*name, carry.to_string());
        assert_eq!(entries.len(), symbols.len(), "carry {carry}");
        for (symbol, entry) in symbols.iter().zip(entries) {
            let next = next_carry(carry, symbol.as_bytes()[0]).unwrap();
            assert_eq!(*entry, next.to_string(), "carry {carry}, symbol {symbol}");
        }
    }
}

/// A row of docs/fields.txt: record and field, width and duty in each version, and the feature codes
/// under which alone it holds.
#[derive(Clone, Debug, PartialEq)]
struct FieldRow {
    record: u32,
    number: usize,
    rules: [(usize, bool); 2],
    under: Vec<String>,
}

fn field_rows() -> Vec<FieldRow> {
    let lines = FIELDS.lines().filter(|line| !line.starts_with('#'));
    lines
        .filter(|line| !line.is_empty())
        .map(field_row)
        .collect()
}

fn field_row(line: &str) -> FieldRow {
    let words: Vec<&str> = line.split_whitespace().collect();
    let (record, number) = words[0].split_once('.').unwrap();
    let rule = |width: usize| {
        let duty = match words[width + 1] {
            "R" => true,
            "-" => false,
            other => panic!("docs/fields.txt: no duty is {other}"),
        };
        (words[width].parse().unwrap(), duty)
    };
    let under = match words.get(5) {
        Some(word) => {
            assert_eq!(*word, "under", "docs/fields.txt: {line}");
            words[6..].iter().map(|code| code.to_string()).collect()
        }
        None => Vec::new(),
    };
    FieldRow {
        record: record.parse().unwrap(),
        number: number.parse().unwrap(),
        rules: [rule(1), rule(3)],
        under,
    }
}

/// The refusals 6 and 7 of one field, of which nothing else in the line can have a say: the fields in
/// front of it are right, and those behind it come later. Answers the refusal's number, or 0 for
/// acceptance and for every refusal of another field or of none.
fn refused_field(version: Version, record: u32, code: &str, number: usize, content: &[u8]) -> u32 {
    let mut fields = right_line(version, record, code);
    fields[number - 1] = content.to_vec();
    match written(version, record, &fields) {
        Err(refused) if refused.place == number => refused.why.number(),
        _ => 0,
    }
}

fn written(version: Version, record: u32, fields: &[Vec<u8>]) -> Result<usize, Refusal> {
    let ends = fields.iter().scan(0, |end, field| {
        *end += field.len();
        Some(*end)
    });
    let ends: Vec<usize> = ends.collect();
    let mut output = [0; 4_096];
    write_line(version, record, &fields.concat(), &ends, &mut output, 0)
}

/// A line that is accepted, with as many fields as the record may have.
fn right_line(version: Version, record: u32, code: &str) -> Vec<Vec<u8>> {
    let mark = version.number();
    let text = match record {
        10 => format!("0012345678;x;2021-02-23T13:37:50;2021-02-24T14:20:55;1005;{mark};;;;"),
        20 => "x;;;;DE;x;x;;x;;x;;;;;".to_string(),
        30 => ";;;;;;;;;;;;;;;x;;;;DE;x;x;;x;;x;;;;;;;;;;;;;;".to_string(),
        40 => "1000000000000000000007;;;x".to_string() + &";".repeat(20),
        50 => "x".to_string() + &";".repeat(23),
        _ => format!("{code};;1.00;EUR;x;AT611904300234573201;ABCDATWW;;a@b;x"),
    };
    let fields: Vec<Vec<u8>> = text.split(';').map(|field| field.into()).collect();
    let answer = written(version, record, &fields);
    assert!(answer.is_ok(), "{text} in version {mark}: {answer:?}");
    fields
}

/// The width and the duty that the library shows: no field of so many bytes is too long, and each
/// longer one is; and whether an empty one is refused.
fn shown(version: Version, record: u32, code: &str, number: usize) -> (usize, bool) {
    let refused = |content: &[u8]| refused_field(version, record, code, number, content);
    let widest = (1..=200).rfind(|length| refused(&vec![b'x'; *length]) != 6);
    let width = widest.expect("some content is not too long");
    assert!(width < 200, "{record:03}.{number} has no width");
    for length in 1..=width {
        assert_ne!(refused(&vec![b'x'; length]), 6, "{record:03}.{number}");
    }
    let empty = refused(b"");
    assert!(
        matches!(empty, 0 | 7),
        "{record:03}.{number} empty: {empty}"
    );
    (width, empty == 7)
}

/// The row of a field as the library shows it, for lines with one of these codes.
fn shown_row(record: u32, number: usize, codes: &[&str], under: &[&str]) -> FieldRow {
    let rules = [Version::Five, Version::Seven].map(|version| {
        let each = codes
            .iter()
            .map(|code| shown(version, record, code, number));
        let each: Vec<(usize, bool)> = each.collect();
        let alike = each.iter().all(|rule| *rule == each[0]);
        assert!(alike, "{record:03}.{number} under {codes:?}: {each:?}");
        each[0]
    });
    FieldRow {
        record,
        number,
        rules,
        under: under.iter().map(|code| code.to_string()).collect(),
    }
}

/// Every field of every record under both versions, and 060 under every feature code: the stored table
/// has these rows and no others.
#[test]
fn the_table_of_the_fields_is_what_the_library_shows() {
    const CASH: [&str; 2] = ["006", "022"];
    let codes: Vec<String> = (0..1_000).map(|code| format!("{code:03}")).collect();
    let is_code = |code: &&str| refused_field(Version::Five, 60, "004", 1, code.as_bytes()) == 0;
    let codes: Vec<&str> = codes.iter().map(String::as_str).filter(is_code).collect();
    assert_eq!(codes.len(), 30, "{codes:?}");
    let others: Vec<&str> = codes
        .iter()
        .copied()
        .filter(|code| !CASH.contains(code))
        .collect();
    let mut due = Vec::new();
    for (record, most) in [(10, 10), (20, 16), (30, 40), (40, 24), (50, 24), (60, 10)] {
        for number in 1..=most {
            match (record, number) {
                (60, 2) => {
                    due.push(shown_row(record, number, &others, &[]));
                    due.push(shown_row(record, number, &CASH, &CASH));
                }
                (60, _) => due.push(shown_row(record, number, &codes, &[])),
                _ => due.push(shown_row(record, number, &[""], &[])),
            }
        }
    }
    assert_eq!(due.len(), 124 + 1);
    hold("docs/fields.txt", &field_rows(), &due);
}
