//! The ways in which a file gets damaged.

use super::countries::{countries, under};
use super::files::{put_together, take_apart, valid_file, Lines};
use super::values::{
    barred_iban, boundary_values, damaged_iban, may_have_form, text, Style, VERSIONS, VERSIONS_5,
};
use super::{Outcome, Rng};
use crate::profile::{is_cash, Record, FEATURES, LIMIT};
use crate::version::Version;

/// One way to damage a file.
#[derive(Clone, Copy, Debug, PartialEq, Eq, Hash)]
pub enum Damage {
    FlipByte,
    InsertByte,
    DeleteByte,
    DropLine,
    DuplicateLine,
    SwapLines,
    SwapFields,
    AddField,
    DropField,
    /// Lengthens a field to its width.
    ToWidth,
    /// Lengthens a field to its width and one byte.
    PastWidth,
    /// Lengthens a field whose width is not the same in both versions around one of the two.
    OtherWidth,
    EmptyRequired,
    /// Empties a field of a 060 line that its feature may need.
    EmptyNeeded,
    /// Puts spaces for a field.
    Spaces,
    BreakLineEnd,
    /// Repeats the identcode of the parcel before.
    RepeatNear,
    /// Repeats the file's first identcode in its last parcel.
    RepeatFar,
    Truncate,
    TruncateAfterLine,
    /// Adds accepted lines up to exactly 65,535 bytes.
    GrowToLimit,
    /// Adds accepted lines up to exactly 65,536 bytes.
    GrowPastLimit,
    /// Adds bytes of any kind up to exactly 65,535 bytes.
    PadToLimit,
    /// Adds bytes of any kind up to exactly 65,536 bytes.
    PadPastLimit,
    /// Puts a boundary value for an amount.
    Amount,
    /// Puts a boundary value for a date-time.
    DateTime,
    /// Puts a boundary value or a damaged one for an IBAN.
    Iban,
    /// Damages an identcode in one way: its check digit, two neighbours, or a symbol.
    Identcode,
    /// Changes a feature code.
    Feature,
    /// Changes a record type.
    RecordType,
    /// Puts a boundary value for any field that has a form.
    Form,
    /// Puts the other version or none on the header.
    Header,
}

use Damage::*;

impl Damage {
    pub const ALL: [Damage; 32] = [
        FlipByte,
        InsertByte,
        DeleteByte,
        DropLine,
        DuplicateLine,
        SwapLines,
        SwapFields,
        AddField,
        DropField,
        ToWidth,
        PastWidth,
        OtherWidth,
        EmptyRequired,
        EmptyNeeded,
        Spaces,
        BreakLineEnd,
        RepeatNear,
        RepeatFar,
        Truncate,
        TruncateAfterLine,
        GrowToLimit,
        GrowPastLimit,
        PadToLimit,
        PadPastLimit,
        Amount,
        DateTime,
        Iban,
        Identcode,
        Feature,
        RecordType,
        Form,
        Header,
    ];
}

/// A file to judge, the countries and how many words to lend, and the answer where it is known.
#[derive(Clone, Debug)]
pub struct FileCase {
    pub file: Vec<u8>,
    pub countries: Vec<u8>,
    pub words: usize,
    pub outcome: Outcome,
    pub damages: Vec<Damage>,
}

/// One in five files whole, most damaged once, some up to three times. The list is mostly long
/// enough.
pub fn file_case(rng: &mut Rng) -> FileCase {
    let mut file = valid_file(rng);
    let count = match rng.below(10) {
        0..=1 => 0,
        2..=7 => 1,
        8 => 2,
        _ => 3,
    };
    let damages: Vec<Damage> = (0..count).map(|_| rng.pick(&Damage::ALL)).collect();
    let mut outcome = Outcome::Accepted;
    for kind in &damages {
        let alone = damage(*kind, rng, &mut file);
        outcome = match damages.len() {
            1 => alone,
            _ => Outcome::Unknown,
        };
    }
    let starts = line_starts(&file);
    let shipments: Vec<usize> = (0..starts.len())
        .filter(|line| file[starts[*line]..].starts_with(b"030"))
        .collect();
    let words = match rng.below(21) {
        0..=9 => starts.len(),
        10..=13 => 4096,
        14..=15 => starts.len() + rng.between(1, 3),
        16..=17 => starts.len().saturating_sub(1),
        // None left for a shipment, which may be refused by 19 instead.
        18 if !shipments.is_empty() => rng.pick(&shipments),
        _ => rng.between(0, starts.len()),
    };
    if words < starts.len() {
        outcome = match outcome {
            Outcome::Accepted => Outcome::refused(11, starts[words]),
            _ => Outcome::Unknown,
        };
    }
    let countries = countries(rng, &file);
    let outcome = under(&countries, &file, outcome);
    FileCase {
        file,
        countries,
        words,
        outcome,
        damages,
    }
}

/// Where the lines of a file start that ends in CR LF.
fn line_starts(file: &[u8]) -> Vec<usize> {
    let mut starts = vec![0];
    starts.extend((2..=file.len()).filter(|at| file[..*at].ends_with(b"\r\n")));
    starts.retain(|start| *start < file.len());
    starts
}

/// Damages a file in one way. The outcome is that of a file which was accepted before, judged with
/// a list that is long enough and no countries. A damage that finds nothing to damage leaves the
/// file as it was.
pub fn damage(kind: Damage, rng: &mut Rng, file: &mut Vec<u8>) -> Outcome {
    let version = version_of(&take_apart(file)[0]);
    damage_as(version, kind, rng, file)
}

/// The version on a header.
fn version_of(header: &[Vec<u8>]) -> Version {
    match header.first().zip(header.get(6)) {
        Some((name, mark)) if name == b"010" && mark == b"7" => Version::V7,
        _ => Version::V5,
    }
}

/// The same of lines of this version, which need have no header.
pub fn damage_as(version: Version, kind: Damage, rng: &mut Rng, file: &mut Vec<u8>) -> Outcome {
    match kind {
        FlipByte | InsertByte | DeleteByte | Truncate => damage_bytes(kind, rng, file),
        GrowToLimit => grow(version, rng, file, LIMIT),
        GrowPastLimit => grow(version, rng, file, LIMIT + 1),
        PadToLimit => pad(rng, file, LIMIT),
        PadPastLimit => pad(rng, file, LIMIT + 1),
        BreakLineEnd => break_line_end(rng, file),
        _ => {
            let mut lines = take_apart(file);
            if lines.len() == 1 {
                return Outcome::Unknown;
            }
            let outcome = damage_lines(version, kind, rng, &mut lines);
            *file = put_together(&lines);
            outcome
        }
    }
}

fn damage_bytes(kind: Damage, rng: &mut Rng, file: &mut Vec<u8>) -> Outcome {
    let place = rng.below(file.len() + 1);
    match kind {
        InsertByte => file.insert(place, rng.byte()),
        _ if place == file.len() => {}
        FlipByte if rng.percent(30) => file[place] ^= 1 << rng.below(8),
        FlipByte => file[place] = rng.byte(),
        DeleteByte => drop(file.remove(place)),
        _ => file.truncate(place),
    }
    Outcome::Unknown
}

/// Adds 060 lines to an exact length, which is possible from 18 bytes of room on.
fn grow(version: Version, rng: &mut Rng, file: &mut Vec<u8>, length: usize) -> Outcome {
    const SHORTEST: usize = 18;
    let widths = [2, 5, 8, 10].map(|number| Record::R060.widths(version)[number - 1]);
    let longest = SHORTEST + widths.iter().sum::<usize>();
    let shortest_only = rng.percent(30);
    if file.len() + SHORTEST > length {
        return Outcome::Unknown;
    }
    while file.len() < length {
        let room = length - file.len();
        let size = match room {
            _ if room <= longest => room,
            _ if shortest_only => SHORTEST,
            _ => rng.between(SHORTEST, longest.min(room - SHORTEST)),
        };
        let mut extra = size - SHORTEST;
        let [second, fifth, eighth, tenth] = widths.map(|width| {
            let length = extra.min(width);
            extra -= length;
            "x".repeat(length)
        });
        file.extend(format!("060;004;{second};;;{fifth};;;{eighth};;{tenth}\r\n").bytes());
    }
    match length {
        LIMIT => Outcome::Accepted,
        _ => Outcome::refused(1, LIMIT),
    }
}

/// Adds any bytes to an exact length.
fn pad(rng: &mut Rng, file: &mut Vec<u8>, length: usize) -> Outcome {
    let only = rng.percent(50).then(|| rng.byte());
    while file.len() < length {
        file.push(only.unwrap_or_else(|| rng.byte()));
    }
    match file.len() > LIMIT {
        true => Outcome::refused(1, LIMIT),
        false => Outcome::Unknown,
    }
}

fn break_line_end(rng: &mut Rng, file: &mut Vec<u8>) -> Outcome {
    let ends: Vec<usize> = (0..file.len())
        .filter(|at| file[*at..].starts_with(b"\r\n"))
        .collect();
    if ends.is_empty() {
        return Outcome::Unknown;
    }
    let end = rng.pick(&ends);
    let broken: &[u8] = rng.pick(&[
        b"",
        b"\r",
        b"\n",
        b"\n\r",
        b"\r\r\n",
        b"\r\n\n",
        b"\r\n\r\n",
        b"\0\r\n",
        b"\t\r\n",
        b"\x7F\r\n",
        b"\x80\r\n",
        b"\x9F\r\n",
        b"\r\0\n",
    ]);
    file.splice(end..end + 2, broken.iter().copied());
    match broken {
        b"" => Outcome::Unknown,
        b"\r\n\n" => Outcome::refused(2, end + 2),
        b"\r\n\r\n" => Outcome::refused(3, end + 2),
        _ => Outcome::refused(2, end),
    }
}

/// Damage by lines and fields; the last of the lines, the rest behind the last CR LF, is left.
fn damage_lines(version: Version, kind: Damage, rng: &mut Rng, lines: &mut Lines) -> Outcome {
    let count = lines.len() - 1;
    let line = rng.below(count);
    let other = rng.below(count);
    match kind {
        DropLine => drop(lines.remove(line)),
        DuplicateLine if rng.percent(50) => lines.insert(line, lines[line].clone()),
        DuplicateLine => lines.insert(other, lines[line].clone()),
        SwapLines if rng.percent(50) && line > 0 => lines.swap(line - 1, line),
        SwapLines => lines.swap(line, other),
        TruncateAfterLine => {
            lines.truncate(line);
            lines.push(vec![Vec::new()]);
        }
        SwapFields => {
            let parts = lines[line].len();
            let (one, two) = (rng.below(parts), rng.below(parts));
            lines[line].swap(one, two);
        }
        AddField => {
            let place = rng.between(1, lines[line].len());
            lines[line].insert(place, Vec::new());
        }
        DropField => {
            let place = rng.below(lines[line].len());
            lines[line].remove(place);
        }
        RepeatNear | RepeatFar => return repeat_identcode(kind, lines),
        RecordType => change_record_type(rng, &mut lines[line][0]),
        Header => return change_version(version, rng, lines),
        _ => return damage_field(version, kind, rng, lines, line),
    }
    Outcome::Unknown
}

fn repeat_identcode(kind: Damage, lines: &mut Lines) -> Outcome {
    let is_parcel = |line: &Vec<Vec<u8>>| line[0] == b"040" && line.len() > 1;
    let parcels: Vec<usize> = (0..lines.len())
        .filter(|line| is_parcel(&lines[*line]))
        .collect();
    let (from, to) = match (&parcels[..], kind) {
        ([], _) => return Outcome::Unknown,
        ([only], _) => {
            // A second parcel of the same shipment.
            lines.insert(*only, lines[*only].clone());
            (*only, *only + 1)
        }
        ([.., before, last], RepeatNear) => (*before, *last),
        ([first, .., last], _) => (*first, *last),
    };
    lines[to][1] = lines[from][1].clone();
    Outcome::refused(10, start_of(lines, to, 1))
}

fn change_record_type(rng: &mut Rng, name: &mut Vec<u8>) {
    const NAMES: &[&[u8]] = &[
        b"010", b"020", b"030", b"040", b"050", b"060", b"041", b"042", b"043", b"070", b"000",
        b"10", b"0100", b" 010", b"010 ", b"O10", b"", b"   ", b"266",
    ];
    *name = rng.pick(NAMES).to_vec();
}

/// Puts another version on the header, if there is one. What was a file of version 5 is still one
/// where that is none: 8 at the field, or 6.
fn change_version(version: Version, rng: &mut Rng, lines: &mut Lines) -> Outcome {
    if lines[0][0] != b"010" || lines[0].len() != 11 {
        return Outcome::Unknown;
    }
    let (mark, verdict) = match rng.below(10) {
        0..=2 => VERSIONS_5[0],
        3..=5 => VERSIONS_5[1],
        6 => (&b""[..], 7),
        _ => rng.pick(VERSIONS),
    };
    lines[0][6] = mark.to_vec();
    match (version, mark) {
        (Version::V5, b"5") | (Version::V7, b"7") => Outcome::Accepted,
        (Version::V5, b"7") | (Version::V7, _) => Outcome::Unknown,
        _ => Outcome::refused(verdict, start_of(lines, 0, 6)),
    }
}

/// Damage to one field of a line, or of another line where this one has no such field.
fn damage_field(
    version: Version,
    kind: Damage,
    rng: &mut Rng,
    lines: &mut Lines,
    line: usize,
) -> Outcome {
    let wanted: &[&[u8]] = match kind {
        Amount | Iban | Feature | EmptyNeeded => &[b"060"],
        DateTime => &[b"010"],
        Identcode => &[b"040"],
        OtherWidth => &[b"010", b"040", b"050", b"060"],
        Form => &[b"010", b"020", b"030", b"040", b"060"],
        _ => &[b"010", b"020", b"030", b"040", b"050", b"060"],
    };
    let fits = |line: usize| {
        let parts: &Vec<Vec<u8>> = &lines[line];
        wanted.contains(&&parts[0][..])
            && Record::from_type(&parts[0]).is_some_and(|record| record.allows(parts.len() - 1))
    };
    let count = lines.len() - 1;
    let Some(line) = (line..count).chain(0..line).find(|line| fits(*line)) else {
        return Outcome::Unknown;
    };
    let record = Record::from_type(&lines[line][0]).expect("the line was chosen so");
    let fields = lines[line].len() - 1;
    let number = match kind {
        Amount => 3,
        Iban => 6,
        Feature | Identcode => 1,
        DateTime => rng.between(3, 4),
        EmptyNeeded => rng.pick(&[3, 4, 5, 6, 7, 9, 10]),
        // A parcel may lack 040.4 in version 7, though that must be filled where it stands.
        EmptyRequired => loop {
            let number = rng.pick(record.required(version));
            if number <= fields {
                break number;
            }
        },
        Form => with_form(rng, record, fields),
        OtherWidth => match other_width(rng, record, fields) {
            Some(number) => number,
            None => return Outcome::Unknown,
        },
        _ => rng.between(1, fields),
    };
    let width = |version: Version| match (record, number) {
        (Record::R060, 2) if is_cash(&lines[line][1]) && version == Version::V5 => 35,
        _ => record.widths(version)[number - 1],
    };
    let widths = Version::ALL.map(width);
    let width = width(version);
    let start = start_of(lines, line, number);
    let field = &mut lines[line][number];
    let outcome = match kind {
        EmptyRequired => {
            field.clear();
            Outcome::refused(7, start)
        }
        EmptyNeeded => {
            field.clear();
            Outcome::Unknown
        }
        PastWidth => {
            lengthen(rng, field, width + 1);
            Outcome::refused(6, start)
        }
        ToWidth => {
            lengthen(rng, field, width);
            match may_have_form(record.number(), number) {
                false => Outcome::Accepted,
                true => Outcome::Unknown,
            }
        }
        OtherWidth => {
            let length = rng.pick(&widths) + rng.below(2);
            lengthen(rng, field, length);
            match may_have_form(record.number(), number) {
                _ if length > width => Outcome::refused(6, start),
                false => Outcome::Accepted,
                true => Outcome::Unknown,
            }
        }
        Spaces => {
            *field = vec![b' '; rng.between(1, width)];
            match may_have_form(record.number(), number) {
                false => Outcome::Accepted,
                true => Outcome::Unknown,
            }
        }
        Iban if rng.percent(50) => {
            *field = match rng.percent(30) {
                true => barred_iban(rng),
                false => damaged_iban(rng),
            };
            Outcome::Unknown
        }
        Identcode => {
            let outcome = damage_identcode(rng, field);
            outcome.map_or(Outcome::Unknown, |number| Outcome::refused(number, start))
        }
        Feature => {
            *field = match rng.percent(70) {
                true => rng.pick(&FEATURES).to_vec(),
                false => rng.pick(&boundary_values(version, 60, 1)).0.to_vec(),
            };
            Outcome::Unknown
        }
        Amount | DateTime | Iban => {
            let (value, verdict) = rng.pick(&boundary_values(version, record.number(), number));
            *field = value.to_vec();
            match verdict {
                0 => Outcome::Accepted,
                _ => Outcome::refused(verdict, start),
            }
        }
        // Any field with a form: what stands beside it may settle the answer.
        _ => {
            let values = boundary_values(version, record.number(), number);
            *field = rng.pick(&values).0.to_vec();
            Outcome::Unknown
        }
    };
    match (record, number, version) {
        // What was a file of version 7 is judged as one of version 5 from here on.
        (Record::R010, 6, Version::V7) if *field != b"7" => Outcome::Unknown,
        _ => outcome,
    }
}

/// Damages an identcode that passed, in one way. Answers the refusal where the damage settles it.
fn damage_identcode(rng: &mut Rng, code: &mut [u8]) -> Option<u32> {
    if code.len() != 22 || !code.iter().all(u8::is_ascii_digit) {
        return None; // damaged before
    }
    let place = rng.below(21);
    match rng.below(3) {
        0 => {
            let other = rng.between(1, 9) as u8;
            code[21] = b'0' + (code[21] - b'0' + other) % 10;
            Some(8)
        }
        // Weights 3 and 1 change places: twice the difference is left, which 10 divides where the
        // two differ by 5 or not at all.
        1 => {
            code.swap(place, place + 1);
            let differ = code[place].abs_diff(code[place + 1]);
            (differ % 5 != 0).then_some(8)
        }
        _ => {
            code[rng.below(22)] = rng.pick(b"/:aAzZOIl -\xC4");
            Some(8)
        }
    }
}

/// The number of a field with boundary values, among the first so many.
fn with_form(rng: &mut Rng, record: Record, fields: usize) -> usize {
    let formed: Vec<usize> = (1..=fields)
        .filter(|number| may_have_form(record.number(), *number))
        .collect();
    rng.pick(&formed)
}

/// The number of a field whose width depends on the version, among the first so many.
fn other_width(rng: &mut Rng, record: Record, fields: usize) -> Option<usize> {
    let [one, other] = Version::ALL.map(|version| record.widths(version));
    let numbers: Vec<usize> = (1..=fields)
        .filter(|number| one[number - 1] != other[number - 1])
        .collect();
    (!numbers.is_empty()).then(|| rng.pick(&numbers))
}

/// Lengthens a field with more of its last byte, so that digits stay digits.
fn lengthen(rng: &mut Rng, field: &mut Vec<u8>, length: usize) {
    let style = Style::any(rng);
    let byte = match field.last() {
        Some(last) => *last,
        None => text(rng, style, 1)[0],
    };
    field.resize(length, byte);
}

/// Where a part of a line starts in the file, the record type being part 0.
pub(super) fn start_of(lines: &Lines, line: usize, part: usize) -> usize {
    let length = |parts: &[Vec<u8>]| parts.iter().map(|part| part.len() + 1).sum::<usize>();
    // A line has one semicolon less than parts, and two bytes CR LF.
    let before: usize = lines[..line].iter().map(|line| length(line) + 1).sum();
    before + length(&lines[line][..part])
}
