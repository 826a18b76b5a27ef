//! One call of the static library, the same call of the independent implementation in tests/reference, and all that each leaves
//! behind: the answer, every number behind a pointer and every buffer to its last element.

pub mod draw;
pub mod library;
pub mod promised;

use reference::generate::{CarryCall, DayCall, IssueCall, LineCall, PurposeCall, Rng, WriterCall};
use reference::version::Version;

/// A call with all that goes into it.
#[derive(Clone, Debug)]
pub enum Call {
    File {
        file: Vec<u8>,
        countries: Vec<u8>,
        words: usize,
    },
    Line {
        version: u32,
        file: Vec<u8>,
        offset: usize,
    },
    Field(LineCall),
    Write(WriterCall),
    Purpose(PurposeCall),
    Check(Vec<u8>),
    Issue(IssueCall),
    Iban(Vec<u8>),
    CheckIdentcode(Vec<u8>),
    ReadIdentcode(Vec<u8>),
    IssueIdentcode(IssueCall),
    Carry(CarryCall),
    Day(DayCall),
}

impl Call {
    /// The bytes that are read.
    pub fn input(&self) -> &[u8] {
        match self {
            Call::File { file, .. } | Call::Line { file, .. } => file,
            Call::Field(call) => &call.file,
            Call::Write(call) => &call.text,
            Call::Purpose(call) => &call.file,
            Call::Check(symbols) | Call::Iban(symbols) => symbols,
            Call::CheckIdentcode(code) | Call::ReadIdentcode(code) => code,
            Call::Issue(call) | Call::IssueIdentcode(call) => &call.body,
            Call::Carry(_) => &[],
            Call::Day(call) => &call.numbers,
        }
    }

    /// The countries that are lent.
    pub fn countries(&self) -> &[u8] {
        match self {
            Call::File { countries, .. } => countries,
            Call::Purpose(call) => &call.countries,
            _ => &[],
        }
    }

    /// The writer's field ends.
    pub fn ends(&self) -> &[usize] {
        match self {
            Call::Write(call) => &call.ends,
            _ => &[],
        }
    }

    /// How many words of the list are lent.
    fn words(&self) -> usize {
        match self {
            Call::File { words, .. } => *words,
            Call::Purpose(call) => call.words,
            _ => 0,
        }
    }

    /// How many bytes of output are lent.
    fn output(&self) -> usize {
        match self {
            Call::Write(call) => call.output,
            Call::Purpose(call) => call.output,
            Call::Issue(call) | Call::IssueIdentcode(call) => call.output,
            Call::Day(call) => call.room,
            _ => 0,
        }
    }

    /// The version by whose rules the call answers: the one that it is told, or that of its file. None
    /// where it is told neither, and for calls on numbers.
    pub fn version(&self) -> Option<Version> {
        match self {
            Call::File { file, .. } => Some(Version::of_file(file)),
            Call::Purpose(call) => Some(Version::of_file(&call.file)),
            Call::Line { version, .. } => Version::told(*version).ok(),
            Call::Field(call) => Version::told(call.version).ok(),
            Call::Write(call) => Version::told(call.version).ok(),
            _ => None,
        }
    }

    /// What goes in beside the bytes, for a report.
    pub fn arguments(&self) -> String {
        match self {
            Call::File {
                countries, words, ..
            } => format!(
                "countries \"{}\", list of {words}",
                countries.escape_ascii()
            ),
            Call::Line {
                version, offset, ..
            } => format!("version {version}, offset {offset}"),
            Call::Field(call) => format!(
                "version {}, offset {}, field {}",
                call.version, call.offset, call.number
            ),
            Call::Write(call) => format!(
                "version {}, record {}, ends {:?}, output of {}, fill {}",
                call.version, call.record, call.ends, call.output, call.fill
            ),
            Call::Purpose(call) => format!(
                "countries \"{}\", line {}, list of {}, output of {}",
                call.countries.escape_ascii(),
                call.line,
                call.words,
                call.output
            ),
            Call::Issue(call) | Call::IssueIdentcode(call) => format!("output of {}", call.output),
            Call::Check(_) | Call::Iban(_) | Call::CheckIdentcode(_) | Call::ReadIdentcode(_) => {
                "nothing else".to_string()
            }
            Call::Carry(call) => format!("carry {}, byte {}", call.carry, call.symbol),
            Call::Day(call) => format!("room for {} answers", call.room),
        }
    }
}

/// What stands in every number behind a pointer before a call. No answer is this.
pub const NONSENSE: usize = 0xA5A5_A5A5_A5A5_A5A5;

/// So many elements in front of a lent buffer and behind it are watched as well.
pub const MARGIN: usize = 8;

/// What a call leaves behind.
#[derive(Clone, Debug, PartialEq, Eq)]
pub struct Left {
    pub answer: u32,
    pub place: usize,
    /// The other numbers behind pointers, in the header's order.
    pub values: Vec<u64>,
    /// The bytes, countries and ends that were only read.
    pub input: Vec<u8>,
    pub countries: Vec<u8>,
    pub ends: Vec<usize>,
    /// The list and the output, each between its margins.
    pub words: Vec<u32>,
    pub output: Vec<u8>,
}

impl Left {
    /// What is there before the call: its input, and lent buffers with any content.
    pub fn before(call: &Call, rng: &mut Rng) -> Left {
        let mut any = |count: usize| {
            (0..count + 2 * MARGIN)
                .map(|_| rng.word())
                .collect::<Vec<u64>>()
        };
        Left {
            answer: NONSENSE as u32,
            place: NONSENSE,
            values: Vec::new(),
            input: call.input().to_vec(),
            countries: call.countries().to_vec(),
            ends: call.ends().to_vec(),
            words: any(call.words()).iter().map(|word| *word as u32).collect(),
            output: any(call.output()).iter().map(|word| *word as u8).collect(),
        }
    }
}

/// The lent part of a buffer with margins.
pub fn lent<T>(buffer: &mut [T]) -> &mut [T] {
    let end = buffer.len() - MARGIN;
    &mut buffer[MARGIN..end]
}

/// The first part in which two calls left different things, in words; none where all is equal.
pub fn difference(library: &Left, promised: &Left) -> Option<String> {
    if library == promised {
        return None;
    }
    let numbers = |left: &Left| (left.answer, left.place, left.values.clone());
    if numbers(library) != numbers(promised) {
        return Some("the answer, the place or a value".to_string());
    }
    let found = [
        first("input", &library.input, &promised.input, 0),
        first("countries", &library.countries, &promised.countries, 0),
        first("ends", &library.ends, &promised.ends, 0),
        first("list", &library.words, &promised.words, MARGIN),
        first("output", &library.output, &promised.output, MARGIN),
    ];
    found.into_iter().flatten().next()
}

/// Where two buffers differ first, counted from where the lent part starts.
fn first<T: PartialEq>(name: &str, one: &[T], other: &[T], margin: usize) -> Option<String> {
    if one.len() != other.len() {
        return Some(format!("the length of the {name}"));
    }
    let at = one
        .iter()
        .zip(other)
        .position(|(one, other)| one != other)?;
    Some(format!("the {name} at {}", at as isize - margin as isize))
}
