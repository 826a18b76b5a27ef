//! Each field's rule at its boundaries, for every record and field number.

use super::calls::WriterCall;
use super::values::{boundary_values, may_have_form};
use super::Outcome;
use crate::profile::{is_text, Record, FEATURES};
use crate::version::Version;

/// A line in which one field has a telling content, with what reading the line at offset 0 and
/// writing its fields must answer.
#[derive(Clone, Debug)]
pub struct FieldCase {
    /// The version that both calls are told.
    pub version: u32,
    /// 10 for 010, up to 60.
    pub record: u32,
    /// The field with the telling content.
    pub number: usize,
    pub fields: Vec<Vec<u8>>,
    pub read: Outcome,
    pub written: Outcome,
}

impl FieldCase {
    /// The line with its CR LF.
    pub fn line(&self) -> Vec<u8> {
        let mut line = format!("{:03}", self.record).into_bytes();
        for field in &self.fields {
            line.push(b';');
            line.extend(field);
        }
        line.extend(b"\r\n");
        line
    }

    /// The same fields for the writer, with an output that just takes the line.
    pub fn writer_call(&self) -> WriterCall {
        WriterCall::new(self.version, self.record, &self.fields)
    }
}

/// All cases, by version and in the order of records and fields.
pub fn field_cases() -> Vec<FieldCase> {
    let mut cases = Vec::new();
    let versions = Version::ALL.into_iter();
    for (version, (record, line)) in versions.flat_map(|version| {
        base_lines(version)
            .into_iter()
            .map(move |base| (version, base))
    }) {
        let base = Base {
            version,
            record,
            fields: line.split(';').map(|part| part.into()).collect(),
        };
        for number in 1..=base.fields.len() {
            base.lengths(number, &mut cases);
            base.bytes(number, &mut cases);
            base.values(number, &mut cases);
        }
    }
    cases
}

/// Lines that are accepted in this version, written without their type, with different things beside
/// each field.
fn base_lines(version: Version) -> Vec<(Record, String)> {
    let mark = version.number();
    let cash = "Ref;12.50;EUR;Muster;AT611904300234573201;ABCDATWW;Zweck;a@b;x";
    let mut lines = vec![
        (
            Record::R010,
            format!("0012345678;Muster;2021-02-23T13:37:50;2021-02-24T14:20:55;1005;{mark};;;;"),
        ),
        (Record::R020, "A;;;;AT;1010;Wien;;Gasse;;1;1;a@b;;;".into()),
        (Record::R020, "A;;;;DE;1010;Bonn;;Gasse;;1;1;a@b;;;".into()),
        (
            Record::R030,
            ";;;;;;;;;;;;;;;B;;;;AT;1020;Wien;;Gasse;;2;;;;;;;;;;;;;;".into(),
        ),
        (
            Record::R030,
            "1;2;;;;;AT;1010;;;;;;;;B;;;;DE;1020;Bonn;;Gasse;;2;;;;;;;;;;;;;;".into(),
        ),
        (
            Record::R030,
            "1;2;;;;;DE;1010;;;;;;;;B;;;;AT;1020;Wien;;Gasse;;2;;;;;;;;;;;;;;".into(),
        ),
        (Record::R040, "1000000000000000000007;;".into()),
        (
            Record::R040,
            "1000000000000000000007".to_string() + &";x".repeat(23),
        ),
        (Record::R040, "1000000000000000000007;;;C".into()),
        (Record::R050, "10".into()),
        (Record::R050, "10".to_string() + &";x".repeat(23)),
        (Record::R060, "054;;;;;;;;a@b;".into()),
        (Record::R060, "054;;;;;;;;;x".into()),
        (Record::R060, "011;;1.00;EUR;;;;;;".into()),
    ];
    for code in ["004", "006", "011", "022", "054", "063", "187"] {
        lines.push((Record::R060, format!("{code};{cash}")));
    }
    lines
}

struct Base {
    version: Version,
    record: Record,
    fields: Vec<Vec<u8>>,
}

impl Base {
    fn case(&self, number: usize, content: &[u8], read: Outcome, written: Outcome) -> FieldCase {
        let mut fields = self.fields.clone();
        fields[number - 1] = content.to_vec();
        FieldCase {
            version: self.version.number(),
            record: self.record.number(),
            number,
            fields,
            read,
            written,
        }
    }

    /// A case whose refusal 6, 7 or 8, or acceptance as 0, is the same for reader and writer.
    fn judged(&self, number: usize, content: &[u8], verdict: u32) -> FieldCase {
        let (read, written) = match verdict {
            0 => (Outcome::Accepted, Outcome::Accepted),
            9 => (Outcome::refused(9, 0), Outcome::refused(9, 0)),
            _ => (
                Outcome::refused(verdict, self.start(number)),
                Outcome::refused(verdict, number),
            ),
        };
        self.case(number, content, read, written)
    }

    /// Where the field starts when the line stands at offset 0.
    fn start(&self, number: usize) -> usize {
        let before = &self.fields[..number - 1];
        4 + before.iter().map(|field| field.len() + 1).sum::<usize>()
    }

    fn other(&self) -> Version {
        match self.version {
            Version::V5 => Version::V7,
            Version::V7 => Version::V5,
        }
    }

    fn is_cash(&self) -> bool {
        self.record == Record::R060 && matches!(&self.fields[0][..], b"006" | b"022")
    }

    fn width(&self, number: usize) -> usize {
        match (self.version, self.is_cash(), number) {
            (Version::V5, true, 2) => 35,
            _ => self.record.widths(self.version)[number - 1],
        }
    }

    /// Whether this field has a form here.
    fn has_form(&self, number: usize) -> bool {
        match (self.record, number) {
            (Record::R020, 6) | (Record::R030, 8 | 21) => self.fields[number - 2] == b"AT",
            (Record::R060, 2) => self.is_cash(),
            _ => may_have_form(self.record.number(), number),
        }
    }

    /// What an empty content brings: 7, 9 or nothing.
    fn verdict_when_empty(&self, number: usize) -> u32 {
        if self.record.required(self.version).contains(&number) {
            return 7;
        }
        if self.record != Record::R060 {
            return 0;
        }
        let lacks = match &self.fields[0][..] {
            b"006" | b"022" => (3..=7).contains(&number),
            b"011" | b"063" => (3..=4).contains(&number),
            b"054" => {
                (number == 9 && self.fields[9].is_empty())
                    || (number == 10 && self.fields[8].is_empty())
            }
            _ => false,
        };
        match lacks {
            true => 9,
            false => 0,
        }
    }

    /// Contents of one byte repeated, around the width.
    fn lengths(&self, number: usize, cases: &mut Vec<FieldCase>) {
        let width = self.width(number);
        cases.push(self.judged(number, b"", self.verdict_when_empty(number)));
        let mut lengths = vec![1, width - 1, width, width + 1, width + 100];
        // Around the other version's width.
        let other = self.record.widths(self.other())[number - 1];
        lengths.extend([other - 1, other, other + 1]);
        lengths.retain(|length| *length > 0);
        lengths.sort();
        lengths.dedup();
        for length in lengths {
            for byte in [b'x', b'A', b'0', b'1', b' ', 160, 255] {
                let content = vec![byte; length];
                let case = match (length > width, self.has_form(number)) {
                    (true, _) => self.judged(number, &content, 6),
                    (false, false) => self.judged(number, &content, 0),
                    (false, true) => {
                        self.case(number, &content, Outcome::Unknown, Outcome::Unknown)
                    }
                };
                cases.push(case);
            }
        }
    }

    /// Every byte as the only content, and at the end of what stands there.
    fn bytes(&self, number: usize, cases: &mut Vec<FieldCase>) {
        let before = &self.fields[number - 1];
        for byte in 0..=255 {
            let eight = Outcome::refused(8, number);
            let (read, written) = match byte {
                // One field more than the record has, unless it may have more.
                b';' if self.record.allows(self.fields.len() + 1) => (Outcome::Unknown, eight),
                b';' => (Outcome::refused(5, 0), eight),
                _ if !is_text(byte) => (Outcome::refused(2, self.start(number)), eight),
                _ if self.has_form(number) => (Outcome::Unknown, Outcome::Unknown),
                _ => (Outcome::Accepted, Outcome::Accepted),
            };
            cases.push(self.case(number, &[byte], read, written));
            let behind = [&before[..], &[byte]].concat();
            cases.push(self.case(number, &behind, Outcome::Unknown, Outcome::Unknown));
        }
    }

    /// The boundary values of the field's form; where the form does not hold here, only the width
    /// counts.
    fn values(&self, number: usize, cases: &mut Vec<FieldCase>) {
        for (value, verdict) in boundary_values(self.version, self.record.number(), number) {
            let here = match self.has_form(number) {
                true => verdict,
                false if value.len() > self.width(number) => 6,
                false => 0,
            };
            cases.push(self.judged(number, value, here));
        }
        if (self.record, number) == (Record::R060, 1) {
            for code in FEATURES {
                cases.push(self.feature(code));
            }
        }
    }

    /// A feature code in front of what stands there; all codes hold, some lack a field.
    fn feature(&self, code: &[u8]) -> FieldCase {
        let filled = |number: usize| !self.fields[number - 1].is_empty();
        let met = match code {
            b"006" | b"022" => (3..=7).all(filled),
            b"011" | b"063" => filled(3) && filled(4),
            b"054" => filled(9) || filled(10),
            _ => true,
        };
        self.judged(1, code, if met { 0 } else { 9 })
    }
}
