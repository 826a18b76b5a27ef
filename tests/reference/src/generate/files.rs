//! Whole files that are accepted.

use std::collections::HashSet;

use super::values::*;
use super::versions::version;
use super::Rng;
use crate::profile::{Record, LIMIT};
use crate::version::Version;

/// A file as lines of parts, the record type first; the last line is what follows the last CR LF.
pub type Lines = Vec<Vec<Vec<u8>>>;

/// A file's lines and their parts. Putting them together gives the same bytes, of any file.
pub fn take_apart(file: &[u8]) -> Lines {
    let mut lines = Vec::new();
    let mut start = 0;
    let mut at = 0;
    while at < file.len() {
        if file[at..].starts_with(b"\r\n") {
            lines.push(parts(&file[start..at]));
            at += 2;
            start = at;
        } else {
            at += 1;
        }
    }
    lines.push(parts(&file[start..]));
    lines
}

fn parts(line: &[u8]) -> Vec<Vec<u8>> {
    line.split(|byte| *byte == b';')
        .map(<[u8]>::to_vec)
        .collect()
}

pub fn put_together(lines: &Lines) -> Vec<u8> {
    let joined: Vec<Vec<u8>> = lines.iter().map(|line| line.join(&b';')).collect();
    joined.join(&b"\r\n"[..])
}

/// A file that is accepted where no countries are lent: mostly a few lines, sometimes some hundred.
pub fn valid_file(rng: &mut Rng) -> Vec<u8> {
    let lines = match rng.below(20) {
        0..=2 => 5,
        3..=13 => rng.between(6, 25),
        14..=18 => rng.between(25, 80),
        _ => rng.between(80, 400),
    };
    valid_file_of(rng, lines)
}

/// Such a file of about so many lines, five at least, fewer where the limit stops it; of either
/// version.
pub fn valid_file_of(rng: &mut Rng, lines: usize) -> Vec<u8> {
    let version = version(rng);
    valid_file_as(version, rng, lines)
}

/// Such a file of this version.
pub fn valid_file_as(version: Version, rng: &mut Rng, lines: usize) -> Vec<u8> {
    let mut maker = Maker {
        version,
        style: Style::any(rng),
        identcodes: HashSet::new(),
        latest: None,
    };
    let mut file = Vec::new();
    let mut count = 0;
    while count < lines {
        let mut block = Vec::new();
        if count == 0 {
            block.push(maker.line(rng, Record::R010));
        }
        if count == 0 || rng.percent(20) {
            block.push(maker.line(rng, Record::R020));
        }
        block.push(maker.line(rng, Record::R030));
        for _ in 0..maker.parcels(rng, lines) {
            block.push(maker.line(rng, Record::R040));
        }
        block.push(maker.line(rng, Record::R050));
        if lines > 5 {
            for _ in 0..rng.below(5) {
                block.push(maker.line(rng, Record::R060));
            }
        }
        count += block.len();
        block.push(vec![Vec::new()]); // so that the last line ends in CR LF as well
        let bytes = put_together(&block);
        if file.len() + bytes.len() > LIMIT {
            break;
        }
        file.extend(bytes);
    }
    file
}

struct Maker {
    version: Version,
    style: Style,
    identcodes: HashSet<Vec<u8>>,
    latest: Option<Vec<u8>>,
}

impl Maker {
    /// How many parcels a shipment gets: mostly one, sometimes very many.
    fn parcels(&self, rng: &mut Rng, lines: usize) -> usize {
        match rng.below(10) {
            _ if lines <= 5 => 1,
            0..=5 => 1,
            6..=8 => rng.between(2, 4),
            _ => rng.between(2, 40.min(lines)),
        }
    }

    /// A new identcode that passes. Half of them differ from the latest in their last digits alone.
    fn identcode(&mut self, rng: &mut Rng) -> Vec<u8> {
        loop {
            let code = match &self.latest {
                Some(latest) if rng.percent(50) => identcode_of(following(&latest[..21])),
                _ => valid_identcode(rng),
            };
            self.latest = Some(code.clone());
            if self.identcodes.insert(code.clone()) {
                return code;
            }
        }
    }

    /// A line that is accepted by itself: the record type, then its fields.
    fn line(&mut self, rng: &mut Rng, record: Record) -> Vec<Vec<u8>> {
        let most = record.widths(self.version).len();
        let least = match record {
            Record::R040 => 3,
            Record::R050 => 1,
            _ => most,
        };
        let count = match rng.below(8) {
            0..=1 => rng.between(least, most),
            2 => most,
            // A parcel with its type, or with all fields that 002 has.
            3 if record == Record::R040 => rng.pick(&[4, 12]),
            3 => most,
            _ => least,
        };
        let mut line = vec![record.type_name().to_vec()];
        for number in 1..=count {
            let needed =
                record.required(self.version).contains(&number) || self.is_needed(&line, number);
            let field = match needed || rng.percent(self.share(record, number)) {
                true => self.field(rng, record, number, &line),
                false => Vec::new(),
            };
            line.push(field);
        }
        line
    }

    /// How many of a hundred fields are filled that need not be. A sender's phone and mail often
    /// are and often are not, whatever the style.
    fn share(&self, record: Record, number: usize) -> usize {
        match (record, number) {
            (Record::R020, 12 | 13) => 70,
            _ => self.style.filled,
        }
    }

    /// Whether the feature code in field 1 needs this field.
    fn is_needed(&self, line: &[Vec<u8>], number: usize) -> bool {
        if line[0] != b"060" || number == 1 {
            return false;
        }
        match &line[1][..] {
            b"006" | b"022" => (3..=7).contains(&number),
            b"011" | b"063" => (3..=4).contains(&number),
            // 10 is needed only where 9 stayed empty.
            b"054" => number == 10 && line[9].is_empty(),
            _ => false,
        }
    }

    /// A filled field that holds, behind the parts of the line before it.
    fn field(&mut self, rng: &mut Rng, record: Record, number: usize, line: &[Vec<u8>]) -> Vec<u8> {
        let style = self.style;
        let width = record.widths(self.version)[number - 1];
        match (record.number(), number) {
            (10, 1) => [b"00".to_vec(), rng.digits(8)].concat(),
            (10, 3 | 4) => date_time(rng),
            (10, 5) => rng.digits(4),
            (10, 6) => self.version.mark().to_vec(),
            (20, 5) | (30, 7 | 20) => country(rng),
            (20, 6) | (30, 8 | 21) => post_code(rng, style, &line[number - 1]),
            (20, 12 | 13) if rng.percent(20) => vec![b' '; rng.between(1, width)],
            (30, 1 | 2) => digit_text(rng, style, width),
            (30, 39) => Vec::new(),
            (40, 1) => self.identcode(rng),
            (60, 1) => feature(rng),
            (60, 2) if line[1] == b"006" || line[1] == b"022" => match self.version {
                Version::V5 => transfer_text(rng, style, 35),
                Version::V7 => transfer_text(rng, style, width),
            },
            (60, 3) => amount(rng),
            (60, 4) => currency(rng),
            (60, 6) => valid_iban(rng),
            (60, 7) => bic(rng),
            (60, 8) => transfer_text(rng, style, width),
            (60, 9) => email(rng, style, width),
            _ => text(rng, style, width),
        }
    }
}

/// The digits of the next number; behind nines alone come zeros.
fn following(digits: &[u8]) -> Vec<u8> {
    let mut digits = digits.to_vec();
    for digit in digits.iter_mut().rev() {
        if *digit < b'9' {
            *digit += 1;
            break;
        }
        *digit = b'0';
    }
    digits
}
