//! The lists of countries that callers lend with a file, and what they make of its answer (document
//! 02, request 1).

use super::damage::start_of;
use super::files::take_apart;
use super::values::country;
use super::{Outcome, Rng};
use crate::profile::LIMIT;
use crate::Refusal;

/// Many lists are empty, many name a country of the file. Some name none of its countries, though
/// they have all their letters; some have an odd length.
pub fn countries(rng: &mut Rng, file: &[u8]) -> Vec<u8> {
    match rng.below(20) {
        0..=5 => Vec::new(),
        6..=7 => country(rng),
        8..=9 => {
            let pairs = rng.between(2, 40);
            rng.capitals(2 * pairs)
        }
        10..=12 => own(file),
        // One of the file's countries behind others, often not that of the first shipment.
        13..=14 => {
            let (own, others) = (own(file), rng.below(4));
            let one = match own.len() / 2 {
                0 => b"AT",
                pairs => &own[2 * rng.below(pairs)..][..2],
            };
            [&rng.capitals(2 * others), one].concat()
        }
        // The same pairs at odd places.
        15 => [vec![rng.capital()], own(file), vec![rng.capital()]].concat(),
        16 => own(file).to_ascii_lowercase(),
        17 => {
            let mut changed = own(file);
            for place in (0..changed.len()).step_by(3) {
                changed[place] = rng.byte();
            }
            changed
        }
        18 => [own(file), vec![rng.capital()]].concat(),
        _ => {
            let length = rng.below(80);
            (0..length).map(|_| rng.byte()).collect()
        }
    }
}

/// Every country to which a file ships (030.20), once.
pub fn own(file: &[u8]) -> Vec<u8> {
    let lines = take_apart(file);
    let shipments = lines.iter().filter(|line| line[0] == b"030");
    let mut own: Vec<&[u8]> = shipments
        .filter_map(|line| Some(&line.get(20)?[..]))
        .collect();
    own.sort();
    own.dedup();
    own.concat()
}

/// The outcome under lent countries of a file whose outcome without them is known.
pub fn under(countries: &[u8], file: &[u8], outcome: Outcome) -> Outcome {
    // "20, the list's length is odd, place 0, after 1"
    if file.len() > LIMIT {
        return outcome;
    }
    if countries.len() % 2 == 1 {
        return Outcome::refused(20, 0);
    }
    let Some(start) = first_lacking(file, countries) else {
        return outcome;
    };
    match outcome {
        Outcome::Accepted => Outcome::refused(19, start),
        // On one line 19 comes first.
        Outcome::Refused(Refusal { number: 11, place }) if place < start => outcome,
        Outcome::Refused(Refusal { number: 11, .. }) => Outcome::refused(19, start),
        _ => Outcome::Unknown,
    }
}

/// Where the first 030 line starts that ships to one of the countries, below a sender without both
/// contacts.
fn first_lacking(file: &[u8], countries: &[u8]) -> Option<usize> {
    let lines = take_apart(file);
    let lacks = |line: &usize| {
        let (shipment, above) = (&lines[*line], &lines[..*line]);
        let sender = above.iter().rfind(|line| line[0] == b"020");
        let is_empty =
            |number: usize| sender.is_some_and(|sender| sender.get(number) == Some(&vec![]));
        let is_listed = |country: &Vec<u8>| countries.chunks(2).any(|pair| pair == country);
        shipment[0] == b"030"
            && shipment.get(20).is_some_and(is_listed)
            && (is_empty(12) || is_empty(13))
    };
    let line = (0..lines.len()).find(lacks)?;
    Some(start_of(&lines, line, 0))
}
