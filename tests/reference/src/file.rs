//! The whole file (document 01, 'Whole file'), with the countries whose senders need their contacts
//! (document 02, request 1), under the field rules of the version on its header (request 5).

use std::collections::HashSet;

use crate::line::{judged_parts, line_end, record_of, within_limit};
use crate::profile::{cents, is_cash, may_end, may_follow, Record};
use crate::version::Version;
use crate::{refuse, Refusal};

/// "Accepted: number of lines, number of 040 lines, and the cash total in cents."
#[derive(Clone, Copy, Debug, Default, PartialEq, Eq, Hash)]
pub struct Totals {
    pub lines: usize,
    pub parcels: usize,
    pub cents: u64,
}

/// "The caller lends a list of 32-bit words: every word below the line count holds that line's
/// first offset, and every other word is 0. On a refusal all words are 0."
///
/// The countries are "a list the caller lends (pairs of capitals)".
pub fn judge(file: &[u8], countries: &[u8], list: &mut [u32]) -> Result<Totals, Refusal> {
    list.fill(0);
    let answer = judge_lines(file, countries, list);
    if answer.is_err() {
        list.fill(0);
    }
    answer
}

/// "1 comes first of all. Lines go in file order, and on each line 2, 3, 4, 5, then the fields from
/// left to right (6, 7, 8 for each), then 9, 10, 11. 12 comes last." "19 [..] after 9 on that line;
/// 20, the list's length is odd, place 0, after 1."
fn judge_lines(file: &[u8], countries: &[u8], list: &mut [u32]) -> Result<Totals, Refusal> {
    within_limit(file)?;
    let countries = pairs(countries)?;
    let version = Version::of_file(file);
    let mut totals = Totals::default();
    let mut identcodes = HashSet::new();
    let mut lacks_contact = false; // of the sender above
    let mut before = None;
    let mut offset = 0;
    while offset < file.len() {
        let end = line_end(file, offset)?;
        let record = record_of(file, offset, end)?;
        if !may_follow(before, record) {
            return refuse(4, offset);
        }
        let parts = judged_parts(version, file, offset, end, record)?;
        let field = |number: usize| &file[parts[number].clone()];
        if record == Record::R020 {
            lacks_contact = field(12).is_empty() || field(13).is_empty();
        }
        // "either contact field is empty under a sender who needs both, place the start of the
        // first 030 line that needs it"
        if record == Record::R030 && lacks_contact && countries.contains(field(20)) {
            return refuse(19, offset);
        }
        // "No identcode (040.1) occurs twice in a file."
        if record == Record::R040 && !identcodes.insert(field(1)) {
            return refuse(10, parts[1].start);
        }
        match list.get_mut(totals.lines) {
            Some(word) => *word = offset as u32, // below the limit, so it fits
            None => return refuse(11, offset),
        }
        totals.lines += 1;
        if record == Record::R040 {
            totals.parcels += 1;
        }
        // "the sum of 060.3 over lines with code 006 or 022 and currency `EUR`"
        if record == Record::R060 && is_cash(field(1)) && field(4) == b"EUR" {
            totals.cents += cents(field(3)).expect("the amount was tested");
        }
        before = Some(record);
        offset = end + 2;
    }
    if !may_end(before) {
        return refuse(12, file.len());
    }
    Ok(totals)
}

/// The countries that a lent list names. A field that is compared with them holds two capitals, so
/// that what a pair of other bytes spells is no country of a file.
fn pairs(countries: &[u8]) -> Result<HashSet<&[u8]>, Refusal> {
    let pairs = countries.chunks_exact(2);
    match pairs.remainder() {
        [] => Ok(pairs.collect()),
        _ => refuse(20, 0),
    }
}
