//! Generated input: accepted files, damage, calls, and the field rules at their boundaries.

use std::collections::{BTreeMap, HashSet};

use reference::file::{judge, Totals};
use reference::generate::*;
use reference::identcode::{check_identcode, issue_identcode, read_identcode};
use reference::line::{find_field, read_line};
use reference::numbers::{check_iban, check_number, check_numbers, issue_number, next_carry, Kind};
use reference::profile::Record;
use reference::purpose::purpose;
use reference::version::Version;
use reference::writer::write_line;
use reference::Refusal;

/// How often each number was given, 0 standing for acceptance.
type Counts = BTreeMap<u32, usize>;

fn count<T>(counts: &mut Counts, answer: &Result<T, Refusal>) {
    let number = answer.as_ref().err().map_or(0, |refusal| refusal.number);
    *counts.entry(number).or_default() += 1;
}

fn assert_each(counts: &Counts, numbers: &[u32]) {
    assert_eq!(
        counts.keys().copied().collect::<Vec<_>>(),
        numbers,
        "{counts:?}"
    );
}

/// Totals and line starts, from the parts of an accepted file.
fn counted(file: &[u8]) -> (Totals, Vec<u32>) {
    let lines = take_apart(file);
    let mut totals = Totals::default();
    let mut starts = Vec::new();
    let mut offset = 0;
    for line in &lines[..lines.len() - 1] {
        totals.lines += 1;
        totals.parcels += usize::from(line[0] == b"040");
        let cash = line[0] == b"060" && (line[1] == b"006" || line[1] == b"022");
        if cash && line[4] == b"EUR" {
            let text = String::from_utf8(line[3].clone()).unwrap();
            totals.cents += text.replace('.', "").parse::<u64>().unwrap();
        }
        starts.push(offset as u32);
        offset += line.join(&b';').len() + 2;
    }
    (totals, starts)
}

#[test]
fn the_stream_is_fixed_by_the_seed() {
    let draw = |seed: u64| valid_file(&mut Rng::new(seed));
    assert_eq!(draw(1), draw(1));
    assert_ne!(draw(1), draw(2));
    let distinct: HashSet<u64> = (0..1000).map(|seed| Rng::new(seed).word()).collect();
    assert_eq!(distinct.len(), 1000);
}

#[test]
fn valid_files_are_accepted() {
    let mut rng = Rng::new(1);
    let (mut shortest, mut longest, mut upper) = (usize::MAX, 0, 0);
    for _ in 0..5_000 {
        let file = valid_file(&mut rng);
        let (totals, starts) = counted(&file);
        let mut list = vec![7; starts.len() + 2];
        assert_eq!(judge(&file, b"", &mut list), Ok(totals));
        assert_eq!(list[..starts.len()], starts);
        assert_eq!(list[starts.len()..], [0, 0]);
        assert_eq!(put_together(&take_apart(&file)), file);
        shortest = shortest.min(totals.lines);
        longest = longest.max(totals.lines);
        upper += usize::from(file.iter().any(|byte| *byte >= 160));
    }
    assert!(shortest == 5 && longest > 300 && upper > 1000);
}

/// About half of all files are of either version, and what each version alone allows is among them.
#[test]
fn files_of_both_versions() {
    let mut rng = Rng::new(23);
    let mut files = [0; 2];
    let (mut unnamed, mut typed, mut untyped, mut long, mut other) = (0, 0, 0, 0, Counts::new());
    for _ in 0..4_000 {
        let file = valid_file(&mut rng);
        let version = Version::of_file(&file);
        files[usize::from(version == Version::V7)] += 1;
        let mut lines = take_apart(&file);
        for line in &lines {
            match (version, &line[0][..]) {
                (Version::V7, b"010") => unnamed += usize::from(line[2].is_empty()),
                (Version::V7, b"040") if line.len() > 4 => typed += 1,
                (Version::V7, b"040") => untyped += 1,
                (Version::V5, b"050") => long += usize::from(line[1].len() > 2),
                _ => {}
            }
        }
        // Under the other version it is accepted, or refused for a width or a duty.
        lines[0][6] = match version {
            Version::V5 => b"7".to_vec(),
            Version::V7 => b"5".to_vec(),
        };
        let answer = judge(&put_together(&lines), b"", &mut [0; 4096]);
        count(&mut other, &answer);
    }
    assert!(files.iter().all(|count| *count > 1_500), "{files:?}");
    let each = [unnamed, typed, untyped, long];
    assert!(each.iter().all(|count| *count > 500), "{each:?}");
    assert_each(&other, &[0, 6, 7]);
    assert!(other.values().all(|count| *count > 100), "{other:?}");
    println!("{files:?}, {each:?}, under the other version {other:?}");
}

/// Mostly the file's own version, and one time in 20 neither.
#[test]
fn versions_that_are_told() {
    let mut rng = Rng::new(24);
    let (mut own, mut other, mut neither) = (0, 0, HashSet::new());
    let mut refused = 0;
    for _ in 0..40_000 {
        let version = version(&mut rng);
        match told(&mut rng, version) {
            number if number == version.number() => own += 1,
            5 | 7 => other += 1,
            number => {
                refused += 1;
                neither.insert(number);
            }
        }
    }
    assert!((1_700..2_300).contains(&refused), "{refused}");
    assert!(own > 30_000 && other > 2_000, "{own} {other}");
    for number in [0, 6, 57, 261, u32::MAX] {
        assert!(neither.contains(&number), "{neither:?}");
    }
}

#[test]
fn damaged_files_bring_every_refusal() {
    let mut rng = Rng::new(2);
    let mut counts = Counts::new();
    let mut known = 0;
    for _ in 0..20_000 {
        let case = file_case(&mut rng);
        let mut list = vec![7; case.words];
        let answer = judge(&case.file, &case.countries, &mut list);
        assert!(
            case.outcome.allows(&answer),
            "{:?} {:?} {:?} {:?}",
            case.damages,
            case.countries,
            case.outcome,
            answer
        );
        known += usize::from(case.outcome != Outcome::Unknown);
        match answer {
            Ok(totals) => {
                let (expected, starts) = counted(&case.file);
                assert_eq!(totals, expected);
                assert_eq!(list[..starts.len()], starts);
                assert!(list[starts.len()..].iter().all(|word| *word == 0));
            }
            Err(refusal) => {
                assert!(list.iter().all(|word| *word == 0));
                assert!(refusal.place <= case.file.len());
            }
        }
        count(&mut counts, &answer);
    }
    assert_each(&counts, &(0..=12).chain([19, 20]).collect::<Vec<_>>());
    assert!(counts.values().all(|count| *count >= 100), "{counts:?}");
    assert!(known > 8_000, "{known}");
    println!("{counts:?}, {known} known");
}

/// What stands below one 020 line.
struct Sender {
    has_contacts: bool,
    /// Where each starts, and its country.
    shipments: Vec<(usize, Vec<u8>)>,
}

/// The senders of an accepted file.
fn senders(file: &[u8]) -> Vec<Sender> {
    let mut senders: Vec<Sender> = Vec::new();
    let mut offset = 0;
    for line in take_apart(file) {
        match (&line[0][..], senders.last_mut()) {
            (b"020", _) => senders.push(Sender {
                has_contacts: !line[12].is_empty() && !line[13].is_empty(),
                shipments: Vec::new(),
            }),
            (b"030", Some(sender)) => sender.shipments.push((offset, line[20].clone())),
            _ => {}
        }
        offset += line.join(&b';').len() + 2;
    }
    senders
}

/// "They are needed only if some shipment under that sender has a consignee country on a list the
/// caller lends."
#[test]
fn a_sender_needs_contacts_only_for_the_countries_of_its_shipments() {
    let mut rng = Rng::new(16);
    let mut counts = Counts::new();
    for _ in 0..5_000 {
        let file = valid_file(&mut rng);
        let countries = countries(&mut rng, &file);
        if countries.len() % 2 == 1 {
            continue;
        }
        let is_listed = |country: &Vec<u8>| countries.chunks(2).any(|pair| pair == country);
        let first_in_need = senders(&file).into_iter().find_map(|sender| {
            let mut shipments = sender.shipments.into_iter();
            let needs = shipments.find(|(_, country)| is_listed(country));
            needs.filter(|_| !sender.has_contacts)
        });
        let expected = first_in_need.map(|(place, _)| Refusal { number: 19, place });
        let answer = judge(&file, &countries, &mut [0; 4096]);
        assert_eq!(answer.err(), expected, "{countries:?}");
        count(&mut counts, &answer);
    }
    assert!(counts.values().all(|count| *count >= 500), "{counts:?}");
    println!("{counts:?}");
}

/// Every country of the file asks every sender; none asks none, and pairs that are moved by one
/// place ask for nothing either.
#[test]
fn lists_of_all_countries_and_of_none() {
    let mut rng = Rng::new(17);
    let (mut accepted, mut refused) = (0, 0);
    for _ in 0..2_000 {
        let file = valid_file(&mut rng);
        let own = own(&file);
        let judged = |countries: &[u8]| judge(&file, countries, &mut [0; 4096]);
        let all_have = senders(&file).iter().all(|sender| sender.has_contacts);
        assert_eq!(judged(&own).is_ok(), all_have);
        assert!(judged(b"").is_ok());
        assert!(judged(&own.to_ascii_lowercase()).is_ok());
        let moved: Vec<u8> = own
            .chunks(2)
            .flat_map(|pair| [b"1", pair, b"1"].concat())
            .collect();
        assert!(judged(&moved).is_ok());
        accepted += usize::from(all_have);
        refused += usize::from(!all_have);
    }
    assert!(accepted > 300 && refused > 300, "{accepted} {refused}");
}

/// Half of the codes of a file follow the one before, and a file can repeat one.
#[test]
fn identcodes_of_files() {
    let mut rng = Rng::new(21);
    let (mut codes, mut near, mut zeros) = (0, 0, 0);
    let mut damaged = Counts::new();
    for _ in 0..2_000 {
        let mut file = valid_file(&mut rng);
        let parcels = take_apart(&file)
            .into_iter()
            .filter(|line| line[0] == b"040");
        let parcels: Vec<Vec<u8>> = parcels.map(|mut line| line.swap_remove(1)).collect();
        for code in &parcels {
            assert_eq!(check_identcode(code), Ok(()));
            zeros += usize::from(code.starts_with(b"0"));
        }
        codes += parcels.len();
        let alike = |pair: &&[Vec<u8>]| pair[0][..18] == pair[1][..18];
        near += parcels.windows(2).filter(alike).count();
        let outcome = damage(Damage::Identcode, &mut rng, &mut file);
        let answer = judge(&file, b"", &mut [0; 4096]);
        assert!(outcome.allows(&answer), "{outcome:?} {answer:?}");
        count(&mut damaged, &answer);
    }
    assert!(
        4 * near > codes && 20 * zeros > codes,
        "{near} {zeros} {codes}"
    );
    // A swap that is not noticed is accepted.
    assert_each(&damaged, &[0, 8]);
    println!("{codes} codes, {near} near the one before, {zeros} from 0 on; damaged {damaged:?}");
}

#[test]
fn each_damage_alone() {
    let mut rng = Rng::new(3);
    for kind in Damage::ALL {
        let mut counts = Counts::new();
        for _ in 0..200 {
            let mut file = valid_file(&mut rng);
            let outcome = damage(kind, &mut rng, &mut file);
            let answer = judge(&file, b"", &mut [0; 4096]);
            assert!(outcome.allows(&answer), "{kind:?} {outcome:?} {answer:?}");
            count(&mut counts, &answer);
        }
        println!("{kind:?}: {counts:?}");
    }
}

#[test]
fn the_limit_is_exact() {
    let mut rng = Rng::new(4);
    for _ in 0..100 {
        let file = valid_file(&mut rng);
        let mut full = file.clone();
        if damage(Damage::GrowToLimit, &mut rng, &mut full) == Outcome::Accepted {
            assert_eq!(full.len(), 65_535);
            assert!(judge(&full, b"", &mut [0; 4096]).is_ok());
        }
        let mut over = file.clone();
        if damage(Damage::GrowPastLimit, &mut rng, &mut over) != Outcome::Unknown {
            assert_eq!(over.len(), 65_536);
            let one = Refusal {
                number: 1,
                place: 65_535,
            };
            for countries in [&b""[..], b"AT", b"A"] {
                assert_eq!(judge(&over, countries, &mut [0; 4096]), Err(one));
            }
        }
    }
}

#[test]
fn lines_and_fields() {
    let mut rng = Rng::new(5);
    let (mut lines, mut fields) = (Counts::new(), Counts::new());
    for _ in 0..20_000 {
        let call = line_call(&mut rng);
        let line = read_line(call.version, &call.file, call.offset);
        let field = find_field(call.version, &call.file, call.offset, call.number);
        match (line, field) {
            (Err(refusal), field) => assert_eq!(field, Err(refusal)),
            (Ok(line), Err(refusal)) => {
                assert_eq!((refusal.number, refusal.place), (15, 0));
                assert!(call.number == 0 || call.number > line.fields);
            }
            (Ok(line), Ok((start, length))) => {
                assert!((1..=line.fields).contains(&call.number));
                let text = &call.file[call.offset..line.next - 2];
                let part = text.split(|byte| *byte == b';').nth(call.number).unwrap();
                assert_eq!(part, &call.file[start..start + length]);
                assert_eq!(call.file[start - 1], b';');
                assert!(matches!(call.file[start + length], b';' | b'\r'));
            }
        }
        count(&mut lines, &line);
        count(&mut fields, &field);
    }
    assert_each(&lines, &[0, 1, 2, 3, 5, 6, 7, 8, 9, 22]);
    assert_each(&fields, &[0, 1, 2, 3, 5, 6, 7, 8, 9, 15, 22]);
    println!("{lines:?}\n{fields:?}");
}

#[test]
fn a_file_is_its_lines() {
    let mut rng = Rng::new(6);
    for _ in 0..2_000 {
        let file = valid_file(&mut rng);
        let version = Version::of_file(&file).number();
        let mut offset = 0;
        let mut read = 0;
        while offset < file.len() {
            offset = read_line(version, &file, offset).unwrap().next;
            read += 1;
        }
        assert_eq!(judge(&file, b"", &mut [0; 4096]).unwrap().lines, read);
    }
}

/// Writes into an output of nines and tests that only the line changed, and only on acceptance.
fn write(call: &WriterCall) -> Result<Vec<u8>, Refusal> {
    let mut out = vec![9; call.output];
    let answer = write_line(
        call.version,
        call.record,
        &call.text,
        &call.ends,
        &mut out,
        call.fill,
    );
    let (fill, length) = match answer {
        Ok(length) => (call.fill, length),
        Err(_) => (0, 0),
    };
    let line = out[fill..fill + length].to_vec();
    let mut rest = out[..fill].iter().chain(&out[fill + length..]);
    assert!(rest.all(|byte| *byte == 9));
    answer.map(|_| line)
}

/// A written line reads back to its fields.
fn assert_reads_back(call: &WriterCall, line: &[u8]) {
    let read = read_line(call.version, line, 0).unwrap();
    assert_eq!(read.record, call.record);
    assert_eq!(read.fields, call.ends.len());
    assert_eq!(read.next, line.len());
    let mut start = 0;
    for (index, end) in call.ends.iter().enumerate() {
        let (at, length) = find_field(call.version, line, 0, index + 1).unwrap();
        assert_eq!(line[at..at + length], call.text[start..*end]);
        start = *end;
    }
}

#[test]
fn written_lines_read_back() {
    let mut rng = Rng::new(7);
    for _ in 0..5_000 {
        let call = valid_writer_call(&mut rng);
        assert_reads_back(&call, &write(&call).unwrap());
    }
    let mut counts = Counts::new();
    for _ in 0..30_000 {
        let call = writer_call(&mut rng);
        let answer = write(&call);
        if let Ok(line) = &answer {
            assert_reads_back(&call, line);
        }
        count(&mut counts, &answer);
    }
    assert_each(&counts, &[0, 3, 5, 6, 7, 8, 9, 13, 14, 22]);
    println!("{counts:?}");
}

#[test]
fn an_accepted_line_written_again_gives_its_bytes() {
    let mut rng = Rng::new(8);
    for _ in 0..500 {
        let file = valid_file(&mut rng);
        let version = Version::of_file(&file).number();
        for parts in take_apart(&file).iter().rev().skip(1) {
            let name = String::from_utf8(parts[0].clone()).unwrap();
            let call = WriterCall::new(version, name.parse().unwrap(), &parts[1..]);
            let line = [&parts.join(&b';')[..], b"\r\n"].concat();
            assert_eq!(write(&call), Ok(line));
        }
    }
}

#[test]
fn field_rules_at_their_boundaries() {
    let cases = field_cases();
    let (mut read, mut written) = (Counts::new(), Counts::new());
    let mut known = 0;
    for case in &cases {
        let line = case.line();
        let answer = read_line(case.version, &line, 0);
        assert!(case.read.allows(&answer), "{case:?} {answer:?}");
        // The same behind other bytes: the places move along.
        let behind = [&b"\0;\n;\r"[..], &line].concat();
        match (answer, read_line(case.version, &behind, 5)) {
            (Ok(one), Ok(two)) => {
                assert_eq!((one.record, one.fields), (two.record, two.fields));
                assert_eq!(one.next + 5, two.next);
            }
            (Err(one), Err(two)) => {
                assert_eq!((one.number, one.place + 5), (two.number, two.place));
            }
            (one, two) => panic!("{one:?} {two:?}"),
        }
        let call = case.writer_call();
        let line_written = write(&call);
        assert!(
            case.written.allows(&line_written),
            "{case:?} {line_written:?}"
        );
        match (&answer, &line_written) {
            (Ok(_), Ok(bytes)) => assert_eq!(*bytes, line),
            (Ok(_), Err(refusal)) => {
                // A semicolon that makes one more field of a line is a byte of the field to the
                // writer: too long, or else not allowed.
                let version = Version::told(case.version).unwrap();
                let width =
                    Record::from_number(case.record).unwrap().widths(version)[case.number - 1];
                let field = &case.fields[case.number - 1];
                let number = if field.len() > width { 6 } else { 8 };
                assert!(case.record == 40 || case.record == 50);
                assert!(field.contains(&b';'));
                assert_eq!((refusal.number, refusal.place), (number, case.number));
            }
            (Err(_), Err(_)) => {}
            (Err(refusal), Ok(_)) => panic!("{case:?} {refusal:?}"),
        }
        known += usize::from(case.read != Outcome::Unknown);
        count(&mut read, &answer);
        count(&mut written, &line_written);
    }
    let fields: HashSet<(u32, u32, usize)> = cases
        .iter()
        .map(|case| (case.version, case.record, case.number))
        .collect();
    assert_eq!(fields.len(), 2 * (10 + 16 + 40 + 24 + 24 + 10));
    assert_each(&read, &[0, 2, 5, 6, 7, 8, 9]);
    assert_each(&written, &[0, 6, 7, 8, 9]);
    println!("{} cases, {known} known, {read:?}", cases.len());
}

/// The purpose from the parts of an accepted file, without its first 35 bytes being cut.
fn purpose_of_parts(file: &[u8], line: usize) -> Option<Vec<u8>> {
    let lines = take_apart(file);
    let cash = lines.get(line)?;
    if cash[0] != b"060" || cash[1] != b"006" {
        return None;
    }
    let above = lines[..line].iter().rposition(|line| line[0] == b"030")?;
    let parcel = lines[above..].iter().find(|line| line[0] == b"040")?;
    let shipment = &lines[above];
    let mut text = cash[8].clone();
    for source in [&shipment[1], &shipment[34], &shipment[36], &parcel[3]] {
        if text.is_empty() {
            text = source.clone();
        }
    }
    if text.is_empty() {
        text = [&parcel[1][..], b"/", &shipment[16]].concat();
    }
    Some(text)
}

#[test]
fn purposes() {
    let mut rng = Rng::new(9);
    let mut counts = Counts::new();
    let mut cut = 0;
    for _ in 0..10_000 {
        let call = purpose_call(&mut rng);
        let (mut list, mut out) = (vec![7; call.words], vec![9; call.output]);
        let answer = purpose(&call.file, &call.countries, call.line, &mut list, &mut out);
        let mut judged = vec![7; call.words];
        let totals = judge(&call.file, &call.countries, &mut judged);
        let expected = match totals {
            Err(refusal) => Err(refusal),
            Ok(_) => match purpose_of_parts(&call.file, call.line) {
                None => Err(Refusal {
                    number: 15,
                    place: 0,
                }),
                Some(_) if call.output < 35 => Err(Refusal {
                    number: 13,
                    place: 0,
                }),
                Some(text) => Ok(text),
            },
        };
        match (&answer, &expected) {
            (Ok(length), Ok(text)) => {
                cut += usize::from(text.len() > 35);
                assert_eq!(*length, text.len().min(35));
                assert_eq!(out[..*length], text[..*length]);
                assert!(out[*length..].iter().all(|byte| *byte == 9));
                assert_eq!(list, judged);
            }
            (Err(one), Err(two)) => {
                assert_eq!(one, two);
                assert!(out.iter().all(|byte| *byte == 9));
                assert!(list.iter().all(|word| *word == 0));
            }
            _ => panic!("{answer:?} {expected:?}"),
        }
        count(&mut counts, &answer);
    }
    for number in [0, 13, 15, 19, 20] {
        assert!(counts[&number] > 300, "{counts:?}");
    }
    assert!(cut > 100);
    println!("{counts:?}, {cut} cut");
}

#[test]
fn numbers() {
    let mut rng = Rng::new(10);
    let mut counts = Counts::new();
    for _ in 0..20_000 {
        let number = valid_number(&mut rng);
        let kind = match number.len() {
            15 => Kind::Tracking,
            _ => Kind::Label,
        };
        assert_eq!(check_number(&number), Ok(kind));
        count(&mut counts, &check_number(&damaged_number(&mut rng)));
    }
    assert_each(&counts, &[0, 16, 17, 18]);
    println!("{counts:?}");
}

#[test]
fn issuing() {
    let mut rng = Rng::new(11);
    let mut counts = Counts::new();
    for _ in 0..20_000 {
        let call = issue_call(&mut rng);
        let mut out = vec![9; call.output];
        let answer = issue_number(&call.body, &mut out);
        let length = answer.unwrap_or(0);
        if answer.is_ok() {
            assert_eq!(length, call.body.len() + 1);
            assert_eq!(out[..length - 1], call.body);
            assert!(check_number(&out[..length]).is_ok());
        }
        assert!(out[length..].iter().all(|byte| *byte == 9));
        count(&mut counts, &answer);
    }
    assert_each(&counts, &[0, 13, 16, 17]);
    println!("{counts:?}");
}

/// The sum of all 22 digits, each first of a pair taken three times: a code passes where 10 divides
/// it.
fn weighted(code: &[u8]) -> u32 {
    let value = |digit: u8| (digit as char).to_digit(10).unwrap();
    code.chunks(2)
        .map(|pair| 3 * value(pair[0]) + value(pair[1]))
        .sum()
}

#[test]
fn identcodes() {
    let mut rng = Rng::new(18);
    let (mut counts, mut zeros) = (Counts::new(), 0);
    for _ in 0..20_000 {
        let code = valid_identcode(&mut rng);
        assert_eq!(check_identcode(&code), Ok(()));
        assert_eq!(weighted(&code) % 10, 0);
        zeros += usize::from(code[21] == b'0');
        let parts = read_identcode(&code).unwrap();
        let joined = [
            &code[parts.origin],
            &code[parts.customer],
            &code[parts.sequence],
            &code[parts.product],
            &code[parts.destination],
            &code[parts.check],
        ];
        assert_eq!(joined.concat(), code);
        let damaged = damaged_identcode(&mut rng);
        let answer = check_identcode(&damaged);
        if damaged.len() == 22 && damaged.iter().all(u8::is_ascii_digit) {
            assert_eq!(answer.is_ok(), weighted(&damaged) % 10 == 0);
        }
        assert_eq!(read_identcode(&damaged).map(|_| ()), answer);
        count(&mut counts, &answer);
    }
    assert_each(&counts, &[0, 16, 17, 18]);
    assert!(counts.values().all(|count| *count >= 1_000), "{counts:?}");
    assert!(zeros > 1_000, "{zeros}");
    println!("{counts:?}, {zeros} with the check digit 0");
}

#[test]
fn issuing_identcodes() {
    let mut rng = Rng::new(19);
    let mut counts = Counts::new();
    for _ in 0..20_000 {
        let call = identcode_issue_call(&mut rng);
        let mut out = vec![9; call.output];
        let answer = issue_identcode(&call.body, &mut out);
        let length = answer.unwrap_or(0);
        if answer.is_ok() {
            assert_eq!(length, 22);
            assert_eq!(out[..21], call.body);
            assert_eq!(weighted(&out[..22]) % 10, 0);
        }
        assert!(out[length..].iter().all(|byte| *byte == 9));
        count(&mut counts, &answer);
    }
    assert_each(&counts, &[0, 13, 16, 17]);
    println!("{counts:?}");
}

/// No single digit can be another. Two neighbours that are swapped pass exactly where they differ by
/// 5, or not at all; two digits with one between them always.
#[test]
fn slips_in_identcodes() {
    let mut rng = Rng::new(20);
    let (mut passed, mut stopped) = (0, 0);
    for _ in 0..5_000 {
        let code = valid_identcode(&mut rng);
        for place in 0..22 {
            let mut slipped = code.clone();
            slipped[place] = b'0' + (code[place] - b'0' + rng.between(1, 9) as u8) % 10;
            assert!(check_identcode(&slipped).is_err());
        }
        for place in 0..21 {
            let mut swapped = code.clone();
            swapped.swap(place, place + 1);
            let differ = code[place].abs_diff(code[place + 1]);
            assert_eq!(check_identcode(&swapped).is_ok(), [0, 5].contains(&differ));
            passed += usize::from(differ == 5);
            stopped += usize::from(![0, 5].contains(&differ));
        }
        for place in 0..20 {
            let mut jumped = code.clone();
            jumped.swap(place, place + 2);
            assert_eq!(check_identcode(&jumped), Ok(()));
        }
    }
    assert!(passed > 5_000 && stopped > 50_000, "{passed} {stopped}");
}

/// The C function that 001 prints, in its own steps: one of them, and all.
fn step_of_001(mut p: u32, symbol: u8) -> u32 {
    p += (symbol as char).to_digit(36).unwrap();
    if p > 36 {
        p -= 36;
    }
    p *= 2;
    if p >= 37 {
        p -= 37;
    }
    p
}

fn check_of_001(body: &[u8]) -> u8 {
    let mut p = body.iter().fold(36, |p, symbol| step_of_001(p, *symbol));
    p = 37 - p;
    let value = if p == 36 { 0 } else { p };
    char::from_digit(value, 36).unwrap().to_ascii_uppercase() as u8
}

#[test]
fn checks_are_those_of_001() {
    let mut rng = Rng::new(12);
    for _ in 0..20_000 {
        let number = valid_number(&mut rng);
        let (check, body) = number.split_last().unwrap();
        assert_eq!(*check, check_of_001(body));
    }
}

#[test]
fn carries() {
    let mut rng = Rng::new(21);
    let (mut counts, mut met) = (Counts::new(), HashSet::new());
    for _ in 0..40_000 {
        let CarryCall { carry, symbol } = carry_call(&mut rng);
        let answer = next_carry(carry, symbol);
        if let Ok(next) = answer {
            assert_eq!(next, step_of_001(carry, symbol));
            met.insert((carry, symbol));
        }
        count(&mut counts, &answer);
    }
    assert_each(&counts, &[0, 15, 17]);
    assert!(counts.values().all(|count| *count >= 1_000), "{counts:?}");
    assert_eq!(met.len(), 36 * 36, "every carry with every symbol");
    println!("{counts:?}");
}

/// A number of the right shape passes exactly where the carry behind its check is 2.
#[test]
fn numbers_that_are_keyed() {
    let keyed = |number: &[u8]| {
        let mut symbols = number.iter();
        symbols.try_fold(36, |carry, symbol| next_carry(carry, *symbol))
    };
    let mut rng = Rng::new(22);
    let mut stopped = 0;
    for _ in 0..20_000 {
        assert_eq!(keyed(&valid_number(&mut rng)), Ok(2));
        let damaged = damaged_number(&mut rng);
        match check_number(&damaged) {
            Ok(_) => assert_eq!(keyed(&damaged), Ok(2)),
            Err(refusal) if refusal.number == 18 => {
                assert!(keyed(&damaged).is_ok_and(|carry| carry != 2));
                stopped += 1;
            }
            Err(_) => {}
        }
    }
    assert!(stopped > 1_000, "{stopped}");
}

/// Whether 15 symbols are 14 digits and the check that 001's steps give.
fn answer_by_001(number: &[u8]) -> u8 {
    let (check, body) = number.split_last().unwrap();
    let is_symbol = check.is_ascii_digit() || check.is_ascii_uppercase();
    if !is_symbol || !body.iter().all(u8::is_ascii_digit) {
        return 17;
    }
    if *check == check_of_001(body) {
        0
    } else {
        18
    }
}

/// Each answer as 001's steps give it, and each beside each other one.
#[test]
fn days() {
    let mut rng = Rng::new(23);
    let (mut counts, mut beside) = (Counts::new(), BTreeMap::new());
    let (mut none, mut exact, mut longest, mut both) = (0, 0, 0, 0);
    for _ in 0..20_000 {
        let DayCall { numbers, room } = day_call(&mut rng);
        let mut answers = vec![9; room];
        let answer = check_numbers(&numbers, &mut answers);
        let held = numbers.len() / 15;
        match answer {
            Ok(passed) => {
                let due: Vec<u8> = numbers.chunks(15).map(answer_by_001).collect();
                assert_eq!(answers[..held], due);
                assert_eq!(passed, due.iter().filter(|byte| **byte == 0).count());
                assert!(answers[held..].iter().all(|byte| *byte == 9));
                for pair in due.windows(2) {
                    *beside.entry((pair[0], pair[1])).or_insert(0) += 1;
                }
                none += usize::from(held == 0);
                exact += usize::from(room == held);
                longest = longest.max(held);
            }
            Err(refusal) => {
                let due = if numbers.len() % 15 != 0 { 16 } else { 13 };
                assert_eq!((refusal.number, refusal.place), (due, 0));
                assert!(due == 16 || room < held);
                both += usize::from(due == 16 && room < held);
                assert!(answers.iter().all(|byte| *byte == 9));
            }
        }
        count(&mut counts, &answer);
    }
    assert_each(&counts, &[0, 13, 16]);
    assert!(counts.values().all(|count| *count >= 400), "{counts:?}");
    assert_eq!(beside.len(), 9, "{beside:?}");
    assert!(beside.values().all(|count| *count >= 400), "{beside:?}");
    assert!(none > 200 && exact > 2_000 && longest > 500 && both > 400);
    println!(
        "{counts:?}, {beside:?}, {none} of none, {exact} with just room, {both} with both faults"
    );
}

/// The remainder by 97, one symbol after the other.
fn remainder(iban: &[u8]) -> u32 {
    let moved = [&iban[4..], &iban[..4]].concat();
    moved.iter().fold(0, |sum, symbol| {
        let value = (*symbol as char).to_digit(36).unwrap();
        let shift = if value >= 10 { 100 } else { 10 };
        (sum * shift + value) % 97
    })
}

#[test]
fn ibans() {
    let mut rng = Rng::new(13);
    let mut counts = Counts::new();
    let mut barred = 0;
    for _ in 0..20_000 {
        let iban = valid_iban(&mut rng);
        assert_eq!(check_iban(&iban), Ok(()));
        assert_eq!(remainder(&iban), 1);
        let damaged = damaged_iban(&mut rng);
        let answer = check_iban(&damaged);
        if let Err(Refusal { number: 18, place }) = answer {
            assert_eq!(place, 2);
            barred += usize::from(remainder(&damaged) == 1);
        }
        count(&mut counts, &answer);
    }
    assert_each(&counts, &[0, 16, 17, 18]);
    assert!(barred > 1000, "{barred}");
    println!("{counts:?}, {barred} barred");
}

/// "Swapping two unlike neighbours in an accepted DPD number, where the shape still holds, passes
/// exactly when one value follows the other (0 follows 35) and the carry before them plus the
/// followed value is 18, modulo 36."
#[test]
fn swapped_neighbours_in_numbers() {
    let value = |symbol: u8| (symbol as char).to_digit(36).unwrap();
    let mut rng = Rng::new(14);
    let mut passed = 0;
    for _ in 0..20_000 {
        let number = valid_number(&mut rng);
        let mut carry = 36;
        for place in 0..number.len() - 1 {
            let (one, two) = (value(number[place]), value(number[place + 1]));
            let mut swapped = number.clone();
            swapped.swap(place, place + 1);
            let answer = check_number(&swapped);
            let shaped = !matches!(answer, Err(Refusal { number: 17, .. }));
            if one != two && shaped {
                let follows = |followed: u32, follower: u32| {
                    (followed + 1) % 36 == follower && (carry + followed) % 36 == 18
                };
                assert_eq!(answer.is_ok(), follows(one, two) || follows(two, one));
                passed += usize::from(answer.is_ok());
            }
            let sum = (carry + one) % 36;
            carry = 2 * (if sum == 0 { 36 } else { sum }) % 37;
        }
    }
    assert!(passed > 100, "{passed}");
}

/// "Two IBANs never differ by swapping two neighbouring digits or two neighbouring letters", nor in
/// a digit for a digit or a letter for a letter.
#[test]
fn slips_in_ibans() {
    let mut rng = Rng::new(15);
    for _ in 0..5_000 {
        let iban = valid_iban(&mut rng);
        for place in 0..iban.len() {
            let mut slipped = iban.clone();
            slipped[place] = match iban[place].is_ascii_digit() {
                true => rng.digit(),
                false => rng.capital(),
            };
            assert!(slipped == iban || check_iban(&slipped).is_err());
            let next = (place + 1).min(iban.len() - 1);
            let mut swapped = iban.clone();
            swapped.swap(place, next);
            let alike = iban[place].is_ascii_digit() == iban[next].is_ascii_digit();
            assert!(!alike || swapped == iban || check_iban(&swapped).is_err());
        }
    }
}
