//! Holds the static library against the independent implementation on random calls: compare [COMPARISONS [SEED]]. Each comparison
//! is one call compared in full. It exits with 1 at the first difference, and where an answer never occurred that a call can give.

use compare::draw::{self, Kind};
use compare::{difference, library, promised, Call, Left};
use peliranopi::Reason;
use reference::generate::Rng;
use reference::profile::LIMIT;
use reference::version::Version;
use std::collections::{BTreeMap, BTreeSet};
use std::process::exit;

/// How many comparisons a run makes if nobody says otherwise. From here on every answer has to occur.
const DEFAULT: usize = 1_000_000;
const DEFAULT_SEED: u64 = 7;

/// A kind of call, how many of a thousand comparisons are of this kind, and the refusals that it can give.
struct Share {
    kind: Kind,
    name: &'static str,
    share: usize,
    refusals: &'static [u32],
}

const SHARES: [Share; 13] = [
    Share {
        kind: Kind::File,
        name: "files",
        share: 30,
        refusals: &[1, 2, 3, 4, 5, 6, 7, 8, 9, 10, 11, 12, 19, 20],
    },
    Share {
        kind: Kind::Line,
        name: "lines",
        share: 90,
        refusals: &[1, 2, 3, 5, 6, 7, 8, 9, 22],
    },
    Share {
        kind: Kind::Field,
        name: "fields",
        share: 70,
        refusals: &[1, 2, 3, 5, 6, 7, 8, 9, 15, 22],
    },
    Share {
        kind: Kind::Write,
        name: "written lines",
        share: 110,
        refusals: &[3, 5, 6, 7, 8, 9, 13, 14, 22],
    },
    Share {
        kind: Kind::Purpose,
        name: "purposes",
        share: 15,
        refusals: &[1, 2, 3, 4, 5, 6, 7, 8, 9, 10, 11, 12, 13, 15, 19, 20],
    },
    Share {
        kind: Kind::Check,
        name: "checked numbers",
        share: 110,
        refusals: &[16, 17, 18],
    },
    Share {
        kind: Kind::Issue,
        name: "issued numbers",
        share: 110,
        refusals: &[13, 16, 17],
    },
    Share {
        kind: Kind::Iban,
        name: "IBANs",
        share: 210,
        refusals: &[16, 17, 18],
    },
    Share {
        kind: Kind::CheckIdentcode,
        name: "checked identcodes",
        share: 80,
        refusals: &[16, 17, 18],
    },
    Share {
        kind: Kind::ReadIdentcode,
        name: "read identcodes",
        share: 40,
        refusals: &[16, 17, 18],
    },
    Share {
        kind: Kind::IssueIdentcode,
        name: "issued identcodes",
        share: 75,
        refusals: &[13, 16, 17],
    },
    Share {
        kind: Kind::Carry,
        name: "carries",
        share: 40,
        refusals: &[15, 17],
    },
    Share {
        kind: Kind::Day,
        name: "days",
        share: 20,
        refusals: &[13, 16],
    },
];

/// How often each answer occurred, 0 being acceptance, how often under each version, and how many inputs were as long as a file may
/// be.
#[derive(Default)]
struct Tally {
    answers: BTreeMap<u32, usize>,
    versions: BTreeMap<u32, BTreeMap<u32, usize>>,
    full: usize,
}

impl Tally {
    fn accepted(&self) -> usize {
        self.answers.get(&0).copied().unwrap_or(0)
    }

    /// The answers among these refusals, and acceptance, that never occurred.
    fn missing(&self, refusals: &[u32]) -> Vec<u32> {
        let possible = [&[0], refusals].concat();
        possible
            .into_iter()
            .filter(|answer| !self.answers.contains_key(answer))
            .collect()
    }

    /// How often a call was answered by the rules of a version.
    fn of_version(&self, version: Version) -> usize {
        self.answers_of(version).values().sum()
    }

    fn answers_of(&self, version: Version) -> BTreeMap<u32, usize> {
        self.versions
            .get(&version.number())
            .cloned()
            .unwrap_or_default()
    }

    fn refusals(&self) -> String {
        let occurred = self.answers.range(1..);
        occurred
            .map(|(answer, count)| format!(" {answer}:{count}"))
            .collect()
    }
}

fn main() {
    let Some((comparisons, seed)) = arguments() else {
        eprintln!("usage: compare [COMPARISONS [SEED]]");
        exit(2);
    };
    check_itself(seed);
    for share in &SHARES {
        let count = (comparisons * share.share).div_ceil(1000);
        let tally = compare_all(share, count, seed);
        println!(
            "test: {count} {} compared: {} accepted, refusals{} (seed {seed})",
            share.name,
            tally.accepted(),
            tally.refusals()
        );
        if comparisons >= DEFAULT {
            require_all(share, &tally);
        }
    }
}

/// Ends the run where an answer never occurred that the call can give, under each version where it has one, where fewer than a third
/// of such calls are of either version, or no file was as long as it may be.
fn require_all(share: &Share, tally: &Tally) {
    let missing = tally.missing(share.refusals);
    if !missing.is_empty() {
        println!("test: answers that never occurred: {missing:?}");
        exit(1);
    }
    let calls: usize = tally.answers.values().sum();
    let has_version = !tally.versions.is_empty();
    for version in Version::ALL.into_iter().filter(|_| has_version) {
        let (count, answers) = (tally.of_version(version), tally.answers_of(version));
        println!(
            "test: of these {} {count} are of version {}, {} of them accepted",
            share.name,
            version.number(),
            answers.get(&0).copied().unwrap_or(0)
        );
        let possible = [&[0], share.refusals].concat();
        let mut missing = possible.iter().filter(|answer| **answer != 22);
        let missing = missing.find(|answer| !answers.contains_key(answer));
        if 3 * count < calls || missing.is_some() {
            println!("test: too few of this version, or none with the answer {missing:?}");
            exit(1);
        }
    }
    if share.kind != Kind::File {
        return;
    }
    println!("test: of these files {} have {LIMIT} bytes", tally.full);
    if tally.full == 0 {
        exit(1);
    }
}

/// How many comparisons and with which seed; none where the arguments are not such numbers.
fn arguments() -> Option<(usize, u64)> {
    let arguments: Vec<String> = std::env::args().skip(1).collect();
    match &arguments[..] {
        [] => Some((DEFAULT, DEFAULT_SEED)),
        [comparisons] => Some((comparisons.parse().ok()?, DEFAULT_SEED)),
        [comparisons, seed] => Some((comparisons.parse().ok()?, seed.parse().ok()?)),
        _ => None,
    }
}

/// The call with this index and what is there before it. Each index has its own stream, so that one call can be drawn again alone.
fn drawn(kind: Kind, seed: u64, index: usize) -> (Call, Left) {
    let stream = (kind as u64) << 40 | index as u64;
    let mut rng = Rng::new(Rng::new(seed).word().wrapping_add(stream));
    let call = draw::call(kind, &mut rng);
    let before = Left::before(&call, &mut rng);
    (call, before)
}

fn compare_all(share: &Share, count: usize, seed: u64) -> Tally {
    let mut tally = Tally::default();
    for index in 0..count {
        let (call, before) = drawn(share.kind, seed, index);
        let library = library::left(&call, before.clone());
        let promised = promised::left(&call, before);
        if let Some(part) = difference(&library, &promised) {
            report(share, seed, index, &call, &part, [&library, &promised]);
            exit(1);
        }
        *tally.answers.entry(promised.answer).or_default() += 1;
        if let Some(version) = call.version() {
            let answers = tally.versions.entry(version.number()).or_default();
            *answers.entry(promised.answer).or_default() += 1;
        }
        tally.full += usize::from(call.input().len() == LIMIT);
    }
    tally
}

/// Prints a difference and keeps the bytes that were read in a file.
fn report(share: &Share, seed: u64, index: usize, call: &Call, part: &str, both: [&Left; 2]) {
    println!(
        "test: {} differ in {part} (seed {seed}, index {index}; {})",
        share.name,
        call.arguments()
    );
    for (name, left) in ["library", "reference"].iter().zip(both) {
        println!(
            "test: {name}: answer {}, place {}, values {:?}",
            left.answer, left.place, left.values
        );
    }
    let path = std::env::temp_dir().join(format!("compare-{:?}-{seed}-{index}", share.kind));
    match std::fs::write(&path, call.input()) {
        Ok(()) => println!("test: the input is in {}", path.display()),
        Err(error) => println!("test: the input could not be written: {error}"),
    }
}

/// Wrong answers and changed bytes must be noticed, and answers that never occurred too: else no comparison means anything. Each
/// refusal is one that some call can give.
fn check_itself(seed: u64) {
    let named: BTreeSet<u32> = Reason::ALL.iter().map(|why| why.number()).collect();
    let shares = SHARES.iter().flat_map(|share| share.refusals);
    assert_eq!(
        named,
        shares.copied().collect(),
        "no call of SHARES gives one of these"
    );
    for share in &SHARES {
        // Some calls lend no countries, or have no ends.
        for index in 0..20 {
            let (call, before) = drawn(share.kind, seed, index);
            let left = library::left(&call, before);
            for wrong in wrong_in_one_part(&left) {
                assert!(
                    difference(&wrong, &left).is_some(),
                    "a wrong {:?} is not noticed",
                    share.kind
                );
            }
            assert_eq!(difference(&left, &left.clone()), None);
        }
        assert_eq!(
            Tally::default().missing(share.refusals).len(),
            share.refusals.len() + 1
        );
    }
}

/// The same with one part changed: each number, and the first and last element of each buffer.
fn wrong_in_one_part(left: &Left) -> Vec<Left> {
    let mut all = Vec::new();
    let mut changed = |change: &dyn Fn(&mut Left)| {
        let mut wrong = left.clone();
        change(&mut wrong);
        all.push(wrong);
    };
    changed(&|wrong| wrong.answer ^= 1);
    changed(&|wrong| wrong.place ^= 1);
    for value in 0..left.values.len() {
        changed(&|wrong| wrong.values[value] ^= 1);
    }
    for end in [true, false] {
        let last = |length: usize| if end { length - 1 } else { 0 };
        if !left.input.is_empty() {
            changed(&|wrong| wrong.input[last(left.input.len())] ^= 1);
        }
        if !left.countries.is_empty() {
            changed(&|wrong| wrong.countries[last(left.countries.len())] ^= 1);
        }
        if !left.ends.is_empty() {
            changed(&|wrong| wrong.ends[last(left.ends.len())] ^= 1);
        }
        changed(&|wrong| wrong.words[last(left.words.len())] ^= 1);
        changed(&|wrong| wrong.output[last(left.output.len())] ^= 1);
    }
    all
}
