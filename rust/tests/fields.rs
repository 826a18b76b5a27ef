//! All fields of a line at once, held against the proved call that finds one of them: on every
//! stored line and on generated ones.

use std::path::{Path, PathBuf};

use peliranopi::*;
use reference::generate::{field_cases, line_call, valid_file, Rng};

/// What was compared: accepted lines by their records, and refused ones.
#[derive(Default)]
struct Compared {
    accepted: [usize; 6],
    refused: usize,
}

impl Compared {
    /// Holds the line that starts at the offset against `read_line` and `find_field`, under both
    /// versions.
    fn line(&mut self, file: &[u8], offset: usize) {
        for version in Version::ALL {
            self.line_of(*version, file, offset);
        }
    }

    fn line_of(&mut self, version: Version, file: &[u8], offset: usize) {
        let line = match read_line(version, file, offset) {
            Ok(line) => line,
            Err(refused) => {
                assert_eq!(find_fields(version, file, offset).unwrap_err(), refused);
                self.refused += 1;
                return;
            }
        };
        let mut fields = find_fields(version, file, offset).unwrap();
        assert_eq!(fields.line(), line);
        for number in 1..=line.fields {
            assert_eq!(fields.len(), line.fields - number + 1);
            let due = find_field(version, file, offset, number).unwrap();
            assert_eq!(
                fields.next(),
                Some(due),
                "field {number} of the line at {offset}"
            );
        }
        assert_eq!((fields.len(), fields.next()), (0, None));
        let beyond = find_field(version, file, offset, line.fields + 1).unwrap_err();
        assert_eq!(beyond.why, Reason::NotThere);
        self.accepted[line.record.number() as usize / 10 - 1] += 1;
    }

    /// Each line of a file, and what stands behind the last one.
    fn file(&mut self, file: &[u8]) {
        self.line(file, 0);
        for (at, byte) in file.iter().enumerate() {
            if *byte == b'\n' {
                self.line(file, at + 1);
            }
        }
    }

    /// So many lines of each record, and so many refused ones, are among them at least.
    fn hold(&self, accepted: usize, refused: usize) {
        println!("accepted {:?}, refused {}", self.accepted, self.refused);
        assert!(self.accepted.iter().all(|lines| *lines >= accepted));
        assert!(self.refused >= refused);
    }
}

/// The files in the folders `data` of the crates, and the examples.
fn stored_files() -> Vec<PathBuf> {
    let above = Path::new(env!("CARGO_MANIFEST_DIR")).join("..");
    let examples = above.join("examples").read_dir().unwrap();
    let mut files: Vec<PathBuf> = examples.map(|file| file.unwrap().path()).collect();
    for krate in above.join("crates").read_dir().unwrap() {
        let Ok(data) = krate.unwrap().path().join("data").read_dir() else {
            continue; // a crate without stored files
        };
        files.extend(data.map(|file| file.unwrap().path()));
    }
    files
}

#[test]
fn the_fields_of_every_stored_line() {
    let mut compared = Compared::default();
    for path in stored_files() {
        compared.file(&std::fs::read(path).unwrap());
    }
    compared.hold(20, 20);
}

#[test]
fn the_fields_of_generated_lines() {
    let (mut rng, mut compared) = (Rng::new(7), Compared::default());
    for _ in 0..20_000 {
        let call = line_call(&mut rng);
        compared.line(&call.file, call.offset);
    }
    compared.hold(500, 5_000);
}

#[test]
fn the_fields_of_generated_files_and_at_the_boundaries_of_their_rules() {
    let (mut rng, mut compared) = (Rng::new(7), Compared::default());
    for _ in 0..200 {
        let file = valid_file(&mut rng);
        compared.file(&file);
        let due = reference::version::Version::of_file(&file);
        assert_eq!(Version::of(&file).number(), due.number());
    }
    // One in 11, to be quick; this is prime, so the steps meet other cases in each field.
    for case in field_cases().into_iter().step_by(11) {
        compared.line(&case.line(), 0);
    }
    compared.hold(200, 200);
}

#[test]
fn a_line_that_is_not_there_is_refused() {
    let refused = find_fields(Version::Seven, b"", usize::MAX).unwrap_err();
    assert_eq!((refused.why, refused.place), (Reason::NoLineEnd, 0));
}

#[test]
fn fields_can_be_gone_through_again_and_past_their_end() {
    let mut fields = find_fields(Version::Five, b"050;10;;x\r\n", 0).unwrap();
    let again = fields.clone();
    assert_eq!(fields.size_hint(), (3, Some(3)));
    assert_eq!(fields.by_ref().collect::<Vec<_>>(), [4..6, 7..7, 8..9]);
    assert_eq!((fields.next(), fields.next()), (None, None));
    assert_eq!(again.last(), Some(8..9));
}
