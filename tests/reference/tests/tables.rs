//! The tables against the paper's own sentences, which are read here once more.

use reference::profile::{Record, FEATURES};
use reference::version::Version::{V5, V7};

/// Widths as document 01 writes them: "1: 40; 3 to 6: 40; 8, 9: 40", R and the forms left out.
fn widths(sentence: &str) -> Vec<usize> {
    let mut widths = Vec::new();
    for group in sentence.split(';') {
        let (fields, width) = group.split_once(':').unwrap();
        let width = width.trim().parse().unwrap();
        let last = match fields.rsplit([' ', ',']).next() {
            Some(last) => last.parse().unwrap(),
            None => unreachable!(),
        };
        widths.resize(last, width);
    }
    widths
}

fn numbers(sentence: &str) -> Vec<usize> {
    sentence
        .split(',')
        .map(|number| number.trim().parse().unwrap())
        .collect()
}

#[test]
fn widths_are_the_papers() {
    assert_eq!(
        Record::R010.widths(V5),
        widths("1: 10; 2: 40; 3: 19; 4: 19; 5: 4; 6: 10; 7: 20; 8, 9: 40; 10: 64")
    );
    assert_eq!(
        Record::R020.widths(V5),
        numbers("40, 40, 40, 40, 2, 10, 40, 40, 40, 40, 10, 40, 64, 64, 64, 64")
    );
    assert_eq!(
        Record::R030.widths(V5),
        widths(
            "1: 40; 2: 10; 3 to 6: 40; 7: 2; 8: 10; 9 to 12: 40; 13: 10; 14: 40; 15: 64; 16 to 19: \
             40; 20: 2; 21: 10; 22 to 25: 40; 26: 10; 27: 15; 28: 40; 29 to 33: 64; 34 to 36: 40; \
             37: 100; 38: 19; 39: 20; 40: 20"
        )
    );
    assert_eq!(Record::R040.widths(V5), widths("1: 22; 2 to 24: 64"));
    assert_eq!(Record::R050.widths(V5), widths("1: 20; 2 to 24: 64"));
    assert_eq!(
        Record::R060.widths(V5),
        widths("1: 3; 2: 64; 3: 9; 4: 3; 5: 64; 6: 34; 7: 11; 8: 35; 9: 64; 10: 40")
    );
}

/// The tables 8, 10, 12, 14, 22 and 25 of document 002, read once more: "7.3" and "6.2" as 11 and 9
/// bytes, and the page's widths where they have none: 010.3, 010.4, 030.38, and the fields of 040 and 050
/// that are not in them.
#[test]
fn widths_of_version_7_are_those_of_002() {
    assert_eq!(
        Record::R010.widths(V7),
        widths("1: 10; 2: 80; 3, 4: 19; 5, 6: 10; 7: 20; 8, 9: 40; 10: 64")
    );
    assert_eq!(
        Record::R020.widths(V7),
        widths(
            "1 to 4: 40; 5: 2; 6: 10; 7: 40; 8: 40; 9: 40; 10: 40; 11: 10; 12: 40; 13: 64; 14: 64; 15: \
             64; 16: 64"
        )
    );
    assert_eq!(
        Record::R030.widths(V7),
        widths(
            "1: 40; 2: 10; 3 to 6: 40; 7: 2; 8: 10; 9: 40; 10: 40; 11: 40; 12: 40; 13: 10; 14: 40; 15: \
             64; 16 to 19: 40; 20: 2; 21: 10; 22: 40; 23: 40; 24: 40; 25: 40; 26: 10; 27: 15; 28: 40; \
             29: 64; 30: 64; 31: 64; 32: 64; 33: 64; 34: 40; 35: 40; 36: 40; 37: 100; 38: 19; 39: 20; \
             40: 20"
        )
    );
    assert_eq!(
        Record::R040.widths(V7),
        widths(
            "1: 24; 2: 11; 3: 40; 4: 1; 5: 40; 6: 40; 7: 9; 8: 3; 9: 100; 10: 2; 11: 1; 12: 100; 13 to \
             24: 64"
        )
    );
    assert_eq!(Record::R050.widths(V7), widths("1: 2; 2 to 24: 64"));
    assert_eq!(
        Record::R060.widths(V7),
        widths("1: 3; 2: 40; 3: 9; 4: 3; 5: 35; 6: 40; 7: 11; 8: 35; 9: 40; 10: 40")
    );
}

/// What 002 calls required, without 020.12 and 020.13, which it calls optional and which "follow the
/// lent country list in both".
#[test]
fn duties_of_version_7_are_those_of_002() {
    let duties = [
        "1, 3, 4, 6",
        "1, 5, 6, 7, 9, 11",
        "16, 20, 21, 22, 24, 26",
        "1, 4",
        "1",
        "1",
    ];
    for (record, duty) in Record::ALL.into_iter().zip(duties) {
        assert_eq!(record.required(V7), numbers(duty));
    }
}

/// docs/fields.txt, which the library is held against too: a row for each field, with width and duty
/// in both versions, and one more for 060.2 under 006 and 022.
#[test]
fn the_stored_table_has_the_same_widths_and_duties() {
    let stored = include_str!("../../../docs/fields.txt").lines();
    let stored: Vec<String> = stored
        .filter(|line| !line.is_empty() && !line.starts_with('#'))
        .map(|line| line.split_whitespace().collect::<Vec<_>>().join(" "))
        .collect();
    let mut due = Vec::new();
    for record in Record::ALL {
        for number in 1..=record.widths(V5).len() {
            let [five, seven] = [V5, V7].map(|version| {
                let duty = match record.required(version).contains(&number) {
                    true => "R",
                    false => "-",
                };
                (record.widths(version)[number - 1], duty)
            });
            let row = |five: usize, seven: usize, duties: [&str; 2]| {
                let [one, other] = duties;
                format!(
                    "{:03}.{number} {five} {one} {seven} {other}",
                    record.number()
                )
            };
            due.push(row(five.0, seven.0, [five.1, seven.1]));
            if record == Record::R060 && number == 2 {
                due.push(row(35, seven.0, [five.1, seven.1]) + " under 006 022");
            }
        }
    }
    assert_eq!(stored, due);
}

/// Without 020.12 and 020.13, of which a line alone is no longer asked (document 02, request 1).
#[test]
fn duties_are_the_papers() {
    let duties = [
        "1, 2, 3, 4, 5, 6",
        "1, 5, 6, 7, 9, 11",
        "16, 20, 21, 22, 24, 26",
        "1",
        "1",
        "1",
    ];
    for (record, duty) in Record::ALL.into_iter().zip(duties) {
        assert_eq!(record.required(V5), numbers(duty));
    }
}

#[test]
fn counts_are_the_papers() {
    let counts = [(10, 10), (16, 16), (40, 40), (3, 24), (1, 24), (10, 10)];
    for (record, (least, most)) in Record::ALL.into_iter().zip(counts) {
        for count in 0..100 {
            assert_eq!(record.allows(count), (least..=most).contains(&count));
        }
    }
}

#[test]
fn features_are_the_papers() {
    let codes = "004 006 007 011 019 022 024 027 029 045 052 053 054 061 062 063 065 066 072 074 \
                 081 082 083 116 122 123 142 143 186 187";
    assert!(FEATURES
        .iter()
        .map(|code| &code[..])
        .eq(codes.split(' ').map(str::as_bytes)));
}

#[test]
fn records_go_by_type_and_number() {
    for number in 0..1000 {
        let name = format!("{number:03}");
        let record = Record::from_number(number);
        assert_eq!(record, Record::from_type(name.as_bytes()));
        assert_eq!(record.is_some(), [10, 20, 30, 40, 50, 60].contains(&number));
        assert!(record.is_none_or(|record| record.number() == number));
    }
}
