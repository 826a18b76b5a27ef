//! The cases that document 01 names, the numbers that 001 prints, the identcodes that 000 prints, and
//! every refusal with its place.

use reference::file::{judge, Totals};
use reference::identcode::{check_identcode, issue_identcode, read_identcode};
use reference::line::{find_field, read_line, Line};
use reference::numbers::{check_iban, check_number, check_numbers, issue_number, next_carry, Kind};
use reference::purpose::purpose;
use reference::version::Version;
use reference::writer::write_line;
use reference::Refusal;

const EXAMPLE: &str = "\
010;0012345678;Muster;2021-02-23T13:37:50;2021-02-24T14:20:55;1005;5;;;;\r\n\
020;A;;;;AT;1010;Wien;;Gasse;;1;1;a@b;;;\r\n\
030;;;;;;;;;;;;;;;;B;;;;AT;1020;Wien;;Gasse;;2;;;;;;;;;;;;;;\r\n\
040;1000000000000000000007;;\r\n\
050;10\r\n\
060;006;;12.50;EUR;Muster;AT611904300234573201;ABCDATWW;;;\r\n";

/// The first offsets of the example's lines.
const STARTS: [u32; 6] = [0, 74, 116, 178, 208, 216];

fn no<T>(number: u32, place: usize) -> Result<T, Refusal> {
    Err(Refusal { number, place })
}

fn judged(file: impl AsRef<[u8]>) -> Result<Totals, Refusal> {
    judged_under(b"", file)
}

/// The same with these countries lent.
fn judged_under(countries: &[u8], file: impl AsRef<[u8]>) -> Result<Totals, Refusal> {
    judge(file.as_ref(), countries, &mut [7; 4096])
}

fn totals(lines: usize, parcels: usize, cents: u64) -> Result<Totals, Refusal> {
    Ok(Totals {
        lines,
        parcels,
        cents,
    })
}

/// The example with one piece put for another, which it must have exactly once.
fn with(old: &str, new: &str) -> String {
    assert_eq!(EXAMPLE.matches(old).count(), 1, "{old}");
    EXAMPLE.replace(old, new)
}

/// Where a piece stands in the example.
fn at(piece: &str) -> usize {
    EXAMPLE.find(piece).unwrap()
}

#[test]
fn the_example_is_accepted() {
    let mut list = [7; 10];
    assert_eq!(
        judge(EXAMPLE.as_bytes(), b"", &mut list),
        totals(6, 1, 1250)
    );
    assert_eq!(list[..6], STARTS);
    assert_eq!(list[6..], [0; 4]);
    let mut exact = [7; 6];
    assert_eq!(
        judge(EXAMPLE.as_bytes(), b"", &mut exact),
        totals(6, 1, 1250)
    );
    assert_eq!(exact, STARTS);
}

#[test]
fn the_example_has_its_purpose() {
    let (mut list, mut out) = ([7; 7], [9; 40]);
    let answer = purpose(EXAMPLE.as_bytes(), b"", 5, &mut list, &mut out);
    assert_eq!(answer, Ok(24));
    assert_eq!(&out[..24], b"1000000000000000000007/B");
    assert_eq!(out[24..], [9; 16]);
    assert_eq!(list[..6], STARTS);
    assert_eq!(list[6], 0);
}

#[test]
fn the_three_short_inputs() {
    assert_eq!(judged(""), no(12, 0));
    assert_eq!(judge(b"", b"", &mut []), no(12, 0));
    assert_eq!(judged("\r\n"), no(3, 0));
    assert_eq!(judged("010;\r\n"), no(5, 0));
}

#[test]
fn marked_numbers() {
    assert_eq!(check_number(b"09980000020041F"), Ok(Kind::Tracking));
    assert_eq!(check_number(b"09980000020041f"), no(17, 14));
    assert_eq!(check_number(b"09980000020041"), no(16, 0));
    assert_eq!(check_number(b"00000000000000U"), Ok(Kind::Tracking));
    assert_eq!(check_number(b"09230000000000Z"), Ok(Kind::Tracking));
    assert_eq!(check_number(b"09320000000000Z"), Ok(Kind::Tracking));
    assert_eq!(
        check_number(b"0002800099800000200371550566"),
        Ok(Kind::Label)
    );
    assert_eq!(check_number(b"0002800099800000200371550567"), no(18, 27));
    assert_eq!(check_iban(b"AT611904300234573201"), Ok(()));
    assert_eq!(check_iban(b"AT161904300234573201"), no(18, 2));
}

#[test]
fn marked_amounts_and_dates() {
    let amount = |text: &str| judged(with("12.50", text));
    assert_eq!(amount("0.01"), totals(6, 1, 1));
    assert_eq!(amount("999999.99"), totals(6, 1, 99_999_999));
    assert_eq!(amount("0.00"), no(8, at("12.50")));
    assert_eq!(amount("01.00"), no(8, at("12.50")));
    let date = |text: &str| judged(with("2021-02-23", text));
    assert_eq!(date("2024-02-29"), totals(6, 1, 1250));
    assert_eq!(date("2023-02-29"), no(8, at("2021-02-23")));
}

/// The labels and tracking numbers that 001 prints with an undamaged check.
#[test]
fn published_numbers() {
    let labels = "\
        0081827 09980000020028 101 276 B, 0071106 01632532948375 179 276 A, \
        0019900 09980000020084 109 203 1, 0081827 09980000020029 136 276 3, \
        0012345 09980000020031 105 276 L, 0081827 09980000020032 154 276 J, \
        0081827 09980000020030 109 276 W, 0081827 09980000020033 350 276 C, \
        0081827 09980000020034 179 276 I, 0081827 09980000020035 225 276 H, \
        0081827 09980000020036 155 276 5, 0002800 09980000020037 155 056 6, \
        0078550 09980000020041 302 840 U, 0081827 09980000020042 102 276 R, \
        0081827 09980000020043 113 276 Y, 0071600 09980000020050 294 276 C, \
        0081827 09980000020045 327 276 N, 0081827 09980000020051 106 276 M, \
        0081827 09980000020052 110 276 W, 0081827 09980000020054 352 276 B, \
        0081827 09980000020055 191 276 A, 0081827 09980000020056 237 276 K";
    let tracking = "\
        099800000200289, 09980000020084U, 016325329483752, 099800000200297, \
        09980000020032H, 09980000020030L, 09980000020033F, 09980000020034D, \
        09980000020035B, 099800000200369, 09980000020041F, 09980000020042D, \
        09980000020043B, 099800000200449, 09980000020050D, 099800000200457, \
        099800000200473, 09980978004757U, 09980000020051B, 099800000200529, \
        099800000200537, 099800000200545, 099800000200553, 099800000200561";
    let passing = |printed: &str, kind: Kind| {
        let numbers = printed.split(',').map(|number| number.replace(' ', ""));
        numbers
            .filter(|number| {
                let mut out = vec![0; number.len()];
                let body = &number.as_bytes()[..number.len() - 1];
                assert_eq!(check_number(number.as_bytes()), Ok(kind), "{number}");
                assert_eq!(issue_number(body, &mut out), Ok(number.len()));
                out == number.as_bytes()
            })
            .count()
    };
    assert_eq!(passing(labels, Kind::Label), 22);
    assert_eq!(passing(tracking, Kind::Tracking), 24);
    // Printed with a zero for the letter O, and with a 3 for the letter M.
    for (damaged, check) in [
        ("0071106016325329483751012760", b'O'),
        ("0063743099800000200473372760", b'O'),
        ("0081827099800000200531612760", b'O'),
        ("0063741099809780047573322763", b'M'),
    ] {
        assert_eq!(check_number(damaged.as_bytes()), no(18, 27), "{damaged}");
        let mut out = [0; 28];
        assert_eq!(issue_number(&damaged.as_bytes()[..27], &mut out), Ok(28));
        assert_eq!(out[27], check);
    }
}

#[test]
fn refusals_of_numbers() {
    for length in (0..40).filter(|length| *length != 15 && *length != 28) {
        assert_eq!(check_number(&vec![b'?'; length]), no(16, 0));
    }
    for length in (0..40).filter(|length| *length != 14 && *length != 27) {
        assert_eq!(issue_number(&vec![b'?'; length], &mut []), no(16, 0));
    }
    assert_eq!(check_number(b"0998000002004?F"), no(17, 13));
    assert_eq!(check_number(b"A9980000020041f"), no(17, 0));
    assert_eq!(check_number(b"A00280009980000020037155056?"), no(17, 27));
    assert_eq!(check_number(b"000280A09980000020037155056a"), no(17, 27));
    assert_eq!(check_number(b"0002800A9980000020037155056a"), no(17, 7));
    assert_eq!(check_number(b"09980000020041G"), no(18, 14));
    let mut out = [9; 20];
    assert_eq!(issue_number(b"0998000002004A", &mut out), no(17, 13));
    assert_eq!(issue_number(b"0998000002004A", &mut []), no(17, 13));
    assert_eq!(issue_number(b"09980000020041", &mut out[..14]), no(13, 0));
    assert_eq!(out, [9; 20]);
    assert_eq!(issue_number(b"09980000020041", &mut out), Ok(15));
    assert_eq!(&out[..15], b"09980000020041F");
    assert_eq!(out[15..], [9; 5]);
}

/// "0, 17 or 18 as each number would get alone, with the count of zeros returned. Answer bytes past
/// the last number stay."
#[test]
fn a_days_numbers() {
    let mut answers = [9; 5];
    assert_eq!(check_numbers(b"", &mut []), Ok(0));
    assert_eq!(check_numbers(b"", &mut answers), Ok(0));
    assert_eq!(answers, [9; 5]);
    let day = b"09980000020041F09980000020041G09980000020041f09980978004757U";
    assert_eq!(check_numbers(day, &mut answers), Ok(2));
    assert_eq!(answers, [0, 18, 17, 0, 9]);
    assert_eq!(check_numbers(&day[15..30], &mut answers[..1]), Ok(0));
    assert_eq!(check_numbers(&day[30..], &mut answers[..2]), Ok(1));
    assert_eq!(answers, [17, 0, 17, 0, 9]);
}

/// "16 if the length is not a multiple of 15, then 13 if there are fewer answer bytes than numbers;
/// either leaves the answers untouched." A label code is no tracking number.
#[test]
fn refusals_of_days() {
    let day = [*b"09980000020041F"; 4];
    for length in 0..=60 {
        for room in 0..=5 {
            let mut answers = vec![9; room];
            let due = match (length % 15, length / 15) {
                (0, count) if count <= room => Ok(count),
                (0, _) => no(13, 0),
                _ => no(16, 0),
            };
            let answer = check_numbers(&day.as_flattened()[..length], &mut answers);
            assert_eq!(answer, due);
            let written = answer.unwrap_or(0);
            assert_eq!(answers[..written], vec![0; written]);
            assert_eq!(answers[written..], vec![9; room - written]);
        }
    }
    let label = b"0002800099800000200371550566";
    assert_eq!(check_numbers(label, &mut [9; 5]), no(16, 0));
}

/// "The carry starts at 36"; behind the check, "carry plus its value leave 1 modulo 36", and twice 1
/// is 2.
#[test]
fn carries_of_a_number_that_is_keyed() {
    let numbers = [
        ("09980000020041F", "35 16 13 5 10 20 3 6 12 28 19 1 10 22 2"),
        ("00000000000000U", "35 33 29 21 5 10 20 3 6 12 24 11 22 7 2"),
    ];
    for (number, due) in numbers {
        let mut carry = 36;
        let carries = number.bytes().map(|symbol| {
            carry = next_carry(carry, symbol).unwrap();
            carry.to_string()
        });
        assert_eq!(carries.collect::<Vec<_>>().join(" "), due);
    }
}

/// "Add its value, reduce modulo 36 with 0 read as 36" is the one number of 1 to 36 that leaves the
/// same modulo 36; "double, reduce modulo 37" is its double, or that less 37.
#[test]
fn every_carry_and_every_symbol() {
    let symbols = (b'0'..=b'9').chain(b'A'..=b'Z');
    for (value, symbol) in symbols.enumerate() {
        for carry in 1..=36 {
            let mut read = (1..=36).filter(|sum| (carry + value as u32).abs_diff(*sum) % 36 == 0);
            let sum = read.next().unwrap();
            assert_eq!(read.next(), None);
            let next = next_carry(carry, symbol).unwrap();
            assert!(next <= 36 && (next == 2 * sum || next + 37 == 2 * sum));
        }
    }
}

/// 15 before 17, both at 0.
#[test]
fn refusals_of_carries() {
    for symbol in 0..=255 {
        let is_symbol = matches!(symbol, b'0'..=b'9' | b'A'..=b'Z');
        for carry in 1..=36 {
            let answer = next_carry(carry, symbol);
            assert!(answer.is_ok() == is_symbol && (is_symbol || answer == no(17, 0)));
        }
        for carry in [0, 37, 255, 256, 292, 65_572, u32::MAX] {
            assert_eq!(next_carry(carry, symbol), no(15, 0));
        }
    }
}

/// d stands for a digit, c for a capital, s for either.
#[test]
fn every_symbol_at_every_place() {
    let fits = |class: u8, symbol: u8| {
        (class != b'c' && symbol.is_ascii_digit()) || (class != b'd' && symbol.is_ascii_uppercase())
    };
    let shapes = [
        ("09980000020041F", "dddddddddddddds"),
        (
            "0002800099800000200371550566",
            "sssssssdddddddddddddddddddds",
        ),
        ("AT611904300234573201", "ccddssssssssssssssss"),
    ];
    for (number, shape) in shapes {
        let is_iban = number.starts_with('A');
        let check = |number: &[u8]| match is_iban {
            true => check_iban(number),
            false => check_number(number).map(|_| ()),
        };
        for (place, class) in shape.bytes().enumerate() {
            for symbol in 0..=255 {
                let mut symbols = number.as_bytes().to_vec();
                symbols[place] = symbol;
                let place_of_18 = if is_iban { 2 } else { number.len() - 1 };
                // No other symbol passes, but in an IBAN a letter may for a digit.
                let exchanged = is_iban && symbol.is_ascii_uppercase() && place > 1;
                let answer = check(&symbols);
                match fits(class, symbol) {
                    false => assert_eq!(answer, no(17, place)),
                    true if symbols == number.as_bytes() => assert_eq!(answer, Ok(())),
                    true if exchanged && answer.is_ok() => {}
                    true => assert_eq!(answer, no(18, place_of_18)),
                }
                if !is_iban && place + 1 < number.len() {
                    let issued = issue_number(&symbols[..number.len() - 1], &mut [0; 28]);
                    match fits(class, symbol) {
                        false => assert_eq!(issued, no(17, place)),
                        true => assert_eq!(issued, Ok(number.len())),
                    }
                }
            }
        }
    }
}

#[test]
fn refusals_of_ibans() {
    assert_eq!(check_iban(b"NO9386011117947"), Ok(()));
    assert_eq!(check_iban(b"NO938601111794"), no(16, 0));
    assert_eq!(check_iban(&[b'?'; 35]), no(16, 0));
    assert_eq!(check_iban(&[b'?'; 34]), no(17, 0));
    assert_eq!(check_iban(b"aT611904300234573201"), no(17, 0));
    assert_eq!(check_iban(b"A1611904300234573201"), no(17, 1));
    assert_eq!(check_iban(b"ATA11904300234573201"), no(17, 2));
    assert_eq!(check_iban(b"AT991904300234573x01"), no(17, 17));
    // Remainder 1, but check digits that no IBAN has: 97, 98 and 02 pass in their place.
    for (passing, barred) in [("97", "00"), ("98", "01"), ("02", "99")] {
        let found = (0..1000)
            .map(|body| format!("AT{passing}19043002345{body:05}"))
            .find(|iban| check_iban(iban.as_bytes()).is_ok())
            .unwrap();
        let other = found.replacen(passing, barred, 1);
        assert_eq!(check_iban(other.as_bytes()), no(18, 2));
    }
}

/// 000, section 4.1.6, "Beispiel": the digits, their weights, the products, their sum 204 and the
/// check digit 6. 4.2: the clear text below a barcode.
#[test]
fn the_identcodes_of_the_manual() {
    let digits = "8 5 4 6 3 7 9 0 0 3 2 7 5 9 8 1 8 6 3 4 2".replace(' ', "");
    let products = [
        24, 5, 12, 6, 9, 7, 27, 0, 0, 3, 6, 7, 15, 9, 24, 1, 24, 6, 9, 4, 6,
    ];
    for (place, digit) in digits.bytes().enumerate() {
        let weight = [3, 1][place % 2];
        assert_eq!(usize::from(digit - b'0') * weight, products[place]);
    }
    assert_eq!(products.iter().sum::<usize>(), 204);
    let mut out = [9; 30];
    assert_eq!(issue_identcode(digits.as_bytes(), &mut out), Ok(22));
    assert_eq!(out[..22], *format!("{digits}6").as_bytes());
    assert_eq!(out[22..], [9; 8]);
    assert_eq!(check_identcode(&out[..22]), Ok(()));

    let clear_text = "10 12345 12345678 12 1234 9";
    let code = clear_text.replace(' ', "");
    assert_eq!(check_identcode(code.as_bytes()), Ok(()));
    let parts = read_identcode(code.as_bytes()).unwrap();
    let parts = [
        parts.origin,
        parts.customer,
        parts.sequence,
        parts.product,
        parts.destination,
        parts.check,
    ];
    assert_eq!(parts.clone().map(|part| &code[part]).join(" "), clear_text);
    // "2 - 5 - 8 - 2 - 4 - 1", one behind the other.
    assert_eq!(parts.clone().map(|part| part.len()), [2, 5, 8, 2, 4, 1]);
    assert_eq!(parts[0].start, 0);
    assert!(parts.windows(2).all(|pair| pair[0].end == pair[1].start));
}

/// "Sollte der Rest 0 ergeben, ist die Prüfziffer 0": for every remainder, one of the ten digits
/// passes.
#[test]
fn one_check_digit_of_ten_passes() {
    for first in 0..10 {
        let body = format!("{first}{}", "0".repeat(20));
        let passing: Vec<u32> = (0..10)
            .filter(|check| check_identcode(format!("{body}{check}").as_bytes()).is_ok())
            .collect();
        let remainder = 3 * first % 10;
        assert_eq!(passing, [if remainder == 0 { 0 } else { 10 - remainder }]);
        for check in (0..10).filter(|check| !passing.contains(check)) {
            let code = format!("{body}{check}");
            assert_eq!(check_identcode(code.as_bytes()), no(18, 21));
            assert_eq!(read_identcode(code.as_bytes()), no(18, 21));
        }
    }
}

#[test]
fn refusals_of_identcodes() {
    for length in (0..40).filter(|length| *length != 22) {
        for symbol in [b'0', b'?'] {
            assert_eq!(check_identcode(&vec![symbol; length]), no(16, 0));
            assert_eq!(read_identcode(&vec![symbol; length]), no(16, 0));
        }
    }
    for length in (0..40).filter(|length| *length != 21) {
        for symbol in [b'0', b'?'] {
            assert_eq!(issue_identcode(&vec![symbol; length], &mut []), no(16, 0));
        }
    }
    // Every symbol at every place; the first wrong one is told, before the check.
    let code = b"1000000000000000000007";
    for place in 0..22 {
        for symbol in 0..=255 {
            let mut symbols = *code;
            symbols[place] = symbol;
            let answer = check_identcode(&symbols);
            match symbol {
                b'0'..=b'9' if symbols == *code => assert_eq!(answer, Ok(())),
                b'0'..=b'9' => assert_eq!(answer, no(18, 21)),
                _ => assert_eq!(answer, no(17, place)),
            }
            assert_eq!(read_identcode(&symbols).map(|_| ()), answer);
            if place < 21 {
                let issued = issue_identcode(&symbols[..21], &mut [0; 22]);
                match symbol {
                    b'0'..=b'9' => assert_eq!(issued, Ok(22)),
                    _ => assert_eq!(issued, no(17, place)),
                }
            }
        }
    }
    assert_eq!(check_identcode(b"10000x000000000000000y"), no(17, 5));
    // 16, 17, 13: "with nothing written".
    let mut out = [9; 30];
    let body = b"100000000000000000000";
    assert_eq!(issue_identcode(&body[1..], &mut out[..21]), no(16, 0));
    assert_eq!(
        issue_identcode(b"10000000000000000000O", &mut out[..21]),
        no(17, 20)
    );
    for length in 0..22 {
        assert_eq!(issue_identcode(body, &mut out[..length]), no(13, 0));
    }
    assert_eq!(out, [9; 30]);
    assert_eq!(issue_identcode(body, &mut out[..22]), Ok(22));
    assert_eq!(&out[..22], b"1000000000000000000007");
    assert_eq!(out[22..], [9; 8]);
}

/// "040.1 must pass from now on"; "a failing code in a file is 8".
#[test]
fn identcodes_in_files_lines_and_purposes() {
    let place = at("1000000000000000000007");
    let with_code = |code: &str| with("1000000000000000000007", code);
    for code in [
        "8546379003275981863426",
        "1012345123456781212349",
        "0000000000000000000000",
    ] {
        assert_eq!(judged(with_code(code)), totals(6, 1, 1250));
    }
    for code in [
        "1000000000000000000001", // the check digit
        "8546379003275981863420",
        "100000000000000000000x", // a symbol
        "x000000000000000000007",
        "100000000000000000000", // the length
        "1",
    ] {
        let file = with_code(code);
        assert_eq!(judged(&file), no(8, place), "{code}");
        assert_eq!(read_line(5, file.as_bytes(), 178), no(8, place));
        assert_eq!(find_field(5, file.as_bytes(), 178, 2), no(8, place));
        let (mut list, mut out) = ([7; 6], [9; 35]);
        let answer = purpose(file.as_bytes(), b"", 5, &mut list, &mut out);
        assert_eq!(answer, no(8, place));
        assert_eq!((list, out), ([0; 6], [9; 35]));
        let ends = [code.len(); 3];
        let mut out = [9; 40];
        assert_eq!(
            write_line(5, 40, code.as_bytes(), &ends, &mut out, 0),
            no(8, 1)
        );
        assert_eq!(out, [9; 40]);
    }
    assert_eq!(judged(with_code("10000000000000000000007")), no(6, place));
    assert_eq!(judged(with_code("")), no(7, place));
    // A wrong code that stands there twice is 8 at its first line; a right one is 10 at its second.
    let parcels = |one: &str, two: &str| {
        let lines = format!("040;{one};;\r\n040;{two};;\r\n");
        with("040;1000000000000000000007;;\r\n", &lines)
    };
    let (right, wrong) = ("1000000000000000000007", "1000000000000000000008");
    assert_eq!(judged(parcels(wrong, wrong)), no(8, place));
    assert_eq!(judged(parcels(right, right)), no(10, place + 30));
    assert_eq!(judged(parcels(right, wrong)), no(8, place + 30));
    // 8 before 6 of the next field, before 11 on its line, and before 12.
    let wide = format!("{wrong};{};", "x".repeat(65));
    assert_eq!(
        judged(with("1000000000000000000007;;", &wide)),
        no(8, place)
    );
    let file = with_code(wrong);
    assert_eq!(judge(file.as_bytes(), b"", &mut [7; 3]), no(8, place));
    assert_eq!(judge(file.as_bytes(), b"", &mut [7; 2]), no(11, 116));
    assert_eq!(judged(&file[..208]), no(8, place));
}

#[test]
fn refusals_of_files() {
    // 1
    let long = EXAMPLE.to_string() + &"x".repeat(65_536 - EXAMPLE.len());
    assert_eq!(judged(&long), no(1, 65_535));
    assert_eq!(judged(&long[..65_535]), no(2, 65_535));
    // 2
    assert_eq!(judged("\n"), no(2, 0));
    assert_eq!(judged("\r"), no(2, 0));
    assert_eq!(judged("x"), no(2, 1));
    assert_eq!(judged("x\ry"), no(2, 1));
    assert_eq!(judged("010\r"), no(2, 3));
    assert_eq!(judged(b"010;\x7F\r\n"), no(2, 4));
    assert_eq!(judged(b"010;\x9F\r\n"), no(2, 4));
    assert_eq!(judged(with("Muster;2021", "Mus\tter;2021")), no(2, 18));
    assert_eq!(judged(&EXAMPLE[..EXAMPLE.len() - 1]), no(2, 274));
    assert_eq!(judged(&EXAMPLE[..EXAMPLE.len() - 2]), no(2, 274));
    assert_eq!(judged(EXAMPLE.to_string() + "0"), no(2, 277));
    // 3
    for name in [
        "041;", "042;", "070;", "10;", "0100;", " 010;", ";", "", "266;",
    ] {
        assert_eq!(judged(format!("{name}\r\n")), no(3, 0), "{name}");
    }
    // 4
    assert_eq!(judged(with("010;00", "020;00")), no(4, 0));
    assert_eq!(judged(with("020;A", "010;A")), no(4, 74));
    assert_eq!(judged(with("030;;", "020;;")), no(4, 116));
    assert_eq!(judged(with("040;10", "060;10")), no(4, 178));
    assert_eq!(judged(with("050;10", "060;10")), no(4, 208));
    assert_eq!(judged(with("060;", "040;")), no(4, 216));
    // 5
    assert_eq!(judged(with("050;10", "050")), no(5, 208));
    assert_eq!(
        judged(with("050;10", &format!("050;10{}", ";".repeat(24)))),
        no(5, 208)
    );
    assert_eq!(
        judged(with("050;10", &format!("050;10{}", ";".repeat(23)))),
        totals(6, 1, 1250)
    );
    assert_eq!(judged(with("07;;\r", "07;\r")), no(5, 178));
    assert_eq!(judged(with("WW;;;", "WW;;")), no(5, 216));
    assert_eq!(judged(with("WW;;;", "WW;;;;")), no(5, 216));
    // 6
    assert_eq!(
        judged(with("Muster;2021", &format!("{};2021", "M".repeat(41)))),
        no(6, 15)
    );
    // 7
    assert_eq!(judged(with("Muster;2021", ";2021")), no(7, 15));
    assert_eq!(judged(with("Muster;2021", " ;2021")), totals(6, 1, 1250));
    // 8
    assert_eq!(judged(with("1005;5", "1005;4")), no(8, at("5;;;;\r")));
    assert_eq!(judged(with("AT;1010", "AT;101a")), no(8, at("1010;Wien")));
    assert_eq!(judged(with("AT;1010", "DE;101a")), totals(6, 1, 1250));
    assert_eq!(judged(with("AT;1020", "AT;102a")), no(8, at("1020;Wien")));
    // 9
    assert_eq!(judged(with("12.50", "")), no(9, 216));
    assert_eq!(judged(with("ABCDATWW", "")), no(9, 216));
    assert_eq!(judged(with("060;006;;12.50", "060;054;;12.50")), no(9, 216));
    // 10
    let parcel = "040;1000000000000000000007;;\r\n";
    assert_eq!(judged(with(parcel, &parcel.repeat(2))), no(10, 212));
    let far = EXAMPLE.to_string() + &EXAMPLE[116..].replace("0007;;", "0014;;") + &EXAMPLE[116..];
    assert_eq!(judged(&far), no(10, 276 + 160 + 66));
    // 11
    for (words, start) in STARTS.into_iter().enumerate() {
        let mut list = vec![7; words];
        let answer = judge(EXAMPLE.as_bytes(), b"", &mut list);
        assert_eq!(answer, no(11, start as usize));
        assert!(list.iter().all(|word| *word == 0));
    }
    // 12
    for end in [74, 116, 178, 208] {
        assert_eq!(judged(&EXAMPLE[..end]), no(12, end));
    }
    assert_eq!(judged(&EXAMPLE[..216]), totals(5, 1, 0));
}

#[test]
fn the_order_of_refusals() {
    // 2 before 3, 3 before 4, 4 before 5, 5 before 7.
    assert_eq!(judged("999"), no(2, 3));
    assert_eq!(judged(EXAMPLE.to_string() + "999;\r\n"), no(3, 276));
    assert_eq!(judged("050;;;\r\n"), no(4, 0));
    assert_eq!(judged("010;;\r\n"), no(5, 0));
    // The field on the left first, whatever its number; 6 before 8.
    assert_eq!(judged("010;;;;;;;;;;\r\n"), no(7, 4));
    assert_eq!(judged("010;1;;;;;;;;;\r\n"), no(8, 4));
    assert_eq!(judged("010;11111111111;;;;;;;;;\r\n"), no(6, 4));
    // 8 before 9, 9 before 11, 10 before 11.
    assert_eq!(
        judged(with("12.50;EUR", ";eur")),
        no(8, at("12.50;EUR") + 1)
    );
    assert_eq!(
        judge(with("12.50", "").as_bytes(), b"", &mut [7; 5]),
        no(9, 216)
    );
    let parcel = "040;1000000000000000000007;;\r\n";
    let twice = with(parcel, &parcel.repeat(2));
    assert_eq!(judge(twice.as_bytes(), b"", &mut [7; 4]), no(10, 212));
    // 11 before 12.
    assert_eq!(judge(&EXAMPLE.as_bytes()[..74], b"", &mut []), no(11, 0));
}

/// The example without the sender's phone, without the mail, and without both.
fn without_contacts() -> [String; 3] {
    [";1;;a@b;", ";1;1;;", ";1;;;"].map(|contacts| with(";1;1;a@b;", contacts))
}

#[test]
fn contacts_are_needed_for_the_lent_countries() {
    for file in without_contacts() {
        let shipment = file.find("030;").unwrap();
        // "With an empty list [..] nobody needs them." "A line read or written alone no longer asks
        // for the two."
        assert_eq!(judged(&file), totals(6, 1, 1250));
        assert!(read_line(5, file.as_bytes(), 74).is_ok());
        // The pairs stand at even places; what are no capitals names nothing.
        for countries in ["DE", "TA", "XATX", "DEXATX", "at", "At", "\0\0", "  "] {
            let answer = judged_under(countries.as_bytes(), &file);
            assert_eq!(answer, totals(6, 1, 1250), "{countries}");
        }
        for countries in ["AT", "DEAT", "ATDE", "XAAT", "ATAT"] {
            let answer = judged_under(countries.as_bytes(), &file);
            assert_eq!(answer, no(19, shipment), "{countries}");
        }
    }
    // "a consignee country": neither the sender's (020.5) nor that of 030.7.
    let [_, _, file] = without_contacts();
    let file = file.replace("030;;;;;;;;", "030;;;;;;;CH;");
    let file = file.replace(";AT;1010;", ";LI;1010;");
    assert_eq!(judged_under(b"CHLI", file), totals(6, 1, 1250));
    // A sender who has both, and "a field of spaces is filled".
    assert_eq!(judged_under(b"AT", EXAMPLE), totals(6, 1, 1250));
    let spaces = with(";1;1;a@b;", ";1; ;  ;");
    assert_eq!(judged_under(b"AT", spaces), totals(6, 1, 1250));
    // The widths stay.
    let (phone, mail) = ("1".repeat(41), "m".repeat(65));
    let wide = with(";1;1;a@b;", &format!(";1;{phone};;"));
    assert_eq!(judged(wide), no(6, at(";1;1;a@b;") + 3));
    let wide = with(";1;1;a@b;", &format!(";1;;{mail};"));
    assert_eq!(judged(wide), no(6, at(";1;1;a@b;") + 4));
}

/// Another shipment to this country, with its parcel and product.
fn another_shipment(country: &str, identcode: &str) -> String {
    EXAMPLE[116..216]
        .replace(";;;;AT;1020", &format!(";;;;{country};1020"))
        .replace("1000000000000000000007", identcode)
}

#[test]
fn each_sender_answers_for_its_own_shipments() {
    let [_, _, file] = without_contacts();
    let sender = |contacts: &str| format!("020;C;;;;AT;1010;Wien;;Gasse;;1;{contacts};;;\r\n");
    let german = another_shipment("DE", "1000000000000000000014");
    // "place the start of the first 030 line that needs it": not the sender's first.
    let later = file.clone() + &german;
    assert_eq!(judged_under(b"DE", &later), no(19, file.len()));
    assert_eq!(
        judged_under(b"DEAT", &later),
        no(19, file.find("030;").unwrap())
    );
    // A second sender: the first one's contacts are not its own, nor the other way round.
    let second = EXAMPLE.to_string() + &sender(";") + &german;
    let shipment = second.rfind("030;").unwrap();
    assert_eq!(judged_under(b"DE", &second), no(19, shipment));
    assert_eq!(judged_under(b"ATDE", &second), no(19, shipment));
    assert_eq!(judged_under(b"AT", &second), totals(10, 2, 1250));
    let second = file.clone() + &sender("2;c@d") + &german;
    assert_eq!(judged_under(b"DE", &second), totals(10, 2, 1250));
    assert_eq!(
        judged_under(b"AT", &second),
        no(19, file.find("030;").unwrap())
    );
}

#[test]
fn the_order_of_refusals_under_lent_countries() {
    let [_, _, file] = without_contacts();
    let shipment = file.find("030;").unwrap();
    // 1 before 20, and 20 before all others.
    assert_eq!(judged_under(b"A", " ".repeat(65_536)), no(1, 65_535));
    for file in ["", "x", "010;\r\n", EXAMPLE, &file] {
        assert_eq!(judged_under(b"A", file), no(20, 0));
        assert_eq!(judged_under(b"ATDEA", file), no(20, 0));
    }
    let mut list = [7; 3];
    assert_eq!(judge(EXAMPLE.as_bytes(), b"A", &mut list), no(20, 0));
    assert_eq!(list, [0; 3]);
    // An earlier line, and the line's own fields and count, before 19.
    let wrong = file.replace("1005;5", "1005;4");
    assert_eq!(judged_under(b"AT", wrong), no(8, at("5;;;;\r")));
    let wrong = file.replace("AT;1020", "AT;102a");
    assert_eq!(
        judged_under(b"AT", wrong),
        no(8, file.find("1020").unwrap())
    );
    let wrong = file.replace("030;;", "030;");
    assert_eq!(judged_under(b"AT", wrong), no(5, shipment));
    // 19 before 11 on its line, and not before an earlier line's.
    for (words, due) in [
        (1, no(11, 74)),
        (2, no(19, shipment)),
        (3, no(19, shipment)),
    ] {
        let mut list = vec![7; words];
        assert_eq!(judge(file.as_bytes(), b"AT", &mut list), due);
        assert!(list.iter().all(|word| *word == 0));
    }
    // 19 before a later line's 2, 3 and 10, and before 12.
    let parcel = &EXAMPLE[178..208];
    for behind in ["x", "\r\n", &parcel.repeat(2), ""] {
        let file = file[..shipment + 62].to_string() + behind;
        assert_eq!(judged_under(b"AT", file), no(19, shipment));
    }
}

#[test]
fn cash_counts_euros_under_both_codes() {
    let cash = &EXAMPLE[216..];
    let more = [
        cash.replace("006", "022"),           // counts
        cash.replace("EUR", "USD"),           // another currency
        cash.replace("006", "011"),           // another feature
        cash.replace("12.50", "999999.99"),   // counts
        cash.replace("060;006", "060;004"),   // needs nothing, counts nothing
        "060;063;;5.00;EUR;;;;;;\r\n".into(), // another feature
    ];
    let file = EXAMPLE.to_string() + &more.concat();
    assert_eq!(judged(file), totals(12, 1, 1250 + 1250 + 99_999_999));
}

#[test]
fn one_line_and_one_field() {
    let file = EXAMPLE.as_bytes();
    let line = |record, fields, next| {
        Ok(Line {
            record,
            fields,
            next,
        })
    };
    assert_eq!(read_line(5, file, 0), line(10, 10, 74));
    assert_eq!(read_line(5, file, 74), line(20, 16, 116));
    assert_eq!(read_line(5, file, 116), line(30, 40, 178));
    assert_eq!(read_line(5, file, 178), line(40, 3, 208));
    assert_eq!(read_line(5, file, 208), line(50, 1, 216));
    assert_eq!(read_line(5, file, 216), line(60, 10, 276));
    // Past the file, and inside a line.
    assert_eq!(read_line(5, file, 276), no(2, 276));
    assert_eq!(read_line(5, file, 277), no(2, 276));
    assert_eq!(read_line(5, file, usize::MAX), no(2, 276));
    assert_eq!(read_line(5, b"", 0), no(2, 0));
    assert_eq!(read_line(5, file, 1), no(3, 1));
    assert_eq!(read_line(5, b"x050;1\r\n", 1), line(50, 1, 8));
    // Judged alone: no order, no identcodes, no list.
    assert_eq!(read_line(5, b"050;1\r\n", 0), line(50, 1, 7));
    assert_eq!(read_line(5, &[b'x'; 65_536], 7), no(1, 65_535));
    assert_eq!(read_line(5, &[b'x'; 65_536], usize::MAX), no(1, 65_535));
    assert_eq!(read_line(5, b"\x00050;;\r\n", 1), no(7, 5));
    assert_eq!(read_line(5, b"\x00060;006;;;;;;;;;\r\n", 1), no(9, 1));

    assert_eq!(find_field(5, file, 216, 1), Ok((220, 3)));
    assert_eq!(find_field(5, file, 216, 2), Ok((224, 0)));
    assert_eq!(find_field(5, file, 216, 3), Ok((225, 5)));
    assert_eq!(find_field(5, file, 216, 10), Ok((274, 0)));
    assert_eq!(find_field(5, file, 216, 11), no(15, 0));
    assert_eq!(find_field(5, file, 216, 0), no(15, 0));
    assert_eq!(find_field(5, file, 216, usize::MAX), no(15, 0));
    assert_eq!(find_field(5, file, 276, 0), no(2, 276));
    assert_eq!(find_field(5, file, 1, 0), no(3, 1));
}

#[test]
fn every_source_of_the_purpose() {
    let of = |file: &str, line: usize| {
        let (mut list, mut out) = ([7; 20], [0; 35]);
        let length = purpose(file.as_bytes(), b"", line, &mut list, &mut out)?;
        Ok(String::from_utf8(out[..length].to_vec()).unwrap())
    };
    let text = |text: &str| Ok::<_, Refusal>(text.to_string());
    // Each source is set while those before it stay empty.
    let name = "N".repeat(40);
    let mut file = with(";;;;B;;;;AT", &format!(";;;;{name};;;;AT"));
    let joined = format!("1000000000000000000007/{name}");
    assert_eq!(of(&file, 5), text(&joined[..35]));
    file = file.replace("0007;;\r\n", &format!("0007;;{}\r\n", "p".repeat(64)));
    assert_eq!(of(&file, 5), text(&"p".repeat(35)));
    file = file.replace(";;2;;;;;;;;;;;;;;\r", ";;2;;;;;;;;;;alt;;;;\r");
    assert_eq!(of(&file, 5), text("alt"));
    file = file.replace(";;2;;;;;;;;;;alt", ";;2;;;;;;;;ref;;alt");
    assert_eq!(of(&file, 5), text("ref"));
    file = file.replace("030;;", &format!("030;{};", "1".repeat(40)));
    assert_eq!(of(&file, 5), text(&"1".repeat(35)));
    file = file.replace("ABCDATWW;;", "ABCDATWW; ;");
    assert_eq!(of(&file, 5), text(" "));
    // The shipment's first parcel, not its last; the nearest shipment, not the first.
    let second = "040;1000000000000000000014;;second\r\n";
    let two = with("050;10", &format!("{second}050;10"));
    assert_eq!(of(&two, 6), text("1000000000000000000007/B"));
    let next = EXAMPLE[116..]
        .replace("0007;;", "0021;;")
        .replace(";B;", ";C;");
    let both = EXAMPLE.to_string() + &next;
    assert_eq!(of(&both, 9), text("1000000000000000000021/C"));
    assert_eq!(of(&both, 5), text("1000000000000000000007/B"));
}

#[test]
fn refusals_of_the_purpose() {
    let file = EXAMPLE.as_bytes();
    let ask_under = |countries: &[u8], file: &[u8], line: usize, words: usize, bytes: usize| {
        let (mut list, mut out) = (vec![7; words], vec![9; bytes]);
        let answer = purpose(file, countries, line, &mut list, &mut out);
        assert!(answer.is_ok() || list.iter().all(|word| *word == 0));
        assert!(answer.is_ok() || out.iter().all(|byte| *byte == 9));
        answer
    };
    let ask = |file: &[u8], line: usize, words: usize, bytes: usize| {
        ask_under(b"", file, line, words, bytes)
    };
    assert_eq!(ask(file, 5, 6, 35), Ok(24));
    assert_eq!(ask(file, 5, 6, 34), no(13, 0));
    assert_eq!(ask(file, 5, 5, 34), no(11, 216));
    for line in [0, 1, 2, 3, 4, 6, 7, usize::MAX] {
        assert_eq!(ask(file, line, 6, 0), no(15, 0));
    }
    let other = EXAMPLE.replace("060;006", "060;022");
    assert_eq!(ask(other.as_bytes(), 5, 6, 35), no(15, 0));
    assert_eq!(ask(b"", 0, 0, 0), no(12, 0));
    assert_eq!(ask(&[b'x'; 65_536], 0, 6, 35), no(1, 65_535));
    // "the file's refusals" are those under the lent countries.
    let silent = with(";1;1;a@b;", ";1;;a@b;");
    assert_eq!(ask_under(b"AT", silent.as_bytes(), 5, 6, 35), no(19, 115));
    assert_eq!(ask_under(b"AT", silent.as_bytes(), 9, 6, 0), no(19, 115));
    assert_eq!(ask_under(b"DE", silent.as_bytes(), 5, 6, 35), Ok(24));
    assert_eq!(ask_under(b"AT", file, 5, 6, 35), Ok(24));
    assert_eq!(ask_under(b"DEA", b"", 9, 0, 0), no(20, 0));
    assert_eq!(ask_under(b"A", &[b'x'; 65_536], 0, 6, 35), no(1, 65_535));
}

#[test]
fn refusals_of_the_writer() {
    let write = |record: u32, text: &str, ends: &[usize], bytes: usize, fill: usize| {
        let mut out = vec![9; bytes];
        let answer = write_line(5, record, text.as_bytes(), ends, &mut out, fill);
        let changed = out.iter().filter(|byte| **byte != 9).count();
        assert_eq!(changed, answer.unwrap_or(0));
        answer
    };
    assert_eq!(write(50, "10", &[2], 8, 0), Ok(8));
    assert_eq!(write(50, "10", &[2], 20, 12), Ok(8));
    // 3
    for record in [0, 1, 5, 11, 41, 70, 266, u32::MAX] {
        assert_eq!(write(record, "10", &[], 8, 0), no(3, 0));
    }
    // 14
    assert_eq!(write(50, "10", &[], 8, 0), no(14, 0));
    assert_eq!(write(50, "10", &[1], 8, 0), no(14, 0));
    assert_eq!(write(50, "10", &[3], 8, 0), no(14, 0));
    assert_eq!(write(50, "10", &[2, 1, 2], 8, 0), no(14, 0));
    assert_eq!(write(50, "10", &[usize::MAX, 2], 8, 0), no(14, 0));
    assert_eq!(write(50, "10", &[2, 2, 2], 10, 0), Ok(10));
    // 5
    assert_eq!(write(50, "", &[], 8, 0), no(5, 0));
    assert_eq!(write(50, "10", &[2; 25], 100, 0), no(5, 0));
    assert_eq!(write(40, "10", &[2; 2], 0, 0), no(5, 0));
    // 6, 7, 8
    assert_eq!(write(50, &"1".repeat(21), &[21], 0, 0), no(6, 1));
    assert_eq!(write(50, &";".repeat(21), &[21], 0, 0), no(6, 1));
    assert_eq!(write(50, "", &[0], 0, 0), no(7, 1));
    assert_eq!(write(50, "1;", &[2], 0, 0), no(8, 1));
    assert_eq!(write(50, "1x\r", &[1, 3], 0, 0), no(8, 2));
    assert_eq!(write(50, "1x\u{7F}", &[1, 2, 3], 0, 0), no(8, 3));
    let identcode = "1000000000000000000007";
    assert_eq!(write(40, identcode, &[22; 3], 0, 0), no(13, 0));
    assert_eq!(write(40, &identcode[1..], &[21; 3], 0, 0), no(8, 1));
    // A sender without phone and mail is written.
    let ends = [1, 1, 1, 1, 3, 7, 11, 11, 16, 16, 17, 17, 17, 17, 17, 17];
    assert_eq!(write(20, "AAT1010WienGasse1", &ends, 38, 0), Ok(38));
    // 9, then 13
    assert_eq!(write(60, "006", &[3; 10], 0, 0), no(9, 0));
    assert_eq!(write(60, "004", &[3; 10], 17, 0), no(13, 0));
    assert_eq!(write(60, "004", &[3; 10], 18, 0), Ok(18));
    assert_eq!(write(60, "004", &[3; 10], 18, 1), no(13, 0));
    assert_eq!(write(60, "004", &[3; 10], 18, 19), no(13, 0));
    assert_eq!(write(60, "004", &[3; 10], 18, usize::MAX), no(13, 0));
}

#[test]
fn a_written_line_stands_at_the_fill() {
    let mut out = *b"................";
    assert_eq!(write_line(5, 50, b"10x", &[2, 2, 3], &mut out, 3), Ok(11));
    assert_eq!(&out, b"...050;10;;x\r\n..");
}

/// The example's first line with this date-time.
fn date_time_holds(text: &str) -> bool {
    let line = EXAMPLE[..74].replace("2021-02-23T13:37:50", text);
    read_line(5, line.as_bytes(), 0).is_ok()
}

#[test]
fn a_century_has_its_days() {
    let mut days = 0;
    for year in 1999..=2100 {
        for month in 0..=13 {
            for day in 0..=32 {
                let text = format!("{year}-{month:02}-{day:02}T00:00:00");
                days += u32::from(date_time_holds(&text));
            }
        }
    }
    // 2000 to 2099 has 25 leap years.
    assert_eq!(days, 100 * 365 + 25);
    let times = |shape: &dyn Fn(u32) -> String| {
        let texts = (0..100).map(|number| format!("2021-02-23T{}", shape(number)));
        texts.filter(|text| date_time_holds(text)).count()
    };
    assert_eq!(times(&|hour| format!("{hour:02}:59:59")), 24);
    assert_eq!(times(&|minute| format!("23:{minute:02}:59")), 60);
    assert_eq!(times(&|second| format!("23:59:{second:02}")), 60);
}

/// An amount holds exactly when it is how some number of cents from 1 to 99,999,999 is written.
#[test]
fn amounts_are_written_cents() {
    let written = |text: &str| {
        let cents = text.replacen('.', "", 1).parse::<u32>().unwrap_or(0);
        let range = 1..=99_999_999;
        range.contains(&cents) && text == format!("{}.{:02}", cents / 100, cents % 100)
    };
    let mut texts = vec![String::new()];
    let mut held = 0;
    for _ in 0..6 {
        let longer = texts
            .iter()
            .flat_map(|text| ["0", "1", "9", ".", "a"].map(|symbol| text.clone() + symbol));
        texts = longer.collect();
        for text in &texts {
            let answer = judged(with("12.50", text));
            assert_eq!(answer.is_ok(), written(text), "{text}");
            held += u32::from(answer.is_ok());
        }
    }
    // 3, 6 and 18 whole parts of up to three symbols with 9 fractions each, without 0.00.
    assert_eq!(held, (3 + 6 + 18) * 9 - 1);
}

/// The example with this in 010.6, and other pieces put for some of its own.
fn marked(mark: &str, pieces: &[(&str, &str)]) -> String {
    let mut file = EXAMPLE.replace("1005;5;", &format!("1005;{mark};"));
    for (old, new) in pieces {
        assert_eq!(file.matches(old).count(), 1, "{old}");
        file = file.replace(old, new);
    }
    file
}

/// No customer's name, which version 5 refuses and version 7 does not.
const UNNAMED: (&str, &str) = (";Muster;2021", ";;2021");

/// "The version on the header decides for the whole file": one byte `7` in field 6 of a first line of
/// type 010; "a file header with neither is judged as 5".
#[test]
fn the_header_decides_the_version() {
    assert_eq!(judged(marked("7", &[])), totals(6, 1, 1250));
    assert_eq!(judged(marked("7", &[UNNAMED])), totals(6, 1, 1250));
    assert_eq!(judged(marked("5", &[UNNAMED])), no(7, 15));
    for mark in [
        "6",
        "8",
        "07",
        "77",
        "75",
        "57",
        " 7",
        "7 ",
        "7.",
        " ",
        "7777777777",
    ] {
        let file = marked(mark, &[]);
        assert_eq!(judged(&file), no(8, 67), "{mark}");
        assert_eq!(judged(marked(mark, &[UNNAMED])), no(7, 15), "{mark}");
        assert_eq!(Version::of_file(file.as_bytes()), Version::V5);
    }
    assert_eq!(judged(marked("", &[])), no(7, 67));
    assert_eq!(judged(marked("77777777777", &[])), no(6, 67));
    // In other fields, or in field 6 of other lines.
    assert_eq!(
        judged(marked("5", &[UNNAMED, (";5;;;;", ";5;7;;;")])),
        no(7, 15)
    );
    assert_eq!(
        judged(marked("7", &[UNNAMED, (";7;;;;", ";7;5;;;")])),
        totals(6, 1, 1250)
    );
    let seven_below = marked("5", &[("AT;1010", "DE;7"), ("050;10", "050;product")]);
    assert_eq!(judged(seven_below), totals(6, 1, 1250));
    let of = |file: &[u8]| Version::of_file(file);
    for (file, due) in [
        ("", Version::V5),
        ("010", Version::V5),
        ("010;;;;;;7", Version::V7),
        ("010;;;;;;7;;", Version::V7),
        ("010;;;;;7", Version::V5),
        ("010;;;;;;;7", Version::V5),
        ("010;;;;;;77", Version::V5),
        ("010;;;;;;\r\n7", Version::V5),
        ("010;;;;;;7\n", Version::V7),
        ("010;;;\0;;;7", Version::V5),
        ("020;;;;;;7", Version::V5),
        ("0100;;;;;;7", Version::V5),
        (" 010;;;;;;7", Version::V5),
        ("\r\n010;;;;;;7", Version::V5),
    ] {
        assert_eq!(of(file.as_bytes()), due, "{file}");
    }
}

/// "Line calls are told the version, and 010.6 must be it, else 8"; "22, a line call told neither 5 nor
/// 7, place 0, before all others."
#[test]
fn line_calls_are_told_the_version() {
    let (five, seven) = (EXAMPLE.to_string(), marked("7", &[]));
    assert_eq!(
        read_line(5, five.as_bytes(), 0).map(|line| line.next),
        Ok(74)
    );
    assert_eq!(
        read_line(7, seven.as_bytes(), 0).map(|line| line.next),
        Ok(74)
    );
    assert_eq!(read_line(7, five.as_bytes(), 0), no(8, 67));
    assert_eq!(read_line(5, seven.as_bytes(), 0), no(8, 67));
    assert_eq!(find_field(7, seven.as_bytes(), 0, 6), Ok((67, 1)));
    assert_eq!(find_field(5, seven.as_bytes(), 0, 6), no(8, 67));
    let text = b"0012345678Muster2021-02-23T13:37:502021-02-24T14:20:5510057";
    let ends = [10, 16, 35, 54, 58, 59, 59, 59, 59, 59];
    let mut out = [9; 80];
    assert_eq!(write_line(5, 10, text, &ends, &mut out, 0), no(8, 6));
    assert_eq!(out, [9; 80]);
    assert_eq!(write_line(7, 10, text, &ends, &mut out, 0), Ok(74));
    assert_eq!(out[..74], seven.as_bytes()[..74]);
    for version in [0, 1, 4, 6, 8, 55, 57, 77, 261, 263, 65_541, u32::MAX] {
        assert_eq!(read_line(version, five.as_bytes(), 0), no(22, 0));
        assert_eq!(read_line(version, &[b' '; 65_536], 0), no(22, 0));
        assert_eq!(read_line(version, b"", usize::MAX), no(22, 0));
        assert_eq!(find_field(version, five.as_bytes(), 0, 1), no(22, 0));
        assert_eq!(find_field(version, b"", 0, 0), no(22, 0));
        let mut out = [9; 20];
        assert_eq!(write_line(version, 50, b"10", &[2], &mut out, 0), no(22, 0));
        assert_eq!(write_line(version, 51, b"10", &[2], &mut out, 0), no(22, 0));
        assert_eq!(write_line(version, 50, b"10", &[1], &mut out, 0), no(22, 0));
        assert_eq!(write_line(version, 50, b"10", &[2], &mut [], 9), no(22, 0));
        assert_eq!(out, [9; 20]);
    }
}

/// Each field whose width is another one in 7, at both widths and one byte over, alone in a line of
/// each version. 002 "only widens" three of them: the form stays, and in between is 8.
#[test]
fn the_fields_that_differ() {
    let mail = |length: usize| "m".repeat(length - 2) + "@m";
    let text = |length: usize| "x".repeat(length);
    let parcel = |number: usize, field: &str| {
        let mut fields = [
            "1000000000000000000007",
            "",
            "",
            "C",
            "",
            "",
            "",
            "",
            "",
            "",
            "",
            "",
        ];
        fields[number - 1] = field;
        format!("040;{}\r\n", fields.join(";"))
    };
    let feature = |code: &str, number: usize, field: &str| {
        let iban = "AT611904300234573201";
        let mut fields = [
            code, "", "1.00", "EUR", "x", iban, "ABCDATWW", "", "a@b", "",
        ];
        fields[number - 1] = field;
        format!("060;{}\r\n", fields.join(";"))
    };
    let verdict = |version: u32, line: &str| match read_line(version, line.as_bytes(), 0) {
        Ok(_) => 0,
        Err(refusal) => refusal.number,
    };
    let free = |line: &dyn Fn(usize) -> String, widths: [usize; 2]| {
        for (version, width) in [5, 7].into_iter().zip(widths) {
            for length in widths.into_iter().flat_map(|width| [width, width + 1]) {
                let due = if length > width { 6 } else { 0 };
                let line = line(length);
                assert_eq!(verdict(version, &line), due, "{version} {line}");
            }
        }
    };
    let widths = [11, 40, 1, 40, 40, 9, 3, 100, 2, 1, 100];
    for (number, width) in (2..).zip(widths) {
        free(&|length| parcel(number, &text(length)), [64, width]);
    }
    free(&|length| format!("050;{}\r\n", text(length)), [20, 2]);
    free(&|length| feature("004", 2, &text(length)), [64, 40]);
    free(&|length| feature("006", 2, &text(length)), [35, 40]);
    free(&|length| feature("022", 2, &text(length)), [35, 40]);
    free(&|length| feature("006", 5, &text(length)), [64, 35]);
    free(&|length| feature("006", 9, &mail(length)), [64, 40]);
    let header = |mark: u32, name: &str, code: &str| {
        format!(
            "010;0012345678;{name};2021-02-23T13:37:50;2021-02-24T14:20:55;{code};{mark};;;;\r\n"
        )
    };
    for (length, due) in [
        (0, [7, 0]),
        (40, [0, 0]),
        (41, [6, 0]),
        (80, [6, 0]),
        (81, [6, 6]),
    ] {
        let lines = [5, 7].map(|mark| (mark, header(mark, &text(length), "1005")));
        assert_eq!(lines.map(|(mark, line)| verdict(mark, &line)), due);
    }
    for (code, due) in [
        ("", [7, 0]),
        ("1005", [0, 0]),
        ("10050", [6, 8]),
        ("1005100510", [6, 8]),
        ("10051005100", [6, 6]),
        ("100", [8, 8]),
    ] {
        let lines = [5, 7].map(|mark| (mark, header(mark, "x", code)));
        assert_eq!(lines.map(|(mark, line)| verdict(mark, &line)), due);
    }
    let both = |line: String| [5, 7].map(|version| verdict(version, &line));
    for (length, due) in [(21, [8, 8]), (23, [6, 8]), (24, [6, 8]), (25, [6, 6])] {
        assert_eq!(both(parcel(1, &"0".repeat(length))), due);
    }
    assert_eq!(both(parcel(1, &"0".repeat(22))), [0, 0]);
    for (length, due) in [(34, [8, 8]), (35, [6, 8]), (40, [6, 8]), (41, [6, 6])] {
        assert_eq!(both(feature("006", 6, &"A".repeat(length))), due);
    }
    // The set of characters stays, and so do the needs of a feature.
    assert_eq!(both(feature("006", 2, "a&b")), [8, 8]);
    assert_eq!(both(feature("004", 2, "a&b")), [0, 0]);
    assert_eq!(both(feature("022", 5, "")), [9, 9]);
    assert_eq!(both(parcel(4, "")), [0, 7]);
    // A count is neither a width nor a duty.
    assert_eq!(both("040;1000000000000000000007;;\r\n".to_string()), [0, 0]);
    assert_eq!(
        both("040;1000000000000000000007;;;\r\n".to_string()),
        [0, 7]
    );
    assert_eq!(both("040;1000000000000000000007;\r\n".to_string()), [5, 5]);
}

/// Phone and mail "follow the lent country list in both"; the purpose of a file of version 7 is cut at
/// 35 as well.
#[test]
fn contacts_and_purposes_in_version_7() {
    let silent = marked("7", &[(";1;1;a@b;", ";1;;;")]);
    assert_eq!(judged(&silent), totals(6, 1, 1250));
    assert_eq!(judged_under(b"AT", &silent), no(19, 112));
    assert_eq!(judged_under(b"ATD", &silent), no(20, 0));
    let reference = "0123456789".repeat(4);
    let parcel = format!("07;;{reference};C\r");
    let file = marked("7", &[("07;;\r", &parcel)]);
    let (mut list, mut out) = ([7; 6], [9; 40]);
    let answer = purpose(file.as_bytes(), b"", 5, &mut list, &mut out);
    assert_eq!(answer, Ok(35));
    assert_eq!(out[..35], reference.as_bytes()[..35]);
    assert_eq!(out[35..], [9; 5]);
    let over = marked("7", &[("07;;\r", &format!("07;;{reference}x;C\r"))]);
    let answer = purpose(over.as_bytes(), b"", 5, &mut list, &mut out);
    assert_eq!(answer, no(6, 206));
}
