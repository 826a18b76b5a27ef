//! The calls on the example, one refusal for each number, and the limits.

use peliranopi::Version::{Five, Seven};
use peliranopi::*;

const EXAMPLE: &[u8] = include_bytes!("../../examples/preadvice.csv");
/// The same of version 7: no customer's name and no post code on the header, and a parcel type.
const EXAMPLE_7: &[u8] = include_bytes!("../../examples/preadvice-7.csv");

/// Where the example's lines start, and its length.
const STARTS: [usize; 7] = [0, 74, 116, 178, 208, 216, 276];

fn judged(file: &[u8]) -> Result<Totals, Refusal> {
    judge(file, b"", &mut [0; 16])
}

/// The number and the place of an answer that must be a refusal.
fn refusal<T: std::fmt::Debug>(answer: Result<T, Refusal>) -> (u32, usize) {
    told(answer.unwrap_err())
}

fn told(refused: Refusal) -> (u32, usize) {
    (refused.why.number(), refused.place)
}

/// The example with one text in the place of another.
fn with(from: &str, to: &str) -> Vec<u8> {
    let text = std::str::from_utf8(EXAMPLE).unwrap();
    assert_eq!(text.matches(from).count(), 1, "{from} stands there once");
    text.replace(from, to).into_bytes()
}

#[test]
fn the_example_is_accepted_with_its_totals_and_line_starts() {
    let mut list = [7; 8];
    let totals = Totals {
        lines: 6,
        parcels: 1,
        cents: 1250,
    };
    assert_eq!(judge(EXAMPLE, b"", &mut list), Ok(totals));
    assert_eq!(list, [0, 74, 116, 178, 208, 216, 0, 0]);
}

#[test]
fn a_refused_file_leaves_only_zeros_in_the_list() {
    let mut list = [7; 8];
    assert_eq!(refusal(judge(&EXAMPLE[..275], b"", &mut list)), (2, 274));
    assert_eq!(list, [0; 8]);
}

#[test]
fn the_lines_of_the_example_are_read() {
    use Record::*;
    let records = [Header, Sender, Shipment, Parcel, Product, Feature];
    let fields = [10, 16, 40, 3, 1, 10];
    for line in 0..6 {
        let due = Line {
            record: records[line],
            fields: fields[line],
            next: STARTS[line + 1],
        };
        assert_eq!(read_line(Five, EXAMPLE, STARTS[line]), Ok(due));
    }
    assert_eq!(refusal(read_line(Five, EXAMPLE, 4)), (3, 4));
    assert_eq!(refusal(read_line(Five, EXAMPLE, usize::MAX)), (2, 276));
}

#[test]
fn the_fields_of_the_cash_line_are_found() {
    let fields = [
        "006",
        "",
        "12.50",
        "EUR",
        "Muster",
        "AT611904300234573201",
        "ABCDATWW",
        "",
        "",
        "",
    ];
    for (at, field) in fields.iter().enumerate() {
        let found = find_field(Five, EXAMPLE, 216, at + 1).unwrap();
        assert_eq!(&EXAMPLE[found], field.as_bytes());
    }
    assert_eq!(refusal(find_field(Five, EXAMPLE, 216, 0)), (15, 0));
    assert_eq!(refusal(find_field(Five, EXAMPLE, 216, 11)), (15, 0));
}

#[test]
fn each_line_of_the_example_is_written_as_it_was_read() {
    for pair in STARTS.windows(2) {
        let line = read_line(Five, EXAMPLE, pair[0]).unwrap();
        let (mut text, mut ends) = (Vec::new(), Vec::new());
        for number in 1..=line.fields {
            let field = find_field(Five, EXAMPLE, pair[0], number).unwrap();
            text.extend(&EXAMPLE[field]);
            ends.push(text.len());
        }
        let length = pair[1] - pair[0];
        let mut output = vec![b'.'; length + 5];
        let written = write_line(Five, line.record.number(), &text, &ends, &mut output, 3);
        assert_eq!(written, Ok(length));
        assert_eq!(output, [b"...", &EXAMPLE[pair[0]..pair[1]], b".."].concat());

        let mut short = vec![b'.'; length + 2];
        let answer = write_line(Five, line.record.number(), &text, &ends, &mut short, 3);
        assert_eq!(refusal(answer), (13, 0));
        assert_eq!(short, vec![b'.'; length + 2]);
    }
}

#[test]
fn the_purpose_of_the_cash_line_is_written() {
    let (mut list, mut output) = ([7; 8], [b'.'; 40]);
    let written = write_purpose(EXAMPLE, b"", 5, &mut list, &mut output);
    assert_eq!(written, Ok(24));
    assert_eq!(&output, b"1000000000000000000007/B................");
    assert_eq!(list, [0, 74, 116, 178, 208, 216, 0, 0]);

    let (mut list, mut output) = ([7; 8], [b'.'; 40]);
    let answer = write_purpose(EXAMPLE, b"", 4, &mut list, &mut output);
    assert_eq!(refusal(answer), (15, 0));
    assert_eq!((list, output), ([0; 8], [b'.'; 40]));
}

/// The example without the sender's phone and mail.
fn silent() -> Vec<u8> {
    with(";1;1;a@b;", ";1;;;")
}

#[test]
fn a_line_alone_does_not_ask_for_contacts() {
    let silent = silent();
    assert_eq!(read_line(Five, &silent, 74).unwrap().next, 112);
    assert_eq!(find_field(Five, &silent, 74, 12), Ok(106..106));
    let (mut text, mut ends) = (Vec::new(), Vec::new());
    for field in find_fields(Five, &silent, 74).unwrap() {
        text.extend(&silent[field]);
        ends.push(text.len());
    }
    let mut output = [0; 38];
    assert_eq!(write_line(Five, 20, &text, &ends, &mut output, 0), Ok(38));
    assert_eq!(output, silent[74..112]);
}

#[test]
fn contacts_are_needed_for_the_lent_countries() {
    let silent = silent();
    for (countries, due) in [
        ("", None),
        ("DE", None),
        ("XATX", None),
        ("at", None),
        ("AT", Some((19, 112))),
        ("DEAT", Some((19, 112))),
        ("ATD", Some((20, 0))),
    ] {
        let countries = countries.as_bytes();
        let (mut list, mut output) = ([7; 8], [b'.'; 40]);
        let answer = judge(&silent, countries, &mut list);
        assert_eq!(answer.err().map(told), due);
        assert_eq!(list == [0; 8], due.is_some());
        let written = write_purpose(&silent, countries, 5, &mut list, &mut output);
        assert_eq!(written.err().map(told), due);
        assert_eq!(output == [b'.'; 40], due.is_some());
        assert_eq!(list == [0; 8], due.is_some());
    }
    assert_eq!(judge(EXAMPLE, b"AT", &mut [0; 6]), judged(EXAMPLE));
}

#[test]
fn an_identcode_with_a_wrong_check_digit_is_refused_wherever_it_stands() {
    let code = b"1000000000000000000001";
    assert_eq!(refusal(check_identcode(code)), (18, 21));
    assert_eq!(refusal(read_identcode(code)), (18, 21));

    let file = with("1000000000000000000007", "1000000000000000000001");
    let (mut list, mut output) = ([7; 8], [b'.'; 40]);
    assert_eq!(refusal(judge(&file, b"", &mut list)), (8, 182));
    assert_eq!(list, [0; 8]);
    list = [7; 8];
    let written = write_purpose(&file, b"", 5, &mut list, &mut output);
    assert_eq!(refusal(written), (8, 182));
    assert_eq!((list, output), ([0; 8], [b'.'; 40]));
    assert_eq!(refusal(read_line(Five, &file, 178)), (8, 182));
    assert_eq!(refusal(find_field(Five, &file, 178, 1)), (8, 182));
    let written = write_line(Five, 40, code, &[22; 3], &mut output, 0);
    assert_eq!(refusal(written), (8, 1));
    assert_eq!(output, [b'.'; 40]);
}

#[test]
fn the_identcode_of_the_manual_has_its_parts() {
    let code = b"1012345123456781212349";
    assert_eq!(check_identcode(code), Ok(()));
    let parts = IdentcodeParts {
        origin: 0..2,
        customer: 2..7,
        sequence: 7..15,
        product: 15..17,
        destination: 17..21,
        check: 21..22,
    };
    assert_eq!(read_identcode(code), Ok(parts));
    assert_eq!(refusal(read_identcode(&code[1..])), (16, 0));
    assert_eq!(refusal(read_identcode(b"1012345123456781212E49")), (17, 19));
}

#[test]
fn an_identcode_is_issued_and_nothing_else_is_written() {
    let body = b"854637900327598186342";
    let mut output = [b'.'; 30];
    assert_eq!(issue_identcode(body, &mut output), Ok(22));
    assert_eq!(&output, b"8546379003275981863426........");
    assert_eq!(check_identcode(&output[..22]), Ok(()));

    output = [b'.'; 30];
    let answer = issue_identcode(&body[1..], &mut output);
    assert_eq!(refusal(answer), (16, 0));
    let answer = issue_identcode(b"85463790032759818634 ", &mut output);
    assert_eq!(refusal(answer), (17, 20));
    for room in 0..IDENTCODE_LEN {
        let answer = issue_identcode(body, &mut output[..room]);
        assert_eq!(refusal(answer), (13, 0));
    }
    assert_eq!(output, [b'.'; 30]);
}

/// Tracking numbers: three that pass, one with a wrong check and two with a wrong symbol.
const NUMBERS: [&[u8; TRACKING_LEN]; 6] = [
    b"09980000020041F",
    b"00000000000000U",
    b"016325329483752",
    b"09980000020041G",
    b"09980000020041f",
    b"0998000002O041F",
];

/// The byte that a number must have among the answers of a day: that of its own call.
fn byte_alone(number: &[u8]) -> u8 {
    match check_number(number) {
        Ok(kind) => {
            assert_eq!(kind, Kind::Tracking);
            0
        }
        Err(refused) => refused.why.number().try_into().unwrap(),
    }
}

/// The raw call of a day: its answer, `passed` and `place`, which are nonsense before.
fn day_raw(numbers: &[u8], answers: &mut [u8]) -> (u32, usize, usize) {
    let nonsense = usize::MAX / 3;
    let (mut passed, mut place) = (nonsense, nonsense);
    // SAFETY: each pointer comes with the length of its own slice or points to one local number.
    let number = unsafe {
        sys::peliranopi_check_numbers(
            numbers.as_ptr(),
            numbers.len(),
            answers.as_mut_ptr(),
            answers.len(),
            &mut passed,
            &mut place,
        )
    };
    (number, passed, place)
}

/// Every row of up to three of the numbers, so that each answer has each other as its neighbour, in
/// room that is just enough, and more.
#[test]
fn each_number_of_a_day_is_answered_as_it_would_be_alone() {
    assert_eq!(NUMBERS.map(|n| byte_alone(n)), [0, 0, 0, 18, 17, 17]);
    let kinds = NUMBERS.len();
    for count in 0..=3 {
        for which in 0..kinds.pow(count) {
            let mut day = Vec::new();
            (0..count).fold(which, |left, _| {
                day.push(*NUMBERS[left % kinds]);
                left / kinds
            });
            let due: Vec<u8> = day.iter().map(|number| byte_alone(number)).collect();
            let passed = due.iter().filter(|byte| **byte == 0).count();
            // A byte behind the last number's that is 0 must not be counted.
            for (more, held) in [(0, 99), (1, 99), (20, 99), (1, 0), (20, 0)] {
                let stays = vec![held; more];
                let mut answers = vec![held; day.len() + more];
                let answer = check_numbers(day.as_flattened(), &mut answers);
                assert_eq!(answer, Ok(passed));
                assert_eq!(answers, [&due[..], &stays].concat());
                let answer = day_raw(day.as_flattened(), &mut answers);
                assert_eq!(answer, (0, passed, 0));
            }
            let each = check_each(&day);
            assert_eq!((each.passed(), each.len()), (passed, day.len()));
            assert_eq!(each.is_empty(), day.is_empty());
            let alone = day.iter().map(|number| {
                let answer = check_number(number);
                answer.map(|_| ()).map_err(|refused| refused.why)
            });
            assert!(each.iter().eq(alone.clone()) && each.into_iter().eq(alone));
        }
    }
}

#[test]
fn a_day_of_no_numbers_writes_nothing() {
    for room in [0, 1, 9] {
        let mut answers = vec![99; room];
        assert_eq!(check_numbers(b"", &mut answers), Ok(0));
        assert_eq!(day_raw(b"", &mut answers), (0, 0, 0));
        assert_eq!(answers, vec![99; room]);
    }
    assert_eq!(check_each(&[]).iter().next(), None);
}

/// Every length of the buffer with every room: 16 before 13, both at 0. What a refusal leaves is what
/// was there.
#[test]
fn a_day_is_refused_by_its_length_and_then_by_its_room() {
    let numbers = [*NUMBERS[0]; 4];
    for length in 0..=numbers.as_flattened().len() {
        let numbers = &numbers.as_flattened()[..length];
        let count = length / TRACKING_LEN;
        for room in 0..=6 {
            let mut answers = vec![99; room];
            let answer = check_numbers(numbers, &mut answers);
            let due = match length % TRACKING_LEN {
                0 if room >= count => {
                    assert_eq!(answer, Ok(count));
                    assert_eq!(answers[count..], vec![99; room - count]);
                    continue;
                }
                0 => 13,
                _ => 16,
            };
            assert_eq!(refusal(answer), (due, 0), "{length} bytes, room {room}");
            assert_eq!(day_raw(numbers, &mut answers), (due, 0, 0));
            assert_eq!(answers, vec![99; room]);
        }
    }
}

/// Every byte at every place of the number in the middle. The neighbours keep their answers.
#[test]
fn a_wrong_symbol_of_a_day_is_answered_for_its_own_number_alone() {
    let mut seen = [0; 3];
    for place in 0..TRACKING_LEN {
        for byte in 0..=u8::MAX {
            let mut day = [*NUMBERS[0]; 3];
            day[1][place] = byte;
            let due = byte_alone(&day[1]);
            let mut answers = [99; 3];
            let passed = check_numbers(day.as_flattened(), &mut answers);
            assert_eq!(passed, Ok(2 + usize::from(due == 0)));
            assert_eq!(answers, [0, due, 0], "{byte} at {place}");
            seen[[0, 17, 18].iter().position(|one| *one == due).unwrap()] += 1;
        }
    }
    assert!(seen.iter().all(|count| *count >= 15), "{seen:?}");
}

/// Numbers that pass, one symbol further: none of the day's own does.
#[test]
fn a_day_is_cut_where_it_starts() {
    let twice = [*NUMBERS[0]; 2];
    let mut shifted = twice;
    shifted.as_flattened_mut().rotate_right(1);
    let mut answers = [99; 2];
    assert_eq!(check_numbers(twice.as_flattened(), &mut answers), Ok(2));
    assert_eq!(check_numbers(shifted.as_flattened(), &mut answers), Ok(0));
    assert_eq!(answers, [17, 17]);
}

/// A label code is no tracking number, and with two more bytes it is two.
#[test]
fn a_label_code_among_a_days_numbers() {
    let label = b"0002800099800000200371550566";
    assert_eq!(check_number(label), Ok(Kind::Label));
    let mut answers = [99; 9];
    assert_eq!(refusal(check_numbers(label, &mut answers)), (16, 0));
    assert_eq!(answers, [99; 9]);
    let longer = [&label[..], b"00"].concat();
    let passed = check_numbers(&longer, &mut answers).unwrap();
    let due = [&longer[..15], &longer[15..]].map(byte_alone);
    assert_eq!(answers[..2], due);
    assert_eq!(passed, due.iter().filter(|byte| **byte == 0).count());
    assert_eq!(answers[2..], [99; 7]);
}

/// More numbers than a byte, and than two bytes, can count.
#[test]
fn a_long_day() {
    let mut day = vec![*NUMBERS[1]; 70_000];
    for at in [0, 255, 256, 65_535, 65_536, 69_999] {
        day[at] = *NUMBERS[3];
    }
    let each = check_each(&day);
    assert_eq!((each.passed(), each.len()), (70_000 - 6, 70_000));
    for (number, answer) in day.iter().zip(&each) {
        let due = match number == NUMBERS[3] {
            true => Err(Reason::WrongCheck),
            false => Ok(()),
        };
        assert_eq!(answer, due);
    }
}

/// The iterators say how many answers are left, and have no more behind the last.
#[test]
fn the_answers_of_a_day_are_counted_down() {
    let answers = check_each(&[*NUMBERS[0], *NUMBERS[3]]);
    let (mut borrowed, mut owned) = (answers.iter(), answers.clone().into_iter());
    for (left, due) in [
        (2, Some(Ok(()))),
        (1, Some(Err(Reason::WrongCheck))),
        (0, None),
        (0, None),
    ] {
        assert_eq!((borrowed.len(), owned.len()), (left, left));
        assert_eq!((borrowed.next(), owned.next()), (due, due));
    }
    assert_eq!(check_each(&[*NUMBERS[0], *NUMBERS[3]]), answers);
    assert_ne!(check_each(&[*NUMBERS[0], *NUMBERS[4]]), answers);
}

/// The carries behind the symbols of a number that is typed.
fn carries(symbols: &[u8]) -> Result<Vec<u32>, Refusal> {
    let mut carry = CARRY_START;
    let carries = symbols.iter().map(|symbol| {
        carry = next_carry(carry, *symbol)?;
        Ok(carry)
    });
    carries.collect()
}

#[test]
fn a_number_is_typed_key_by_key() {
    let due = [35, 16, 13, 5, 10, 20, 3, 6, 12, 28, 19, 1, 10, 22, 2];
    assert_eq!(carries(b"09980000020041F"), Ok(due.to_vec()));
    for number in ["00000000000000U", "0002800099800000200371550566"] {
        let carries = carries(number.as_bytes()).unwrap();
        assert_eq!(carries.last(), Some(&CARRY_PASSED));
    }
    assert_eq!(refusal(carries(b"09980000020041f")), (17, 0));
}

/// Of the symbols behind a body exactly one passes, whole and key by key.
#[test]
fn a_number_passes_where_its_last_carry_says_so() {
    let bodies: [&[u8]; 3] = [
        b"09980000020041",
        b"00000000000000",
        b"ZZZZZZZ99999999999999999999",
    ];
    for body in bodies {
        let mut passed = 0;
        for check in (b'0'..=b'9').chain(b'A'..=b'Z') {
            let number = [body, &[check]].concat();
            let passes = carries(&number).unwrap().last() == Some(&CARRY_PASSED);
            assert_eq!(check_number(&number).is_ok(), passes);
            passed += usize::from(passes);
        }
        assert_eq!(passed, 1);
    }
}

#[test]
fn a_carry_that_is_none_is_refused_before_a_key_that_is_no_symbol() {
    for byte in 0..=255_u8 {
        let is_symbol = byte.is_ascii_digit() || byte.is_ascii_uppercase();
        for carry in 1..=36 {
            match next_carry(carry, byte) {
                Ok(next) => assert!(is_symbol && (1..=36).contains(&next)),
                Err(refused) => assert!(!is_symbol && told(refused) == (17, 0)),
            }
        }
        // Cut to 6, 8 or 16 bits, some of these would be carries.
        for carry in [0, 37, 64 + 36, 255, 256, 256 + 36, 65_536 + 36, u32::MAX] {
            assert_eq!(refusal(next_carry(carry, byte)), (15, 0));
        }
    }
}

/// The calls on one line, told this number: each answer, with the numbers behind its pointers. They are
/// nonsense before.
fn told_raw(version: u32, file: &[u8], offset: usize) -> [(u32, Vec<usize>); 3] {
    let nonsense = usize::MAX / 3;
    let mut numbers = [nonsense; 7];
    let [fields, next, line_place, start, length, field_place, written] = &mut numbers;
    let (mut record, mut place) = (u32::MAX / 3, nonsense);
    let (ends, mut output) = ([2], [b'.'; 8]);
    // SAFETY: each pointer comes with the length of its own slice or points to one local number.
    let answers = unsafe {
        [
            sys::peliranopi_read_line(
                version,
                file.as_ptr(),
                file.len(),
                offset,
                &mut record,
                fields,
                next,
                line_place,
            ),
            sys::peliranopi_find_field(
                version,
                file.as_ptr(),
                file.len(),
                offset,
                1,
                start,
                length,
                field_place,
            ),
            sys::peliranopi_write_line(
                version,
                50,
                b"10".as_ptr(),
                2,
                ends.as_ptr(),
                ends.len(),
                output.as_mut_ptr(),
                output.len(),
                0,
                written,
                &mut place,
            ),
        ]
    };
    let is_written: &[u8] = if answers[2] == 0 {
        b"050;10\r\n"
    } else {
        b"........"
    };
    assert_eq!(output, is_written);
    [
        (
            answers[0],
            vec![record as usize, *fields, *next, *line_place],
        ),
        (answers[1], vec![*start, *length, *field_place]),
        (answers[2], vec![*written, place]),
    ]
}

/// "22, a line call told neither 5 nor 7, place 0, before all others": before 1, 2 and 3 here.
#[test]
fn a_version_that_is_neither_is_refused_before_all_else() {
    let accepted = [
        (0, vec![50, 1, 216, 0]),
        (0, vec![212, 2, 0]),
        (0, vec![8, 0]),
    ];
    let refused = [(22, vec![0; 4]), (22, vec![0; 3]), (22, vec![0; 2])];
    let long = [b' '; FILE_LEN_MAX + 1];
    // Cut to 8 or 16 bits some of these would be versions.
    let neither = [
        0,
        1,
        4,
        6,
        8,
        55,
        57,
        77,
        256 + 5,
        256 + 7,
        65_536 + 5,
        65_536 + 7,
        u32::MAX,
    ];
    for version in (0..=300).chain(neither) {
        let told = told_raw(version, EXAMPLE, 208);
        let is_version = Version::try_from(version).is_ok();
        assert_eq!(
            told,
            if is_version {
                accepted.clone()
            } else {
                refused.clone()
            }
        );
        if !is_version {
            assert_eq!(told_raw(version, &long, 0), refused);
            assert_eq!(told_raw(version, b"", usize::MAX), refused);
            assert_eq!(told_raw(version, b"\r\n", 0), refused);
        }
    }
}

/// What the raw call refuses by 22, with its place.
fn unknown_version() -> Refusal {
    let [(number, numbers), ..] = told_raw(6, EXAMPLE, 0);
    Refusal {
        why: Reason::try_from(number).unwrap(),
        place: numbers[3],
    }
}

#[test]
fn the_example_of_version_7_is_accepted_read_and_written() {
    let mut list = [7; 8];
    let totals = judge(EXAMPLE_7, b"AT", &mut list).unwrap();
    assert_eq!((totals.lines, totals.parcels, totals.cents), (6, 1, 1250));
    assert_eq!(Version::of(EXAMPLE_7), Seven);
    let mut output = [b'.'; 40];
    let written = write_purpose(EXAMPLE_7, b"", 5, &mut [0; 8], &mut output);
    assert_eq!(written, Ok(24));
    assert_eq!(&output, b"1000000000000000000007/B................");
    for offset in &list[..6] {
        let offset = *offset as usize;
        let line = read_line(Seven, EXAMPLE_7, offset).unwrap();
        let (mut text, mut ends) = (Vec::new(), Vec::new());
        for field in find_fields(Seven, EXAMPLE_7, offset).unwrap() {
            text.extend(&EXAMPLE_7[field]);
            ends.push(text.len());
        }
        let mut output = vec![b'.'; line.next - offset];
        let record = line.record.number();
        let written = write_line(Seven, record, &text, &ends, &mut output, 0);
        assert_eq!(written, Ok(output.len()));
        assert_eq!(output, EXAMPLE_7[offset..line.next]);
    }
}

#[test]
fn a_header_must_have_the_version_that_is_told() {
    // 010.2 is empty, which version 5 refuses first.
    assert_eq!(refusal(read_line(Five, EXAMPLE_7, 0)), (7, 15));
    let named = String::from_utf8_lossy(EXAMPLE_7).replace(";;2021", ";Muster;2021");
    let named = named.replace(";;7;", ";1005;7;").into_bytes();
    assert_eq!(refusal(read_line(Five, &named, 0)), (8, 67));
    assert_eq!(refusal(find_field(Five, &named, 0, 1)), (8, 67));
    assert!(read_line(Seven, &named, 0).is_ok());
    assert_eq!(refusal(read_line(Seven, EXAMPLE, 0)), (8, 67));
    let fields = find_fields(Five, EXAMPLE, 0).unwrap();
    let text: Vec<u8> = fields.flat_map(|field| &EXAMPLE[field]).copied().collect();
    let ends = [10, 16, 35, 54, 58, 59, 59, 59, 59, 59];
    let mut output = [b'.'; 80];
    assert_eq!(write_line(Five, 10, &text, &ends, &mut output, 0), Ok(74));
    output = [b'.'; 80];
    let written = write_line(Seven, 10, &text, &ends, &mut output, 0);
    assert_eq!(refusal(written), (8, 6));
    assert_eq!(output, [b'.'; 80]);
    // The other lines of a file say nothing of a version.
    for offset in [74, 116, 178, 208, 216] {
        let [five, seven] = [Five, Seven].map(|version| read_line(version, EXAMPLE, offset));
        assert_eq!(five, seven);
        assert!(five.is_ok());
    }
}

/// The header decides for its file; a line call is told. A parcel type of two bytes is too long in
/// version 7 alone.
#[test]
fn a_line_is_judged_by_what_is_told_and_not_by_the_header_of_its_file() {
    let typed = String::from_utf8(with("0007;;\r\n", "0007;;;CC\r\n")).unwrap();
    for (mark, due) in [("5", None), ("7", Some((6, 207)))] {
        let file = typed.replace("1005;5;", &format!("1005;{mark};"));
        let file = file.as_bytes();
        assert_eq!(judged(file).err().map(told), due);
        let parcel = Line {
            record: Record::Parcel,
            fields: 4,
            next: 211,
        };
        assert_eq!(read_line(Five, file, 178), Ok(parcel));
        assert_eq!(find_field(Five, file, 178, 4), Ok(207..209));
        assert_eq!(refusal(read_line(Seven, file, 178)), (6, 207));
        // In front of 15.
        assert_eq!(refusal(find_field(Seven, file, 178, 0)), (6, 207));
    }
}

/// A header with neither is judged as 5 from left to right.
#[test]
fn a_header_with_neither_version_is_refused_as_one_of_version_5() {
    for mark in ["6", "", "07", "77", "7 ", " 7", "55"] {
        let file = with("1005;5;", &format!("1005;{mark};"));
        let due = if mark.is_empty() { 7 } else { 8 };
        assert_eq!(refusal(judged(&file)), (due, 67), "{mark}");
        assert_eq!(Version::of(&file), Five);
    }
    let silent = String::from_utf8_lossy(EXAMPLE_7).replace(";7;", ";6;");
    assert_eq!(refusal(judged(silent.as_bytes())), (7, 15));
}

/// Of a file that is not accepted it is `Seven` exactly where its first line is a header that version 7
/// accepts.
#[test]
fn the_version_of_files_that_are_not_accepted() {
    for (file, due) in [
        (&b""[..], Five),
        (b"050;10\r\n", Five),
        (&EXAMPLE_7[..64], Seven),
        (&EXAMPLE_7[..63], Five),
        (&EXAMPLE_7[64..], Five),
        (&[EXAMPLE_7, b"x"].concat(), Seven),
        (&vec![b' '; FILE_LEN_MAX + 1], Five),
    ] {
        assert!(judged(file).is_err());
        assert_eq!(Version::of(file), due, "{}", file.escape_ascii());
    }
}

/// A refusal of each number, with its place.
fn one_of_each() -> Vec<(Refusal, usize)> {
    let parcel_twice = [&EXAMPLE[..208], &EXAMPLE[178..]].concat();
    let too_wide = format!("050;{}\r\n", "x".repeat(21));
    let body = b"09980000020041";
    vec![
        (judged(&[b' '; 65_536]).unwrap_err(), 65_535),
        (judged(b"010").unwrap_err(), 3),
        (judged(b"\r\n").unwrap_err(), 0),
        (judged(&EXAMPLE[74..]).unwrap_err(), 0),
        (judged(b"010;\r\n").unwrap_err(), 0),
        (read_line(Five, too_wide.as_bytes(), 0).unwrap_err(), 4),
        (read_line(Five, b"050;\r\n", 0).unwrap_err(), 4),
        (judged(&with("AT61", "AT16")).unwrap_err(), 242),
        (read_line(Five, b"060;006;;;;;;;;;\r\n", 0).unwrap_err(), 0),
        (judged(&parcel_twice).unwrap_err(), 212),
        (judge(EXAMPLE, b"", &mut [0; 5]).unwrap_err(), 216),
        (judged(&EXAMPLE[..208]).unwrap_err(), 208),
        (issue_number(body, &mut [0; 14]).unwrap_err(), 0),
        (
            write_line(Five, 50, b"10", &[1], &mut [], 0).unwrap_err(),
            0,
        ),
        (find_field(Five, EXAMPLE, 208, 2).unwrap_err(), 0),
        (check_iban(b"AT").unwrap_err(), 0),
        (check_number(b"09980000020041f").unwrap_err(), 14),
        (check_iban(b"AT161904300234573201").unwrap_err(), 2),
        (judge(&silent(), b"AT", &mut [0; 6]).unwrap_err(), 112),
        (judge(EXAMPLE, b"A", &mut [0; 6]).unwrap_err(), 0),
        (unknown_version(), 0),
    ]
}

#[test]
fn each_number_is_given_at_its_place_and_said_in_words() {
    let given = one_of_each();
    let whys: Vec<Reason> = given.iter().map(|(refused, _)| refused.why).collect();
    assert_eq!(whys, Reason::ALL, "a case for each refusal");
    for (refused, place) in given {
        assert_eq!(refused.place, place, "{refused}");
        let (number, when) = (refused.why.number(), refused.why);
        let words = format!("refusal {number} at {place}: {when}");
        assert_eq!(refused.to_string(), words);
    }
}

/// Whether exactly the numbers of these have a name, and each its own.
fn are_named<T: Copy + PartialEq + TryFrom<u32, Error = UnknownNumber> + std::fmt::Debug>(
    all: &[T],
    number_of: fn(T) -> u32,
) {
    assert!(all.is_sorted_by(|one, other| number_of(*one) < number_of(*other)));
    for number in (0..=1_000).chain([u32::MAX]) {
        match all.iter().find(|one| number_of(**one) == number) {
            Some(one) => assert_eq!(T::try_from(number), Ok(*one)),
            None => assert_eq!(T::try_from(number).unwrap_err().number(), number),
        }
    }
}

#[test]
fn numbers_have_their_names_and_others_have_none() {
    are_named(Reason::ALL, Reason::number);
    are_named(Version::ALL, Version::number);
    are_named(Record::ALL, Record::number);
    are_named(Kind::ALL, Kind::number);

    let refused = Refusal::from(Record::try_from(70).unwrap_err());
    assert_eq!(refusal::<()>(Err(refused)), (70, 0));
    assert!(!Reason::ALL.contains(&refused.why));
    let words = "another library answered at 0: the number 70 has no name in this version";
    assert_eq!(refused.to_string(), words);
}

#[test]
fn the_calls_have_these_limits() {
    let spaces = [b' '; FILE_LEN_MAX + 1];
    assert_eq!(refusal(judged(&spaces)), (1, FILE_LEN_MAX));
    assert_eq!(refusal(judged(&spaces[1..])), (2, FILE_LEN_MAX));

    let mut output = [0; PURPOSE_LEN_MAX];
    assert!(write_purpose(EXAMPLE, b"", 5, &mut [0; 8], &mut output).is_ok());
    let answer = write_purpose(EXAMPLE, b"", 5, &mut [0; 8], &mut output[1..]);
    assert_eq!(refusal(answer), (13, 0));

    for length in 0..=100 {
        let fits = [TRACKING_LEN, LABEL_LEN].contains(&length);
        let due = if fits { (17, 0) } else { (16, 0) };
        assert_eq!(refusal(check_number(&vec![b'?'; length])), due);
        let fits = (IBAN_LEN_MIN..=IBAN_LEN_MAX).contains(&length);
        let due = if fits { (17, 0) } else { (16, 0) };
        assert_eq!(refusal(check_iban(&vec![b'?'; length])), due);
        let due = if length == IDENTCODE_LEN {
            (17, 0)
        } else {
            (16, 0)
        };
        assert_eq!(refusal(check_identcode(&vec![b'?'; length])), due);
    }
}

/// A line with so many fields, of which these are filled.
fn line(record: &str, count: usize, filled: &[(usize, &str)]) -> Vec<u8> {
    let mut fields = vec![""; count];
    for (number, field) in filled {
        fields[number - 1] = field;
    }
    format!("{record};{}\r\n", fields.join(";")).into_bytes()
}

/// A short line of each record, in the order in which they come, in a file of this version.
fn short_lines(version: Version) -> [Vec<u8>; 6] {
    let (customer, date) = ("0000000000", "2021-02-23T13:37:50");
    let times = [(1, customer), (3, date), (4, date)];
    let header = match version {
        Five => [&times[..], &[(2, "x"), (5, "1005"), (6, "5")]].concat(),
        Seven => [&times[..], &[(6, "7")]].concat(),
    };
    let sender = [1, 5, 6, 7, 9, 11].map(|at| (at, if at == 5 { "BR" } else { "x" }));
    let shipment = [16, 20, 21, 22, 24, 26].map(|at| (at, if at == 20 { "BR" } else { "x" }));
    [
        line("010", 10, &header),
        line("020", 16, &sender),
        line("030", 40, &shipment),
        line("040", 3, &[(1, "1000000000000000000007")]),
        line("050", 1, &[(1, "x")]),
        line("060", 10, &[(1, "004")]),
    ]
}

/// So lines have 18 bytes or more on average, each 050 line with the 040 line in front of it.
#[test]
fn no_line_is_shorter_than_the_most_lines_ask_for() {
    assert_eq!(LINES_MAX, FILE_LEN_MAX / 18);
    for (version, header) in [(Five, 69), (Seven, 64)] {
        let lines = short_lines(version);
        let lengths = lines.each_ref().map(Vec::len);
        assert_eq!(lengths, [header, 28, 52, 30, 7, 18]);
        for line in &lines[3..] {
            assert!(read_line(version, line, 0).is_ok());
            for at in 0..line.len() {
                let shorter = [&line[..at], &line[at + 1..]].concat();
                let answer = read_line(version, &shorter, 0);
                assert!(answer.is_err(), "without its byte {at}");
            }
        }
    }
}

#[test]
fn a_list_for_the_most_lines_is_never_full() {
    for version in [Five, Seven] {
        let feature = &short_lines(version)[5];
        let mut file = short_lines(version).concat();
        while file.len() + feature.len() <= FILE_LEN_MAX {
            file.extend(feature);
        }
        let totals = judge(&file, b"", &mut [0; LINES_MAX]).unwrap();
        assert_eq!(totals.lines, 3_635);
        file.extend(feature);
        let answer = judge(&file, b"", &mut [0; LINES_MAX]);
        assert_eq!(refusal(answer), (1, FILE_LEN_MAX));
    }
}
