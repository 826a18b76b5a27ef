//! Shows that the guard can fail: what leaves a buffer by one byte is killed, what stays inside is
//! not. The library's own accesses are among them, by lengths that are one too large.

use std::ptr;

use crate::pages::{Lent, Room, Side};
use crate::process::{be_silent, in_child, End, SEGMENTATION_FAULT};
use peliranopi::sys;

/// What is tried, on which side a page lies, and the buffer's content.
type Row = (&'static str, Side, &'static [u8], Try);
type Try = fn(Lent<u8>);

const BODY: &[u8] = b"09980000020041";
/// Two numbers of digits alone, so that each is looked at to its last symbol, and room for the answers
/// of two.
const DAY: &[u8] = &[b'0'; 30];
const ANSWERS: &[u8] = &[0; 2];
/// Room for a carry, and for a place.
const CARRY: &[u8] = &[0; size_of::<u32>()];
const PLACE: &[u8] = &[0; size_of::<usize>()];
const IDENTCODE: &[u8] = b"1000000000000000000007";
/// Room for the parts of an identcode, which are twelve numbers, and for eleven.
const PARTS: &[u8] = &[0; 12 * size_of::<usize>()];
const FEWER_PARTS: &[u8] = PARTS.split_at(11 * size_of::<usize>()).0;

const INSIDE: [Row; 13] = [
    ("reads the last byte", Side::Behind, BODY, |lent| {
        read(lent.start.wrapping_add(13))
    }),
    ("reads the first byte", Side::Before, BODY, |lent| {
        read(lent.start)
    }),
    ("writes the last byte", Side::Behind, BODY, |lent| {
        write(lent.start.wrapping_add(13))
    }),
    ("checks 14 symbols", Side::Behind, BODY, |lent| {
        check(lent.start, 14)
    }),
    ("lends 7 countries", Side::Behind, BODY, |lent| {
        lend_countries(lent.start, 14)
    }),
    ("checks a day", Side::Behind, DAY, |lent| {
        check_day(lent.start)
    }),
    ("answers a day", Side::Behind, ANSWERS, |lent| {
        answer_day(lent.start, 2)
    }),
    ("counts a day", Side::Behind, PLACE, |lent| {
        count_day(lent.start)
    }),
    ("tells a carry", Side::Behind, CARRY, |lent| {
        tell_carry(lent.start)
    }),
    ("tells a place", Side::Behind, PLACE, |lent| {
        tell_place(lent.start)
    }),
    ("checks an identcode", Side::Behind, IDENTCODE, |lent| {
        check_identcode(lent.start, 22)
    }),
    ("reads an identcode", Side::Behind, PARTS, |lent| {
        read_identcode(lent.start)
    }),
    ("issues an identcode", Side::Behind, IDENTCODE, |lent| {
        issue_identcode(lent.start, 22)
    }),
];

const OUTSIDE: [Row; 24] = [
    ("reads one byte past", Side::Behind, BODY, |lent| {
        read(lent.start.wrapping_add(14))
    }),
    ("reads one byte before", Side::Before, BODY, |lent| {
        read(lent.start.wrapping_sub(1))
    }),
    ("writes one byte past", Side::Behind, BODY, |lent| {
        write(lent.start.wrapping_add(14))
    }),
    ("writes one byte before", Side::Before, BODY, |lent| {
        write(lent.start.wrapping_sub(1))
    }),
    ("checks one symbol past", Side::Behind, BODY, |lent| {
        check(lent.start, 15)
    }),
    ("checks one symbol before", Side::Before, BODY, |lent| {
        check(lent.start.wrapping_sub(1), 15)
    }),
    ("issues one byte past", Side::Behind, BODY, |lent| {
        issue(lent.start, 15)
    }),
    ("lends one country past", Side::Behind, BODY, |lent| {
        lend_countries(lent.start, 16)
    }),
    ("lends one country before", Side::Before, BODY, |lent| {
        lend_countries(lent.start.wrapping_sub(2), 16)
    }),
    ("checks a day one byte past", Side::Behind, DAY, |lent| {
        check_day(lent.start.wrapping_add(1))
    }),
    ("checks a day one byte before", Side::Before, DAY, |lent| {
        check_day(lent.start.wrapping_sub(1))
    }),
    ("answers one number past", Side::Behind, ANSWERS, |lent| {
        answer_day(lent.start, 3)
    }),
    ("answers one number before", Side::Before, ANSWERS, |lent| {
        answer_day(lent.start.wrapping_sub(1), 2)
    }),
    ("counts a day past", Side::Behind, PLACE, |lent| {
        count_day(lent.start.wrapping_add(PLACE.len()))
    }),
    ("counts a day before", Side::Before, PLACE, |lent| {
        count_day(lent.start.wrapping_sub(PLACE.len()))
    }),
    ("tells a carry past", Side::Behind, CARRY, |lent| {
        tell_carry(lent.start.wrapping_add(CARRY.len()))
    }),
    ("tells a carry before", Side::Before, CARRY, |lent| {
        tell_carry(lent.start.wrapping_sub(CARRY.len()))
    }),
    ("tells a place past", Side::Behind, PLACE, |lent| {
        tell_place(lent.start.wrapping_add(PLACE.len()))
    }),
    ("tells a place before", Side::Before, PLACE, |lent| {
        tell_place(lent.start.wrapping_sub(PLACE.len()))
    }),
    ("checks one digit past", Side::Behind, IDENTCODE, |lent| {
        check_identcode(lent.start.wrapping_add(1), 22)
    }),
    ("checks one digit before", Side::Before, IDENTCODE, |lent| {
        check_identcode(lent.start.wrapping_sub(1), 22)
    }),
    ("tells a part past", Side::Behind, FEWER_PARTS, |lent| {
        read_identcode(lent.start)
    }),
    ("tells a part before", Side::Before, PARTS, |lent| {
        read_identcode(lent.start.wrapping_sub(size_of::<usize>()))
    }),
    ("issues one digit past", Side::Behind, IDENTCODE, |lent| {
        issue_identcode(lent.start.wrapping_add(1), 22)
    }),
];

/// Tries all of them, each in its own child, and answers how many were killed, as they must be.
pub fn all_killed() -> usize {
    for row in INSIDE {
        assert_eq!(end_of(row), End::Exited(0), "a child {}", row.0);
    }
    for row in OUTSIDE {
        let killed = End::Killed(SEGMENTATION_FAULT);
        assert_eq!(end_of(row), killed, "a child {}", row.0);
    }
    OUTSIDE.len()
}

fn end_of((_, side, content, attempt): Row) -> End {
    in_child(|| {
        be_silent();
        attempt(Room::new().lay(content, side));
    })
}

fn read(byte: *const u8) {
    // SAFETY: none where the byte is outside: the child is to be killed for it, and does nothing
    // else.
    unsafe { ptr::read_volatile(byte) };
}

fn write(byte: *mut u8) {
    // SAFETY: as for `read`.
    unsafe { ptr::write_volatile(byte, b'.') };
}

fn check(symbols: *const u8, length: usize) {
    let (mut kind, mut place) = (0, 0);
    // SAFETY: as for `read`, where the length is not that of the buffer.
    unsafe { sys::peliranopi_check_number(symbols, length, &mut kind, &mut place) };
}

/// Two numbers are read here.
fn check_day(numbers: *const u8) {
    let (mut answers, mut passed, mut place) = ([0; 2], 0, 0);
    // SAFETY: as for `read`, where the numbers are not in the buffer.
    unsafe {
        sys::peliranopi_check_numbers(
            numbers,
            DAY.len(),
            answers.as_mut_ptr(),
            answers.len(),
            &mut passed,
            &mut place,
        )
    };
}

/// The answers of so many numbers are written here.
fn answer_day(answers: *mut u8, count: usize) {
    let (day, mut passed, mut place) = ([b'0'; 45], 0, 0);
    // SAFETY: as for `read`, where the answers are not in the buffer.
    unsafe {
        sys::peliranopi_check_numbers(
            day.as_ptr(),
            15 * count,
            answers,
            count,
            &mut passed,
            &mut place,
        )
    };
}

/// How many numbers passed is written here.
fn count_day(passed: *mut u8) {
    let (mut answers, mut place) = ([0; 2], 0);
    // SAFETY: as for `read`, where the count is not in the buffer.
    unsafe {
        sys::peliranopi_check_numbers(
            DAY.as_ptr(),
            DAY.len(),
            answers.as_mut_ptr(),
            answers.len(),
            passed.cast(),
            &mut place,
        )
    };
}

fn issue(output: *mut u8, length: usize) {
    let (mut written, mut place) = (0, 0);
    // SAFETY: as for `read`, where the length is not that of the buffer.
    unsafe {
        sys::peliranopi_issue_number(
            BODY.as_ptr(),
            BODY.len(),
            output,
            length,
            &mut written,
            &mut place,
        )
    };
}

fn tell_carry(next: *mut u8) {
    let mut place = 0;
    // SAFETY: as for `read`, where the carry is not in the buffer.
    unsafe { sys::peliranopi_next_carry(36, b'Z', next.cast(), &mut place) };
}

fn tell_place(place: *mut u8) {
    let mut next = 0;
    // SAFETY: as for `read`, where the place is not in the buffer.
    unsafe { sys::peliranopi_next_carry(36, b'Z', &mut next, place.cast()) };
}

fn check_identcode(code: *const u8, length: usize) {
    let mut place = 0;
    // SAFETY: as for `read`, where the code is not in the buffer.
    unsafe { sys::peliranopi_check_identcode(code, length, &mut place) };
}

/// Twelve numbers are written here.
fn read_identcode(parts: *mut u8) {
    let mut place = 0;
    // SAFETY: as for `read`, where the parts do not fit in the buffer.
    unsafe {
        sys::peliranopi_read_identcode(
            IDENTCODE.as_ptr(),
            IDENTCODE.len(),
            parts.cast(),
            &mut place,
        )
    };
}

fn issue_identcode(output: *mut u8, length: usize) {
    let (mut written, mut place) = (0, 0);
    // SAFETY: as for `read`, where the output is not in the buffer.
    unsafe {
        sys::peliranopi_issue_identcode(
            IDENTCODE.as_ptr(),
            IDENTCODE.len() - 1,
            output,
            length,
            &mut written,
            &mut place,
        )
    };
}

/// Judges a file whose sender has neither phone nor mail, so that its country is looked for in every
/// pair.
fn lend_countries(countries: *const u8, length: usize) {
    let file = include_str!("../../../examples/preadvice.csv").replace(";1;1;a@b;", ";1;;;");
    let mut list = [0; 6];
    let (mut lines, mut parcels, mut cents, mut place) = (0, 0, 0, 0);
    // SAFETY: as for `read`, where the length is not that of the buffer.
    unsafe {
        sys::peliranopi_judge(
            file.as_ptr(),
            file.len(),
            countries,
            length,
            list.as_mut_ptr(),
            list.len(),
            &mut lines,
            &mut parcels,
            &mut cents,
            &mut place,
        )
    };
}
