//! The calls of Peliranopi's static library as they are: the functions and structs of c/peliranopi.h,
//! with its names and in its order. The crate `peliranopi` has safe functions over them, and names for the
//! numbers.
//!
//! Each answers 0 where it accepts, else a refusal's number, and sets every number behind a pointer.
//! The header says what a call leaves in what it was lent. A test of the crate `peliranopi` holds
//! these declarations against the header.
//!
//! # Safety
//!
//! A call is safe if every pointer is aligned, not null (not even for length 0) and has as many
//! elements behind it as its length says, or one where it has no length, and if what is lent for
//! writing overlaps nothing else. Nothing is asked of the bytes, lengths and numbers themselves.
//!
//! ```
//! let (iban, mut place) = (b"AT161904300234573201", 0);
//! // SAFETY: the array's pointer comes with its length, and the place is one local number.
//! let refusal =
//!     unsafe { peliranopi_sys::peliranopi_check_iban(iban.as_ptr(), iban.len(), &mut place) };
//! assert_eq!((refusal, place), (18, 2));
//! ```

#![no_std]
#![deny(missing_docs)]
// The names are those of the header.
#![allow(non_camel_case_types)]

/// One part of an identcode: where it starts in the code, and how many digits it has.
#[repr(C)]
#[derive(Clone, Copy, Debug, Default, PartialEq, Eq, Hash)]
pub struct peliranopi_part {
    /// Where it starts.
    pub start: usize,
    /// How many digits it has.
    pub length: usize,
}

/// The six parts of an identcode, in their order.
#[repr(C)]
#[derive(Clone, Copy, Debug, Default, PartialEq, Eq, Hash)]
pub struct peliranopi_identcode_parts {
    /// The country it comes from, or the partner: 2 digits.
    pub origin: peliranopi_part,
    /// The customer's number: 5 digits.
    pub customer: peliranopi_part,
    /// The sequential number: 8 digits.
    pub sequence: peliranopi_part,
    /// The code of product and process: 2 digits.
    pub product: peliranopi_part,
    /// The post code it goes to, or 0 and the country's number: 4 digits.
    pub destination: peliranopi_part,
    /// The check digit.
    pub check: peliranopi_part,
}

extern "C" {
    /// Judges a whole file.
    pub fn peliranopi_judge(
        file: *const u8,
        file_len: usize,
        countries: *const u8,
        countries_len: usize,
        list: *mut u32,
        list_len: usize,
        lines: *mut usize,
        parcels: *mut usize,
        cents: *mut u64,
        place: *mut usize,
    ) -> u32;

    /// Judges the line that starts at the offset, alone, in a file of this version.
    pub fn peliranopi_read_line(
        version: u32,
        file: *const u8,
        file_len: usize,
        offset: usize,
        record: *mut u32,
        fields: *mut usize,
        next: *mut usize,
        place: *mut usize,
    ) -> u32;

    /// Finds one field of the line that starts at the offset, in a file of this version.
    pub fn peliranopi_find_field(
        version: u32,
        file: *const u8,
        file_len: usize,
        offset: usize,
        number: usize,
        start: *mut usize,
        length: *mut usize,
        place: *mut usize,
    ) -> u32;

    /// Writes one line of a file of this version.
    pub fn peliranopi_write_line(
        version: u32,
        record: u32,
        text: *const u8,
        text_len: usize,
        ends: *const usize,
        ends_len: usize,
        output: *mut u8,
        output_len: usize,
        fill: usize,
        written: *mut usize,
        place: *mut usize,
    ) -> u32;

    /// Writes the payment purpose of a line of a file.
    pub fn peliranopi_write_purpose(
        file: *const u8,
        file_len: usize,
        countries: *const u8,
        countries_len: usize,
        line: usize,
        list: *mut u32,
        list_len: usize,
        output: *mut u8,
        output_len: usize,
        written: *mut usize,
        place: *mut usize,
    ) -> u32;

    /// Checks a tracking number or a label code.
    pub fn peliranopi_check_number(
        symbols: *const u8,
        symbols_len: usize,
        kind: *mut u32,
        place: *mut usize,
    ) -> u32;

    /// Checks a day's tracking numbers, which stand one behind the other.
    pub fn peliranopi_check_numbers(
        numbers: *const u8,
        numbers_len: usize,
        answers: *mut u8,
        answers_len: usize,
        passed: *mut usize,
        place: *mut usize,
    ) -> u32;

    /// Issues the number that has this body.
    pub fn peliranopi_issue_number(
        body: *const u8,
        body_len: usize,
        output: *mut u8,
        output_len: usize,
        written: *mut usize,
        place: *mut usize,
    ) -> u32;

    /// Tells the carry of a DPD number after one more symbol.
    pub fn peliranopi_next_carry(carry: u32, key: u8, next: *mut u32, place: *mut usize) -> u32;

    /// Checks an IBAN.
    pub fn peliranopi_check_iban(symbols: *const u8, symbols_len: usize, place: *mut usize) -> u32;

    /// Checks an identcode.
    pub fn peliranopi_check_identcode(code: *const u8, code_len: usize, place: *mut usize) -> u32;

    /// Checks an identcode and tells its parts.
    pub fn peliranopi_read_identcode(
        code: *const u8,
        code_len: usize,
        parts: *mut peliranopi_identcode_parts,
        place: *mut usize,
    ) -> u32;

    /// Issues the identcode that has this body.
    pub fn peliranopi_issue_identcode(
        body: *const u8,
        body_len: usize,
        output: *mut u8,
        output_len: usize,
        written: *mut usize,
        place: *mut usize,
    ) -> u32;
}
