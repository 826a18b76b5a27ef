//! Deterministic random input for tests: whole files and the ways in which they get damaged, calls
//! of every entry point, and each field's rule at its boundaries.
//!
//! One seed gives one stream of cases. Where a case's answer follows from how it was made, the case
//! says so (`Outcome`); this is a second opinion on the implementation in this package as well.

mod calls;
mod countries;
mod damage;
mod fields;
mod files;
mod values;
mod versions;

pub use calls::{
    carry_call, day_call, identcode_issue_call, issue_call, line_call, purpose_call,
    valid_writer_call, writer_call, CarryCall, DayCall, IssueCall, LineCall, PurposeCall,
    WriterCall,
};
pub use countries::{countries, own};
pub use damage::{damage, damage_as, file_case, Damage, FileCase};
pub use fields::{field_cases, FieldCase};
pub use files::{put_together, take_apart, valid_file, valid_file_as, valid_file_of, Lines};
pub use values::{
    damaged_iban, damaged_identcode, damaged_number, identcode_of, number_of, valid_iban,
    valid_identcode, valid_number,
};
pub use versions::{told, version};

use crate::Refusal;

/// What a case's answer must be, as far as the case was made to know it.
#[derive(Clone, Copy, Debug, PartialEq, Eq)]
pub enum Outcome {
    Unknown,
    Accepted,
    Refused(Refusal),
}

impl Outcome {
    pub fn refused(number: u32, place: usize) -> Outcome {
        Outcome::Refused(Refusal { number, place })
    }

    /// Whether an answer is one that this outcome allows.
    pub fn allows<T>(self, answer: &Result<T, Refusal>) -> bool {
        match (self, answer) {
            (Outcome::Unknown, _) => true,
            (Outcome::Accepted, answer) => answer.is_ok(),
            (Outcome::Refused(expected), Err(refusal)) => expected == *refusal,
            (Outcome::Refused(_), Ok(_)) => false,
        }
    }
}

/// The generator xorshift64* (Marsaglia, Vigna). Small, and the same on every machine.
#[derive(Clone, Debug)]
pub struct Rng {
    state: u64,
}

impl Rng {
    /// Any seed will do. It is mixed first, because a state of 0 would stay 0 and near seeds would
    /// start alike.
    pub fn new(seed: u64) -> Rng {
        let mut mixed = seed.wrapping_add(0x9E37_79B9_7F4A_7C15);
        mixed = (mixed ^ (mixed >> 30)).wrapping_mul(0xBF58_476D_1CE4_E5B9);
        mixed = (mixed ^ (mixed >> 27)).wrapping_mul(0x94D0_49BB_1331_11EB);
        mixed ^= mixed >> 31;
        Rng {
            state: if mixed == 0 { 1 } else { mixed },
        }
    }

    /// The next 64 bits.
    pub fn word(&mut self) -> u64 {
        self.state ^= self.state >> 12;
        self.state ^= self.state << 25;
        self.state ^= self.state >> 27;
        self.state.wrapping_mul(0x2545_F491_4F6C_DD1D)
    }

    /// A number below `bound`, which is 1 to 2^32.
    pub fn below(&mut self, bound: usize) -> usize {
        (((self.word() >> 32) * bound as u64) >> 32) as usize
    }

    /// A number from `least` to `most`.
    pub fn between(&mut self, least: usize, most: usize) -> usize {
        least + self.below(most - least + 1)
    }

    /// True in so many of a hundred draws.
    pub fn percent(&mut self, share: usize) -> bool {
        self.below(100) < share
    }

    /// One of a list that is not empty.
    pub fn pick<T: Copy>(&mut self, list: &[T]) -> T {
        list[self.below(list.len())]
    }

    pub fn digit(&mut self) -> u8 {
        b'0' + self.below(10) as u8
    }

    pub fn capital(&mut self) -> u8 {
        b'A' + self.below(26) as u8
    }

    pub fn digits(&mut self, count: usize) -> Vec<u8> {
        (0..count).map(|_| self.digit()).collect()
    }

    pub fn capitals(&mut self, count: usize) -> Vec<u8> {
        (0..count).map(|_| self.capital()).collect()
    }

    /// Any byte, half of the time one that stands beside a boundary of the paper.
    pub fn byte(&mut self) -> u8 {
        const TELLING: &[u8] = &[
            0, 9, 10, 13, 31, 32, 33, b';', b'@', b'.', b',', b'/', b'0', b'9', b':', b'A', b'Z',
            b'[', b'a', b'z', b'{', 126, 127, 128, 159, 160, 161, 254, 255,
        ];
        if self.percent(50) {
            self.pick(TELLING)
        } else {
            self.word() as u8
        }
    }
}
