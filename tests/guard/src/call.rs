//! A call of the static library, and all that is seen of its answer.

use reference::generate::{CarryCall, DayCall, IssueCall, LineCall, PurposeCall, WriterCall};

/// A call with the sizes of what is lent.
#[derive(Clone, Debug)]
pub enum Call {
    Judge {
        file: Vec<u8>,
        countries: Vec<u8>,
        words: usize,
    },
    ReadLine {
        version: u32,
        file: Vec<u8>,
        offset: usize,
    },
    FindField(LineCall),
    WriteLine(WriterCall),
    WritePurpose(PurposeCall),
    CheckNumber {
        symbols: Vec<u8>,
    },
    CheckNumbers(DayCall),
    IssueNumber(IssueCall),
    NextCarry(CarryCall),
    CheckIban {
        symbols: Vec<u8>,
    },
    CheckIdentcode {
        code: Vec<u8>,
    },
    ReadIdentcode {
        code: Vec<u8>,
    },
    IssueIdentcode(IssueCall),
}

impl Call {
    /// The call for a message, of which a long file is cut.
    pub fn shown(&self) -> String {
        format!("{self:?}").chars().take(4_000).collect()
    }
}

/// What a lent word and a lent byte hold before a call.
pub const WORD: u32 = 0x5A5A_5A5A;
pub const BYTE: u8 = b'.';

/// A call's answer, every number behind a pointer, and what the lent buffers hold afterwards.
#[derive(Debug, PartialEq)]
pub struct Answer {
    pub function: &'static str,
    /// 0 for acceptance.
    pub refusal: u32,
    pub place: usize,
    /// The other numbers, in the order of the C header.
    pub numbers: Vec<u64>,
    pub list: Vec<u32>,
    pub output: Vec<u8>,
}
