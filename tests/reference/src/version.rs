//! The two versions of a file (document 02, request 5).

use crate::profile::is_text;
use crate::{refuse, Refusal};

/// "Read and write both."
#[derive(Clone, Copy, Debug, PartialEq, Eq, Hash)]
pub enum Version {
    V5,
    V7,
}

impl Version {
    pub const ALL: [Version; 2] = [Version::V5, Version::V7];

    pub fn number(self) -> u32 {
        match self {
            Version::V5 => 5,
            Version::V7 => 7,
        }
    }

    /// What a header has in 010.6.
    pub fn mark(self) -> &'static [u8] {
        match self {
            Version::V5 => b"5",
            Version::V7 => b"7",
        }
    }

    /// "22, a line call told neither 5 nor 7, place 0, before all others."
    pub fn told(number: u32) -> Result<Version, Refusal> {
        match number {
            5 => Ok(Version::V5),
            7 => Ok(Version::V7),
            _ => refuse(22, 0),
        }
    }

    /// "The version on the header decides for the whole file": 7 where the first line, as far as its
    /// text goes, is a 010 line with `7` in its field 6; "a file header with neither is judged as 5".
    pub fn of_file(file: &[u8]) -> Version {
        let text = file.split(|byte| !is_text(*byte)).next().unwrap_or(&[]);
        let parts: Vec<&[u8]> = text.split(|byte| *byte == b';').collect();
        match (parts[0], parts.get(6).copied()) {
            (b"010", Some(b"7")) => Version::V7,
            _ => Version::V5,
        }
    }
}
