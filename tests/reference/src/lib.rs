//! A second, independent implementation of document 01 and of the requests 1, 2, 4, 5 and 6 of
//! document 02, for tests only.
//!
//! It is written from the paper alone, in ways that are easy to believe. Nothing here is proved: it
//! is a partner to compare with. `generate` draws the inputs for such comparisons.
//!
//! ```
//! let file = b"010;\r\n";
//! let mut list = [0; 8];
//! let answer = reference::file::judge(file, b"", &mut list);
//! assert_eq!(answer, Err(reference::Refusal { number: 5, place: 0 }));
//! ```

pub mod file;
pub mod generate;
pub mod identcode;
pub mod line;
pub mod numbers;
pub mod profile;
pub mod purpose;
pub mod version;
pub mod writer;

/// A number of the refusal table and its place.
#[derive(Clone, Copy, Debug, PartialEq, Eq, Hash)]
pub struct Refusal {
    pub number: u32,
    pub place: usize,
}

/// Shorthand for a refusal as an error.
pub(crate) fn refuse<T>(number: u32, place: usize) -> Result<T, Refusal> {
    Err(Refusal { number, place })
}
