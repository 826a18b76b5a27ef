//! A day's tracking numbers at once.

use std::iter::FusedIterator;
use std::{slice, vec};

use peliranopi_sys as sys;

use crate::limits::TRACKING_LEN;
use crate::refusal::{accepted, Reason, Refusal};

/// Checks a day's tracking numbers, which stand in one buffer, 15 bytes after 15 bytes, and answers
/// how many passed.
///
/// Each number gets one byte of the answers: 0 where it passes, else 17 or 18, as
/// [`check_number`](crate::check_number) would refuse it alone. The bytes behind the last number's stay
/// as they were; on a refusal all of them do. [`check_each`] gives the answers as values.
///
/// ```
/// use peliranopi::check_numbers;
///
/// let mut answers = [99; 4];
/// let numbers = b"09980000020041F09980000020041G09980000020041f";
/// assert_eq!(check_numbers(numbers, &mut answers), Ok(1));
/// assert_eq!(answers, [0, 18, 17, 99]);
/// ```
///
/// A length that is no multiple of 15 is refused first, then too few answer bytes:
///
/// ```
/// use peliranopi::{check_numbers, Reason};
///
/// let refused = check_numbers(b"09980000020041F0998", &mut []).unwrap_err();
/// assert_eq!((refused.why, refused.place), (Reason::WrongLength, 0));
/// let refused = check_numbers(b"09980000020041F", &mut []).unwrap_err();
/// assert_eq!((refused.why, refused.place), (Reason::OutputTooShort, 0));
/// ```
pub fn check_numbers(numbers: &[u8], answers: &mut [u8]) -> Result<usize, Refusal> {
    let (mut passed, mut place) = (0, 0);
    // SAFETY: each pointer comes with the length of its own slice or points to one local number;
    // the answers and the numbers behind pointers are borrowed for this call alone.
    let number = unsafe {
        sys::peliranopi_check_numbers(
            numbers.as_ptr(),
            numbers.len(),
            answers.as_mut_ptr(),
            answers.len(),
            &mut passed,
            &mut place,
        )
    };
    accepted(number, place)?;
    Ok(passed)
}

/// Checks a day's tracking numbers by one call, and gives the answer of each.
///
/// The call as a whole cannot be refused: the numbers have their length, and there is a byte for the
/// answer of each.
///
/// ```
/// use peliranopi::{check_each, Reason};
///
/// let numbers = [*b"09980000020041F", *b"09980000020041G", *b"09980000020041f"];
/// let answers = check_each(&numbers);
/// assert_eq!(answers.passed(), 1);
/// for (number, answer) in numbers.iter().zip(&answers) {
///     if let Err(why) = answer {
///         println!("{}: {why}", String::from_utf8_lossy(number));
///     }
/// }
/// let due = [Ok(()), Err(Reason::WrongCheck), Err(Reason::WrongSymbol)];
/// assert!(answers.into_iter().eq(due));
/// ```
pub fn check_each(numbers: &[[u8; TRACKING_LEN]]) -> Answers {
    let mut bytes = vec![UNANSWERED; numbers.len()];
    let passed = check_numbers(numbers.as_flattened(), &mut bytes);
    Answers {
        bytes,
        passed: passed.map_err(|refused| refused.why),
    }
}

/// What an answer holds before the call. The proved library writes each of them; what another one left
/// out would be an error, and not a number that passes.
const UNANSWERED: u8 = u8::MAX;

/// The answer of each of a day's numbers, in their order; [`check_each`] gives them.
///
/// An answer is `Ok` where the number passes, else why it does not: [`Reason::WrongSymbol`] or
/// [`Reason::WrongCheck`].
#[derive(Clone, Debug, PartialEq, Eq, Hash)]
pub struct Answers {
    bytes: Vec<u8>,
    /// How many passed. Should another library refuse the call, its reason is every number's.
    passed: Result<usize, Reason>,
}

impl Answers {
    /// How many numbers passed, as the library counted them.
    ///
    /// ```
    /// use peliranopi::check_each;
    ///
    /// let answers = check_each(&[*b"09980000020041F", *b"09980000020041G"]);
    /// assert_eq!((answers.passed(), answers.len()), (1, 2));
    /// ```
    pub fn passed(&self) -> usize {
        self.passed.unwrap_or(0)
    }

    /// How many numbers were checked.
    pub fn len(&self) -> usize {
        self.bytes.len()
    }

    /// Whether there was no number.
    ///
    /// ```
    /// use peliranopi::check_each;
    ///
    /// let answers = check_each(&[]);
    /// assert!(answers.is_empty());
    /// assert_eq!(answers.passed(), 0);
    /// ```
    pub fn is_empty(&self) -> bool {
        self.bytes.is_empty()
    }

    /// The answers, in the order of the numbers.
    ///
    /// ```
    /// use peliranopi::{check_each, Reason};
    ///
    /// let answers = check_each(&[*b"09980000020041F", *b"09980000020041G"]);
    /// let wrong = answers.iter().position(|answer| answer == Err(Reason::WrongCheck));
    /// assert_eq!(wrong, Some(1));
    /// ```
    pub fn iter(&self) -> AnswersIter<'_> {
        AnswersIter {
            bytes: self.bytes.iter(),
            refused: self.passed.err(),
        }
    }
}

/// What the byte of a number says, unless the call was refused.
fn answer(byte: u8, refused: Option<Reason>) -> Result<(), Reason> {
    match refused {
        Some(why) => Err(why),
        None => accepted(byte.into(), 0).map_err(|refused| refused.why),
    }
}

/// Answers that are borrowed, in the order of the numbers; [`Answers::iter`] gives them.
#[derive(Clone, Debug)]
pub struct AnswersIter<'a> {
    bytes: slice::Iter<'a, u8>,
    refused: Option<Reason>,
}

impl Iterator for AnswersIter<'_> {
    type Item = Result<(), Reason>;

    fn next(&mut self) -> Option<Result<(), Reason>> {
        let byte = self.bytes.next()?;
        Some(answer(*byte, self.refused))
    }

    fn size_hint(&self) -> (usize, Option<usize>) {
        self.bytes.size_hint()
    }
}

impl ExactSizeIterator for AnswersIter<'_> {}

impl FusedIterator for AnswersIter<'_> {}

impl<'a> IntoIterator for &'a Answers {
    type Item = Result<(), Reason>;
    type IntoIter = AnswersIter<'a>;

    fn into_iter(self) -> AnswersIter<'a> {
        self.iter()
    }
}

/// Answers that are owned, in the order of the numbers.
#[derive(Clone, Debug)]
pub struct AnswersIntoIter {
    bytes: vec::IntoIter<u8>,
    refused: Option<Reason>,
}

impl Iterator for AnswersIntoIter {
    type Item = Result<(), Reason>;

    fn next(&mut self) -> Option<Result<(), Reason>> {
        let byte = self.bytes.next()?;
        Some(answer(byte, self.refused))
    }

    fn size_hint(&self) -> (usize, Option<usize>) {
        self.bytes.size_hint()
    }
}

impl ExactSizeIterator for AnswersIntoIter {}

impl FusedIterator for AnswersIntoIter {}

impl IntoIterator for Answers {
    type Item = Result<(), Reason>;
    type IntoIter = AnswersIntoIter;

    fn into_iter(self) -> AnswersIntoIter {
        AnswersIntoIter {
            bytes: self.bytes.into_iter(),
            refused: self.passed.err(),
        }
    }
}

#[cfg(test)]
mod tests {
    use super::*;

    fn of(answers: Answers) -> Vec<Result<(), u32>> {
        let borrowed: Vec<_> = answers.iter().collect();
        assert_eq!(borrowed.len(), answers.len());
        let owned: Vec<_> = answers.into_iter().collect();
        assert_eq!(borrowed, owned);
        let numbered = owned.into_iter().map(|one| one.map_err(Reason::number));
        numbered.collect()
    }

    /// A library of another version may answer other numbers, leave answers out or refuse the call.
    #[test]
    fn nothing_passes_that_the_library_did_not_answer() {
        let bytes = vec![0, 17, 18, 200, UNANSWERED];
        let answers = Answers {
            bytes: bytes.clone(),
            passed: Ok(1),
        };
        assert_eq!(answers.passed(), 1);
        assert_eq!(of(answers), [Ok(()), Err(17), Err(18), Err(200), Err(255)]);

        let why = accepted(1_000, 0).unwrap_err().why;
        let answers = Answers {
            bytes,
            passed: Err(why),
        };
        assert_eq!(answers.passed(), 0);
        assert_eq!(of(answers), [Err(1_000); 5]);
    }
}
