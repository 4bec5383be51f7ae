//! Why a call refuses.

use std::fmt;

/// Why a call refuses, with what comes with it. Each is given if and only if its cause holds and no earlier one does.
///
/// ```
/// use bevelumber::{Reader, Refusal};
///
/// let refusal = Reader::new().read(b"a = \xff").unwrap_err();
/// assert_eq!(refusal, Refusal::NotUtf8(4));
/// assert_eq!(refusal.to_string(), "the source is not UTF-8 from byte 4 on");
/// assert_eq!(refusal.number(), 2);
/// ```
#[derive(Clone, Copy, Debug, Eq, Hash, PartialEq)]
pub enum Refusal {
    /// The source has more than 1,000,000 bytes; its length.
    TooLong(u64),
    /// The source is not UTF-8; the offset of the first ill-formed sequence.
    NotUtf8(u64),
    /// The tree slice is too short; the words needed. A [`Reader`](crate::Reader) never gives it.
    TreeTooShort(u64),
    /// The error slice is too short; the words needed. A [`Reader`](crate::Reader) never gives it.
    ErrorsTooShort(u64),
    /// Reading would open a 65th '{' or '(' at one time; that byte's offset.
    TooDeep(u64),
    /// A list of marks is not well formed; the first mark with which no well-formed list can begin, the count if the list ends
    /// early, 4,294,967,295 if its sizes don't fit.
    IllFormed(u64),
    /// The normal text is longer than the output; the bytes needed.
    OutputTooShort(u64),
}

impl Refusal {
    /// What a call answered: acceptance with its value, or a refusal.
    pub(crate) fn of(number: u32, value: u64) -> Result<u64, Refusal> {
        Err(match number {
            0 => return Ok(value),
            1 => Refusal::TooLong(value),
            2 => Refusal::NotUtf8(value),
            3 => Refusal::TreeTooShort(value),
            4 => Refusal::ErrorsTooShort(value),
            5 => Refusal::TooDeep(value),
            6 => Refusal::IllFormed(value),
            7 => Refusal::OutputTooShort(value),
            _ => unreachable!("the calls answer 0 to 7"),
        })
    }

    /// Its number, from 1 on, as docs/CALLS.md has it.
    pub fn number(self) -> u32 {
        match self {
            Refusal::TooLong(_) => 1,
            Refusal::NotUtf8(_) => 2,
            Refusal::TreeTooShort(_) => 3,
            Refusal::ErrorsTooShort(_) => 4,
            Refusal::TooDeep(_) => 5,
            Refusal::IllFormed(_) => 6,
            Refusal::OutputTooShort(_) => 7,
        }
    }

    /// The value that comes with it.
    pub fn value(self) -> u64 {
        match self {
            Refusal::TooLong(value)
            | Refusal::NotUtf8(value)
            | Refusal::TreeTooShort(value)
            | Refusal::ErrorsTooShort(value)
            | Refusal::TooDeep(value)
            | Refusal::IllFormed(value)
            | Refusal::OutputTooShort(value) => value,
        }
    }
}

impl fmt::Display for Refusal {
    fn fmt(&self, f: &mut fmt::Formatter<'_>) -> fmt::Result {
        match self {
            Refusal::TooLong(length) => write!(f, "the source has {length} bytes, and at most 1,000,000 are read"),
            Refusal::NotUtf8(at) => write!(f, "the source is not UTF-8 from byte {at} on"),
            Refusal::TreeTooShort(words) => write!(f, "the tree needs {words} words"),
            Refusal::ErrorsTooShort(words) => write!(f, "the errors need {words} words"),
            Refusal::TooDeep(at) => write!(f, "byte {at} would open a 65th '{{' or '(' at one time"),
            Refusal::IllFormed(4_294_967_295) => write!(f, "the sizes of the list of marks don't fit"),
            Refusal::IllFormed(mark) => write!(f, "the list of marks is not well formed from mark {mark} on"),
            Refusal::OutputTooShort(bytes) => write!(f, "the text needs {bytes} bytes"),
        }
    }
}

impl std::error::Error for Refusal {}
