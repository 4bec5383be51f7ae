//! One source, read by both: where the answers differ, if they do.

use crate::original;
use bevelumber::{Reader, Reading, Refusal, Writer, MAX_LENGTH, MAX_OPEN};
use std::panic::{catch_unwind, AssertUnwindSafe};

/// What a comparison finds.
pub enum Outcome {
    Same,
    /// A difference that docs/DIFFERENCES.md lists, by its number in LISTED.
    Listed(usize),
    Differs(String),
}

/// The differences of docs/DIFFERENCES.md that a comparison meets.
pub const LISTED: [&str; 4] = [
    "over 1,000,000 bytes: refusal 1",
    "not UTF-8: refusal 2",
    "65th '{' or '(' open at one time: refusal 5",
    "\\u or \\U before a character beyond ASCII: the Rust panics, so it read letters in its place",
];

/// Our side, with the memory that is used again.
#[derive(Default)]
pub struct Ours {
    reader: Reader,
    writer: Writer,
}

/// Compares both readings of a source: tree, errors and their sentences, and both texts.
pub fn compare(ours: &mut Ours, source: &[u8]) -> Outcome {
    let reading = match ours.reader.read(source) {
        Ok(reading) => reading,
        Err(refusal) => return refused(refusal, source),
    };
    if source.len() > MAX_LENGTH {
        return Outcome::Differs("a source that is too long was read".into());
    }
    let Ok(text) = std::str::from_utf8(source) else {
        return Outcome::Differs("a source that is not UTF-8 was read".into());
    };
    let Ok(parsed) = catch_unwind(|| original::parse(text)) else {
        return outcome(Outcome::Listed(3), || same_masked(&reading));
    };
    outcome(Outcome::Same, || {
        same_reading(&reading, text, &parsed)?;
        same_texts(&reading, &mut ours.writer, &parsed)
    })
}

/// An outcome, if a comparison finds no difference.
fn outcome(equal: Outcome, compare: impl FnOnce() -> Result<(), String>) -> Outcome {
    match catch_unwind(AssertUnwindSafe(compare)) {
        Ok(Ok(())) => equal,
        Ok(Err(difference)) => Outcome::Differs(difference),
        Err(_) => Outcome::Differs("the original panics, or its answer could not be put in numbers".into()),
    }
}

/// A refusal is right if its cause holds and none before it does.
fn refused(refusal: Refusal, source: &[u8]) -> Outcome {
    let ill_formed = std::str::from_utf8(source).err().map(|error| error.valid_up_to() as u64);
    let long = source.len() > MAX_LENGTH;
    match refusal {
        Refusal::TooLong(length) if long && length == source.len() as u64 => Outcome::Listed(0),
        Refusal::NotUtf8(at) if !long && ill_formed == Some(at) => Outcome::Listed(1),
        Refusal::TooDeep(at) if !long && ill_formed.is_none() && may_be_too_deep(source, at as usize) => Outcome::Listed(2),
        _ => Outcome::Differs(format!("refused: {refusal}")),
    }
}

/// The original has no limit to compare with; but an opening that is one too many has all the others before it.
fn may_be_too_deep(source: &[u8], at: usize) -> bool {
    let opens = |b: &&u8| matches!(b, b'{' | b'(');
    source.get(at).is_some_and(|b| opens(&b)) && source[..at].iter().filter(opens).count() >= MAX_OPEN
}

/// The original panics where the slice that it would show of an escape ends inside a character. With letters in the place of that
/// character it reads the same, but for the end of the slice.
fn same_masked(reading: &Reading<'_>) -> Result<(), String> {
    let masked = masked(reading.source());
    same_reading(reading, &masked, &original::parse(&masked))
}

/// A source with as many x for each character beyond ASCII that ends an escape with too few digits.
fn masked(source: &str) -> String {
    let mut bytes = source.as_bytes().to_vec();
    for (at, _) in source.match_indices('\\') {
        let most = match bytes.get(at + 1) {
            Some(b'u') => 4,
            Some(b'U') => 6,
            _ => continue,
        };
        let digits = bytes[at + 2..].iter().take(most).take_while(|b| b.is_ascii_hexdigit()).count();
        let end = at + 2 + digits;
        let wrong = source[end..].chars().next().filter(|c| digits < most && !c.is_ascii());
        bytes[end..end + wrong.map_or(0, char::len_utf8)].fill(b'x');
    }
    String::from_utf8(bytes).expect("whole characters are masked")
}

/// Compares trees and errors; the original has read the source, or the source masked.
fn same_reading(reading: &Reading<'_>, source: &str, parsed: &original::Parsed<'_>) -> Result<(), String> {
    let (resource, errors) = parsed;
    let marks = original::marks(source, resource);
    same("kinds", reading.tree().kinds(), &marks.kinds[..])?;
    same("places", reading.tree().places(), &marks.places[..])?;
    let ours: Vec<(u32, [u32; 6])> = reading.errors().map(|error| (error.number(), error.group())).collect();
    let theirs: Vec<(u32, [u32; 6])> =
        errors.iter().map(|error| whole_character(reading.source(), original::error(source, error))).collect();
    same("errors", ours, theirs)
}

/// An error 17 whose argument ends after the character that it would end in.
fn whole_character(source: &str, (kind, mut group): (u32, [u32; 6])) -> (u32, [u32; 6]) {
    let last = group[5].saturating_sub(1) as usize;
    if let (17, Some(wrong)) = (kind, source.get(last..).and_then(|rest| rest.chars().next())) {
        group[5] = (last + wrong.len_utf8()) as u32;
    }
    (kind, group)
}

/// Compares the sentences of the errors, and both texts.
fn same_texts(reading: &Reading<'_>, writer: &mut Writer, parsed: &original::Parsed<'_>) -> Result<(), String> {
    let (resource, errors) = parsed;
    let ours: Vec<String> = reading.errors().map(|error| error.to_string()).collect();
    let theirs: Vec<String> = errors.iter().map(|error| error.to_string()).collect();
    same("sentences", ours, theirs)?;
    for with_junk in [false, true] {
        same("texts", writer.write(reading.tree(), with_junk), &original::text(resource, with_junk))?;
    }
    Ok(())
}

fn same<T: PartialEq + std::fmt::Debug>(what: &str, ours: T, theirs: T) -> Result<(), String> {
    if ours == theirs {
        Ok(())
    } else {
        Err(format!("{what}\n  ours     {ours:?}\n  original {theirs:?}"))
    }
}
