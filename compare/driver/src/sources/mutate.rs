//! Mutated parts of files.

use super::{Rng, PIECES};
use std::ops::Range;

/// A window of whole lines out of a file, with one to five mutations. Now and then a mutation breaks the UTF-8.
pub fn mutate(rng: &mut Rng, file: &[u8]) -> Vec<u8> {
    let mut lines: Vec<&[u8]> = file.split_inclusive(|&b| b == b'\n').collect();
    let most = 1 + rng.below(40);
    if lines.len() > most {
        let start = rng.below(lines.len() - most);
        lines = lines[start..start + most].to_vec();
    }
    let mut out = lines.concat();
    for _ in 0..1 + rng.below(5) {
        if !out.is_empty() {
            mutation(rng, &mut out);
        }
    }
    out
}

fn mutation(rng: &mut Rng, out: &mut Vec<u8>) {
    let at = rng.below(out.len());
    let here = if rng.once_in(40) { at..at + 1 } else { character(out, at) };
    let line = line(out, here.start);
    let piece = rng.pick(&PIECES).as_bytes().to_vec();
    match rng.below(12) {
        0..=2 => drop(out.splice(here.start..here.start, piece)),
        3 | 4 => drop(out.splice(here, piece)),
        5 | 6 => drop(out.drain(here)),
        7 => repeat(out, here),
        8 => drop(out.drain(line)),
        9 => repeat(out, line),
        10 => drop(out.splice(line.start..line.start, piece)),
        _ => out.truncate(here.end),
    }
}

/// The character that a byte belongs to.
fn character(bytes: &[u8], at: usize) -> Range<usize> {
    let goes_on = |&b: &u8| b & 0xc0 == 0x80;
    let start = at - bytes[..=at].iter().rev().take_while(|b| goes_on(b)).count().min(at);
    start..start + 1 + bytes[start + 1..].iter().take_while(|b| goes_on(b)).count()
}

/// The line that a byte belongs to, with its line feed.
fn line(bytes: &[u8], at: usize) -> Range<usize> {
    let start = bytes[..at].iter().rposition(|&b| b == b'\n').map_or(0, |p| p + 1);
    let end = bytes[at..].iter().position(|&b| b == b'\n').map_or(bytes.len(), |p| at + p + 1);
    start..end
}

/// Puts a copy before a part.
fn repeat(bytes: &mut Vec<u8>, part: Range<usize>) {
    let copy = bytes[part.clone()].to_vec();
    bytes.splice(part.start..part.start, copy);
}
