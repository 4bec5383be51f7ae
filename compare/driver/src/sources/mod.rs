//! Sources to compare: random ones that look like FTL with mistakes in it, mutated ones, nested ones, short ones, and given ones.

mod deep;
pub mod measured;
mod mutate;
mod random;

use deep::deep;
use mutate::mutate;
use random::random;
use std::io::{self, BufRead};
use std::path::{Path, PathBuf};

/// Splitmix64.
pub struct Rng(pub u64);

impl Rng {
    pub fn next(&mut self) -> u64 {
        self.0 = self.0.wrapping_add(0x9e37_79b9_7f4a_7c15);
        let mut z = self.0;
        z = (z ^ (z >> 30)).wrapping_mul(0xbf58_476d_1ce4_e5b9);
        z = (z ^ (z >> 27)).wrapping_mul(0x94d0_49bb_1331_11eb);
        z ^ (z >> 31)
    }

    pub fn below(&mut self, n: usize) -> usize {
        (self.next() % n as u64) as usize
    }

    /// True once in n times.
    pub fn once_in(&mut self, n: usize) -> bool {
        self.below(n) == 0
    }

    pub fn pick<'a, T: ?Sized>(&mut self, from: &[&'a T]) -> &'a T {
        from[self.below(from.len())]
    }
}

/// One source, of a kind that the generator picks. `files` are mutated.
pub fn any(rng: &mut Rng, files: &[Vec<u8>]) -> Vec<u8> {
    match rng.below(20) {
        0..=6 => random(rng),
        7..=11 => {
            let file = random(rng);
            mutate(rng, &file)
        }
        12..=16 if !files.is_empty() => {
            let file = rng.below(files.len());
            mutate(rng, &files[file])
        }
        17 => deep(rng),
        _ => short(rng),
    }
}

/// A few pieces in a row.
fn short(rng: &mut Rng) -> Vec<u8> {
    let mut out = if rng.once_in(2) { b"a = ".to_vec() } else { vec![] };
    for _ in 0..rng.below(10) {
        out.extend_from_slice(rng.pick(&PIECES).as_bytes());
    }
    out
}

/// What stands in FTL.
const PIECES: [&str; 36] = [
    "\n", "\r\n", "\r", " ", "    ", "\t", "{", "}", "{ ", " }", "(", ")", "[", "]", "*", "*[", ".", "#", "##", "# ", "-", "->",
    "=", " = ", "\"", "\\", "\\u", ":", ",", "$", "é", "日", "a", "F(", "\n.", "\n {",
];

/// The files that the paths name, and the .ftl files below folders, in order.
pub fn files(paths: &[String]) -> io::Result<Vec<(PathBuf, Vec<u8>)>> {
    let mut found = vec![];
    for path in paths {
        collect(Path::new(path), true, &mut found)?;
    }
    found.sort();
    found.into_iter().map(|path| std::fs::read(&path).map(|bytes| (path, bytes))).collect()
}

fn collect(path: &Path, named: bool, found: &mut Vec<PathBuf>) -> io::Result<()> {
    if path.is_dir() {
        for entry in std::fs::read_dir(path)? {
            collect(&entry?.path(), false, found)?;
        }
    } else if named || path.extension().is_some_and(|end| end == "ftl") {
        found.push(path.to_path_buf());
    }
    Ok(())
}

/// The sources on standard input, one a line, in hex.
pub fn lines() -> Result<Vec<Vec<u8>>, String> {
    let line = |line: io::Result<String>| {
        let line = line.map_err(|e| e.to_string())?;
        unhex(line.trim()).ok_or(format!("not in hex: {line}"))
    };
    io::stdin().lock().lines().map(line).collect()
}

fn unhex(digits: &str) -> Option<Vec<u8>> {
    let byte = |at: usize| u8::from_str_radix(digits.get(at..at + 2)?, 16).ok();
    (0..digits.len()).step_by(2).map(byte).collect()
}
