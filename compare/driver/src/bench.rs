//! How fast both are on the same files, in one run. A figure is the best of several rounds, each of which measures one thing after the
//! other, in processor time of the thread, so that other programs on the machine count little. What is printed stands in
//! docs/PERFORMANCE.md as it is.

use crate::machine::{in_use, seconds};
use crate::original;
use crate::sources::measured::{calls, cyrillic, junk, nested, ordinary, selects};
use crate::zeroing;
use bevelumber::{Reader, Writer};
use std::hint::black_box;
use std::path::PathBuf;

const ROUNDS: usize = 40;
/// A measurement calls as often as fills this time, in seconds.
const SHORTEST: f64 = 0.0004;

/// The best time of one call.
struct Best {
    calls: usize,
    seconds: f64,
}

impl Default for Best {
    fn default() -> Self {
        Best { calls: 1, seconds: f64::INFINITY }
    }
}

impl Best {
    /// One measurement.
    fn measure<T>(&mut self, mut call: impl FnMut() -> T) {
        loop {
            let start = seconds();
            (0..self.calls).for_each(|_| drop(black_box(call())));
            let took = seconds() - start;
            self.seconds = self.seconds.min(took / self.calls as f64);
            if took >= SHORTEST {
                return;
            }
            self.calls *= 2;
        }
    }

    /// MB a second.
    fn rate(&self, bytes: usize) -> f64 {
        bytes as f64 / self.seconds / 1e6
    }

    /// How many times as fast as another.
    fn over(&self, other: &Best) -> f64 {
        other.seconds / self.seconds
    }
}

/// What is measured of a file.
#[derive(Default)]
struct Figures {
    name: String,
    length: usize,
    /// Our reading call.
    read: Best,
    /// The same without its zeroing.
    bare: Best,
    /// memset of as many bytes as both layouts have.
    memset: Best,
    /// The original's reading, with its allocations.
    parse: Best,
    /// std's check for UTF-8, which the original's caller has to make and our reading includes.
    utf8: Best,
    /// Our writing call, junk written.
    write: Best,
    /// The original's, with its allocations.
    serialize: Best,
    /// The bytes of the normal text, of our two layouts, and of the original's tree and errors.
    text: usize,
    lent: usize,
    held: usize,
}

/// Measures a file that neither refuses.
fn figures(name: String, source: &[u8]) -> Option<Figures> {
    let text = std::str::from_utf8(source).ok()?;
    let (mut reader, mut again, mut writer) = (Reader::new(), Reader::new(), Writer::new());
    let tree = reader.read(source).ok()?.tree();
    let mut layouts = vec![7u8; 4 * (2 + 16 * source.len() + 2 + 7 * source.len())];
    let before = in_use();
    let parsed = original::parse(text);
    let mut figures = Figures { name, length: source.len(), held: in_use() - before, lent: layouts.len(), ..Figures::default() };
    figures.text = writer.write(tree, true).len();
    for _ in 0..ROUNDS {
        figures.read.measure(|| again.read(black_box(source)).is_ok());
        figures.bare.measure(|| zeroing::left_out(|| again.read(black_box(source)).is_ok()));
        figures.memset.measure(|| black_box(&mut layouts).fill(0));
        figures.parse.measure(|| original::parse(black_box(text)));
        figures.utf8.measure(|| std::str::from_utf8(black_box(source)).is_ok());
        figures.write.measure(|| writer.write(black_box(tree), true).len());
        figures.serialize.measure(|| original::text(black_box(&parsed.0), true));
    }
    Some(figures)
}

fn print_reading(rows: &[Figures]) {
    println!("| reading | bytes | ours, MB/s | Rust, MB/s | ratio | with UTF-8 | without zeroing | zeroing, % | memset, GB/s | memory, Rust |");
    println!("|---|---|---|---|---|---|---|---|---|---|");
    for row in rows {
        println!(
            "| {} | {} | {:.0} | {:.0} | {:.2} | {:.2} | {:.2} | {:.0} | {:.0} | {:.1} |",
            row.name,
            row.length,
            row.read.rate(row.length),
            row.parse.rate(row.length),
            row.read.over(&row.parse),
            (row.parse.seconds + row.utf8.seconds) / row.read.seconds,
            row.bare.over(&row.parse),
            100.0 * (1.0 - row.bare.seconds / row.read.seconds),
            row.memset.rate(row.lent) / 1e3,
            row.held as f64 / row.length as f64,
        );
    }
}

fn print_writing(rows: &[Figures]) {
    println!("| writing | bytes of text | ours, MB/s | Rust, MB/s | ratio |");
    println!("|---|---|---|---|---|");
    for row in rows {
        let (ours, original) = (row.write.rate(row.text), row.serialize.rate(row.text));
        println!("| {} | {} | {ours:.0} | {original:.0} | {:.2} |", row.name, row.text, row.write.over(&row.serialize));
    }
}

/// The files that are always measured.
fn sources() -> Vec<(String, Vec<u8>)> {
    let sizes = [("1 KB", 1_000), ("10 KB", 10_000), ("100 KB", 100_000), ("1 MB", 1_000_000)];
    let mut sources: Vec<_> = sizes.map(|(name, size)| (name.to_string(), ordinary(size))).into();
    sources.push(("10 KB, Cyrillic".into(), cyrillic(10_000)));
    sources.push(("10 KB of junk".into(), junk(10_000)));
    sources.extend([1, 4, 16, 64].map(|depth| (format!("placeables {depth} deep"), nested(depth, 10_000))));
    sources.extend([1, 4, 16, 64].map(|depth| (format!("selects {depth} deep"), selects(depth, 10_000))));
    sources.extend([10, 100, 1_000].map(|count| (format!("calls of {count} names"), calls(count, 10_000))));
    sources
}

/// Measures the files that are always measured, and given ones.
pub fn bench(given: Vec<(PathBuf, Vec<u8>)>) {
    let mut sources = sources();
    sources.extend(given.into_iter().map(|(path, bytes)| (path.file_name().unwrap_or_default().to_string_lossy().into(), bytes)));
    let rows: Vec<Figures> = sources.into_iter().filter_map(|(name, source)| figures(name, &source)).collect();
    println!("The best of {ROUNDS} rounds, processor time. The Rust's memchr: {}.\n", env!("MEMCHR"));
    print_reading(&rows);
    println!();
    print_writing(&rows);
}
