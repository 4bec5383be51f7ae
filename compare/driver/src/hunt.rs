//! Many sources, compared in parallel: a progress line meanwhile, and the smallest difference at the end.

use crate::same::{compare, Ours, Outcome, LISTED};
use crate::sources::{any, Rng};
use std::io::{IsTerminal, Write};
use std::sync::atomic::{AtomicUsize, Ordering};
use std::sync::Mutex;
use std::thread::{Builder, Scope, ScopedJoinHandle};
use std::time::{Duration, Instant};

/// Sources that a thread takes at a time. Made ones have a random state for each row, so that they don't depend on the threads.
const ROW: usize = 100;
/// Enough for the original's recursion through 64 openings, in which each level takes several frames.
const STACK: usize = 64 << 20;

/// What is to be compared: given sources, and `made` ones, for which the given ones are mutated too.
pub struct Hunt {
    pub given: Vec<Vec<u8>>,
    pub made: usize,
    pub seed: u64,
    pub threads: usize,
}

/// What was compared so far.
#[derive(Default)]
struct Tally {
    done: AtomicUsize,
    listed: [AtomicUsize; LISTED.len()],
    differences: AtomicUsize,
    /// The shortest source that differs.
    smallest: Mutex<Option<Vec<u8>>>,
}

impl Tally {
    fn add(&self, ours: &mut Ours, source: &[u8]) {
        match compare(ours, source) {
            Outcome::Same => {}
            Outcome::Listed(number) => drop(self.listed[number].fetch_add(1, Ordering::Relaxed)),
            Outcome::Differs(_) => {
                self.differences.fetch_add(1, Ordering::Relaxed);
                let mut smallest = self.smallest.lock().unwrap();
                if smallest.as_ref().is_none_or(|other| source.len() < other.len()) {
                    *smallest = Some(source.to_vec());
                }
            }
        }
        self.done.fetch_add(1, Ordering::Relaxed);
    }
}

impl Hunt {
    /// Compares all; whether no difference but listed ones was found.
    pub fn run(&self) -> bool {
        // The original panics on some sources; the comparison says so.
        std::panic::set_hook(Box::new(|_| {}));
        let (tally, next, start) = (Tally::default(), AtomicUsize::new(0), Instant::now());
        std::thread::scope(|scope| {
            let threads: Vec<_> = (0..self.threads).map(|_| spawn(scope, || self.work(&next, &tally))).collect();
            self.progress(&tally, start, || threads.iter().all(|thread| thread.is_finished()));
        });
        self.report(&tally, start.elapsed());
        if let Some(source) = tally.smallest.lock().unwrap().take() {
            // Shorter sources, too, may nest deep.
            std::thread::scope(|scope| spawn(scope, || show(source)).join().expect("the difference is shown"));
        }
        tally.differences.load(Ordering::Relaxed) == 0
    }

    /// What a thread does: one row after the other, the given ones first.
    fn work(&self, next: &AtomicUsize, tally: &Tally) {
        let mut ours = Ours::default();
        let rows = self.given.len().div_ceil(ROW);
        loop {
            let row = next.fetch_add(1, Ordering::Relaxed);
            if let Some(sources) = self.given.chunks(ROW).nth(row) {
                sources.iter().for_each(|source| tally.add(&mut ours, source));
            } else if (row - rows) * ROW < self.made {
                self.make(row - rows, |source| tally.add(&mut ours, &source));
            } else {
                return;
            }
        }
    }

    /// The made sources of a row.
    fn make(&self, row: usize, mut each: impl FnMut(Vec<u8>)) {
        let mut rng = Rng(self.seed ^ (row as u64).wrapping_mul(0xd134_2543_de82_ef95));
        for _ in 0..ROW.min(self.made - row * ROW) {
            each(any(&mut rng, &self.given));
        }
    }

    /// A line on a terminal that is written over, elsewhere a line now and then.
    fn progress(&self, tally: &Tally, start: Instant, finished: impl Fn() -> bool) {
        let (every, end) = if std::io::stderr().is_terminal() { (1, "\r") } else { (100, "\n") };
        let all = self.given.len() + self.made;
        for turn in 1.. {
            std::thread::sleep(Duration::from_millis(200));
            if finished() {
                return;
            }
            if turn % every == 0 {
                let done = tally.done.load(Ordering::Relaxed);
                let rate = done as f64 / start.elapsed().as_secs_f64();
                let differences = tally.differences.load(Ordering::Relaxed);
                eprint!("{done} of {all} sources, {rate:.0} a second, {differences} differences   {end}");
                std::io::stderr().flush().ok();
            }
        }
    }

    fn report(&self, tally: &Tally, took: Duration) {
        let number = |count: &AtomicUsize| count.load(Ordering::Relaxed);
        let (done, given) = (number(&tally.done), self.given.len());
        println!("{done} sources compared ({given} given, {} made) in {:.0} s", self.made, took.as_secs_f64());
        for (what, count) in LISTED.iter().zip(&tally.listed) {
            println!("{:>9} {what}", number(count));
        }
        println!("{:>9} other differences", number(&tally.differences));
    }
}

/// A thread with room for the original.
fn spawn<'s, T: Send + 's>(scope: &'s Scope<'s, '_>, work: impl FnOnce() -> T + Send + 's) -> ScopedJoinHandle<'s, T> {
    Builder::new().stack_size(STACK).spawn_scoped(scope, work).expect("a thread")
}

/// Prints a difference, of the smallest source that leaving out parts gives.
fn show(mut source: Vec<u8>) {
    let mut ours = Ours::default();
    let mut difference = |source: &[u8]| match compare(&mut ours, source) {
        Outcome::Differs(what) => Some(what),
        _ => None,
    };
    let mut size = source.len();
    while size > 0 {
        if !leave_out(&mut source, size, |shorter| difference(shorter).is_some()) {
            size /= 2;
        }
    }
    let hex: String = source.iter().map(|b| format!("{b:02x}")).collect();
    println!("smallest: {:?}\nin hex: {hex}", String::from_utf8_lossy(&source));
    println!("differs: {}", difference(&source).unwrap_or_default());
}

/// Leaves out parts of a size for as long as a difference stays; whether any was left out.
fn leave_out(source: &mut Vec<u8>, size: usize, mut differs: impl FnMut(&[u8]) -> bool) -> bool {
    let before = source.len();
    let mut at = 0;
    while at + size <= source.len() {
        let shorter = [&source[..at], &source[at + size..]].concat();
        if differs(&shorter) {
            *source = shorter;
        } else {
            at += size;
        }
    }
    source.len() < before
}
