//! The proved library against the original: whether both answer the same, and how fast they are. See the script `run` beside src/.

mod bench;
mod hunt;
mod machine;
mod original;
mod same;
mod sources;
mod zeroing;

use hunt::Hunt;
use std::path::PathBuf;
use std::process::ExitCode;

const USAGE: &str = "\
usage: run [OPTION..] same [COUNT [SEED [PATH..]]]   compare COUNT made sources (2,000,000) and the files that the paths name (the
                                                     published fixtures), which are mutated too
       run [OPTION..] files PATH..                   compare files, and the .ftl files below folders
       run [OPTION..] lines                          compare the sources on standard input, one a line, in hex
       run [OPTION..] bench [PATH..]                 measure, on files of ordinary messages and on these
options: --original DIR   the original's sources (../shared/docs/src)
         --memchr DIR     the sources of the memchr crate (Debian's, if it is installed)
         --threads N      one for each processor";

/// What the command line says: how many threads, and the words that are no options.
struct Line {
    threads: usize,
    words: Vec<String>,
}

impl Line {
    fn parse(mut arguments: impl Iterator<Item = String>) -> Result<Self, String> {
        let mut line = Line { threads: std::thread::available_parallelism().map_or(1, |n| n.get()), words: vec![] };
        while let Some(word) = arguments.next() {
            if word == "--threads" {
                let n = arguments.next().ok_or("--threads needs a number")?;
                line.threads = number(&n)? as usize;
            } else {
                line.words.push(word);
            }
        }
        Ok(line)
    }

    /// A word that is a number, if it is there.
    fn number(&self, at: usize, default: u64) -> Result<u64, String> {
        self.words.get(at).map_or(Ok(default), |word| number(word))
    }

    /// The words from one on.
    fn from(&self, at: usize) -> Vec<String> {
        self.words.get(at..).unwrap_or_default().to_vec()
    }

    fn run(self) -> Result<bool, String> {
        let hunt = |given, made, seed| Ok(Hunt { given, made, seed, threads: self.threads }.run());
        match self.words.first().map(String::as_str) {
            Some("same") => {
                let (made, seed) = (self.number(1, 2_000_000)? as usize, self.number(2, 1)?);
                let fixtures = || std::env::var("FIXTURES").into_iter().collect();
                let paths = if self.words.len() > 3 { self.from(3) } else { fixtures() };
                hunt(bytes(files(paths)?), made, seed)
            }
            Some("files") => hunt(bytes(files(self.from(1))?), 0, 0),
            Some("lines") => hunt(sources::lines()?, 0, 0),
            Some("bench") => {
                bench::bench(files(self.from(1))?);
                Ok(true)
            }
            _ => Err(USAGE.into()),
        }
    }
}

fn files(paths: Vec<String>) -> Result<Vec<(PathBuf, Vec<u8>)>, String> {
    sources::files(&paths).map_err(|e| format!("{paths:?}: {e}"))
}

fn number(word: &str) -> Result<u64, String> {
    word.replace(['_', ','], "").parse().map_err(|e| format!("{word}: {e}"))
}

fn bytes(files: Vec<(PathBuf, Vec<u8>)>) -> Vec<Vec<u8>> {
    files.into_iter().map(|(_, bytes)| bytes).collect()
}

fn main() -> ExitCode {
    match Line::parse(std::env::args().skip(1)).and_then(Line::run) {
        Ok(true) => ExitCode::SUCCESS,
        Ok(false) => ExitCode::FAILURE,
        Err(what) => {
            eprintln!("{what}");
            ExitCode::from(2)
        }
    }
}
