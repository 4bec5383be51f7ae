//! The writing call, with memory that is kept from one text to the next.

use crate::ffi;
use crate::marks::Tree;
use crate::refusal::Refusal;

/// Writes normal texts. It owns the output, which grows to the longest text so far.
///
/// ```
/// use bevelumber::{Reader, Writer};
///
/// let (mut reader, mut writer) = (Reader::new(), Writer::new());
/// let reading = reader.read(b"a=b\n  c\nbroken\n").unwrap();
/// assert_eq!(writer.write(reading.tree(), false), "a =\n    b\n    c\n");
/// assert_eq!(writer.write(reading.tree(), true), "a =\n    b\n    c\nbroken\n");
/// ```
#[derive(Debug, Default)]
pub struct Writer {
    output: Vec<u8>,
}

impl Writer {
    /// A writer that owns no memory yet.
    pub fn new() -> Self {
        Writer::default()
    }

    /// The normal text of a tree that was read, with its junk if so asked. Such a tree is well formed over its source: that is
    /// proved, so nothing but the output's length could be refused.
    pub fn write(&mut self, tree: Tree<'_>, with_junk: bool) -> &str {
        let text = self.write_words(tree.source().as_bytes(), tree.words(), with_junk);
        text.expect("a tree that was read is well formed")
    }

    /// The normal text of any list of marks over a source, or why it is refused: the source is too long or not UTF-8, or the list is
    /// not well formed.
    ///
    /// ```
    /// use bevelumber::{Refusal, Writer};
    ///
    /// // a message without a pattern: count 4, capacity 4, kinds, places
    /// let words = [4, 4, 1, 9, 109, 101, 0, 2, 3, 0];
    /// assert_eq!(Writer::new().write_words(b"x y", &words, false), Ok("y =\n"));
    /// // a mark that opens nothing
    /// assert_eq!(Writer::new().write_words(b"x y", &[1, 1, 99, 0], false), Err(Refusal::IllFormed(0)));
    /// ```
    pub fn write_words(&mut self, source: &[u8], words: &[u32], with_junk: bool) -> Result<&str, Refusal> {
        if self.output.len() < source.len() {
            self.output.resize(2 * source.len(), 0);
        }
        let length = match self.call(source, words, with_junk) {
            Err(Refusal::OutputTooShort(length)) => {
                self.output.resize(length as usize, 0);
                self.call(source, words, with_junk)?
            }
            answer => answer?,
        };
        let text = &self.output[..length as usize];
        // What an accepted call wrote is UTF-8: the theorem output-is-utf8 (crates/calls/specs/Theorem).
        Ok(unsafe { std::str::from_utf8_unchecked(text) })
    }

    fn call(&mut self, source: &[u8], words: &[u32], with_junk: bool) -> Result<u64, Refusal> {
        let mut returned = 0;
        // Slices are never null, and the output overlaps neither the source nor the words.
        let number = unsafe {
            ffi::bevelumber_write(
                source.as_ptr(),
                source.len(),
                words.as_ptr(),
                words.len(),
                self.output.as_mut_ptr(),
                self.output.len(),
                with_junk,
                &mut returned,
            )
        };
        Refusal::of(number, returned)
    }
}
