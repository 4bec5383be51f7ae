//! The reading call, with memory that is kept from one reading to the next.

use crate::entries::Entries;
use crate::errors::Error;
use crate::ffi;
use crate::marks::{Nodes, Tree};
use crate::refusal::Refusal;
use crate::MAX_LENGTH;

/// Reads sources. It owns the slices that a reading is written to, as long as the longest source so far needs: 92 bytes for each byte
/// of it.
#[derive(Debug, Default)]
pub struct Reader {
    tree: Vec<u32>,
    errors: Vec<u32>,
}

impl Reader {
    /// A reader that owns no memory yet.
    pub fn new() -> Self {
        Reader::default()
    }

    /// A reader with memory for sources of up to `length` bytes.
    pub fn with_capacity(length: usize) -> Self {
        let mut reader = Reader::new();
        reader.grow(length.min(MAX_LENGTH));
        reader
    }

    /// Reads a source: its marks and errors, or why it is refused.
    ///
    /// ```
    /// let mut reader = bevelumber::Reader::new();
    /// assert_eq!(reader.read(b"a = b\n").unwrap().tree().len(), 8);
    /// assert!(reader.read(b"").unwrap().tree().is_empty());
    /// ```
    pub fn read<'r>(&'r mut self, source: &'r [u8]) -> Result<Reading<'r>, Refusal> {
        self.grow(source.len());
        let mut returned = 0;
        // Vectors are never null, and none of them overlaps another or the source.
        let number = unsafe {
            ffi::bevelumber_read(
                source.as_ptr(),
                source.len(),
                self.tree.as_mut_ptr(),
                self.tree.len(),
                self.errors.as_mut_ptr(),
                self.errors.len(),
                &mut returned,
            )
        };
        Refusal::of(number, returned)?;
        // A source that is not UTF-8 is refused: that is proved.
        let source = unsafe { std::str::from_utf8_unchecked(source) };
        Ok(Reading { tree: Tree::of(source, &self.tree), errors: &self.errors, source })
    }

    /// The entries of a source, one after the other; no list of marks is kept.
    ///
    /// ```
    /// let mut reader = bevelumber::Reader::new();
    /// let entries: Vec<_> = reader.entries(b"# c\na = b\nbroken").collect();
    /// assert_eq!(entries, [0..3, 4..10, 10..16]);
    /// ```
    pub fn entries<'r>(&'r mut self, source: &'r [u8]) -> Entries<'r> {
        self.grow(source.len());
        Entries::of(source, &mut self.tree)
    }

    /// Room for a source of this length. A source that is too long is refused whatever the slices are. What they hold doesn't matter to
    /// a reading, so nothing is moved.
    fn grow(&mut self, length: usize) {
        if length > MAX_LENGTH {
            return;
        }
        let (tree, errors) = (2 + 16 * length, 2 + 7 * length);
        if self.tree.len() < tree {
            self.tree = Vec::new();
            self.tree = vec![0; tree];
        }
        if self.errors.len() < errors {
            self.errors = Vec::new();
            self.errors = vec![0; errors];
        }
    }
}

/// What a source was read as. It borrows the source and the reader.
#[derive(Clone, Copy, Debug)]
pub struct Reading<'r> {
    source: &'r str,
    tree: Tree<'r>,
    errors: &'r [u32],
}

impl<'r> Reading<'r> {
    /// The source, which is UTF-8.
    pub fn source(&self) -> &'r str {
        self.source
    }

    /// The marks.
    pub fn tree(&self) -> Tree<'r> {
        self.tree
    }

    /// The nodes at the top: messages, terms, comments and junk, in order.
    pub fn nodes(&self) -> Nodes<'r> {
        self.tree.nodes()
    }

    /// The errors in order, one for each junk.
    pub fn errors(&self) -> impl ExactSizeIterator<Item = Error<'r>> + 'r {
        let Reading { source, errors, .. } = *self;
        (0..errors[0] as usize).map(move |i| Error::of(source, errors, i))
    }
}
