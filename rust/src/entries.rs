//! A source entry by entry.

use crate::ffi;
use std::iter::FusedIterator;
use std::ops::Range;

/// The entries of a source, each read when it is asked for: from its first byte to where its reading stopped, for junk to its end. An
/// entry is a message, a term, a comment, attached ones too, or junk.
///
/// None is left at the end, from the entry that would open a 65th '{' or '(' on, and where the source has more than 1,000,000 bytes or is
/// not UTF-8. [`Reader::entries`](crate::Reader::entries) gives them.
#[derive(Debug)]
pub struct Entries<'r> {
    source: &'r [u8],
    /// As many words as a reading of the source needs.
    tree: &'r mut [u32],
    at: u64,
}

impl<'r> Entries<'r> {
    pub(crate) fn of(source: &'r [u8], tree: &'r mut [u32]) -> Self {
        let at = unsafe { ffi::bevelumber_first_place(source.as_ptr(), source.len()) };
        Entries { source, tree, at }
    }
}

impl Iterator for Entries<'_> {
    type Item = Range<usize>;

    fn next(&mut self) -> Option<Range<usize>> {
        let (mut start, mut stop) = (0, 0);
        // Slices are never null, and the tree doesn't overlap the source.
        let number = unsafe {
            ffi::bevelumber_next_entry(
                self.source.as_ptr(),
                self.source.len(),
                self.at,
                self.tree.as_mut_ptr(),
                self.tree.len(),
                &mut start,
                &mut stop,
            )
        };
        assert_eq!(number, 0, "the tree has the words needed");
        self.at = stop;
        (start < stop).then_some(start as usize..stop as usize)
    }
}

impl FusedIterator for Entries<'_> {}
