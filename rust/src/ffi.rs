//! The functions of the static library, as include/bevelumber.h documents them.

#[link(name = "exports", kind = "static")]
extern "C" {
    pub fn bevelumber_read(
        source: *const u8,
        source_length: usize,
        tree: *mut u32,
        tree_length: usize,
        errors: *mut u32,
        errors_length: usize,
        returned: *mut u64,
    ) -> u32;

    pub fn bevelumber_write(
        source: *const u8,
        source_length: usize,
        tree: *const u32,
        tree_length: usize,
        output: *mut u8,
        output_length: usize,
        with_junk: bool,
        returned: *mut u64,
    ) -> u32;

    pub fn bevelumber_first_place(source: *const u8, source_length: usize) -> u64;

    pub fn bevelumber_next_entry(
        source: *const u8,
        source_length: usize,
        at: u64,
        tree: *mut u32,
        tree_length: usize,
        start: *mut u64,
        stop: *mut u64,
    ) -> u32;
}

#[cfg(test)]
mod tests {
    //! What the calls leave in memory that is lent, where a [`Reader`](crate::Reader) or a [`Writer`](crate::Writer) would not show it.

    use super::*;

    /// Lends slices of so many words, which hold nothing but 7s: the answer, its value and the slices.
    fn read(source: &[u8], tree: usize, errors: usize) -> (u32, u64, Vec<u32>, Vec<u32>) {
        let (mut tree, mut errors, mut returned) = (vec![7; tree], vec![7; errors], 7);
        let (trees, rows) = (tree.as_mut_ptr(), errors.as_mut_ptr());
        let number =
            unsafe { bevelumber_read(source.as_ptr(), source.len(), trees, tree.len(), rows, errors.len(), &mut returned) };
        (number, returned, tree, errors)
    }

    fn write(source: &[u8], tree: &[u32], output: usize) -> (u32, u64, Vec<u8>) {
        let (mut output, mut returned) = (vec![7; output], 7);
        let (words, bytes) = (tree.as_ptr(), output.as_mut_ptr());
        let number = unsafe {
            bevelumber_write(source.as_ptr(), source.len(), words, tree.len(), bytes, output.len(), false, &mut returned)
        };
        (number, returned, output)
    }

    #[test]
    fn short_slices_are_left_as_they_were() {
        assert_eq!(read(b"a = b\n", 97, 44), (3, 98, vec![7; 97], vec![7; 44]));
        assert_eq!(read(b"a = b\n", 98, 43), (4, 44, vec![7; 98], vec![7; 43]));
        assert_eq!(read(b"\xff", 0, 0), (2, 0, vec![], vec![]));
    }

    #[test]
    fn unused_words_are_zeroed_and_words_past_the_layouts_stay() {
        let (number, value, tree, errors) = read(b"}\n", 36, 19);
        assert_eq!((number, value), (0, 0));
        let (kinds, places) = ([7, 107].iter().chain(&[0; 14]), [0, 2].iter().chain(&[0; 14]));
        assert!(tree.iter().eq([2, 16].iter().chain(kinds).chain(places).chain(&[7; 2])));
        assert_eq!(errors, [1, 2, 2, 0, 0, 1, 0, 2, 1, 0, 0, 0, 0, 0, 0, 0, 7, 7, 7]);
    }

    #[test]
    fn layouts_are_zeroed_where_nesting_is_too_deep() {
        let source = format!("a = {}", "{".repeat(65));
        let (words, rows) = (2 + 16 * source.len(), 2 + 7 * source.len());
        let (number, value, tree, errors) = read(source.as_bytes(), words + 1, rows + 1);
        assert_eq!((number, value), (5, 68));
        assert!(tree[..words].iter().chain(&errors[..rows]).all(|&word| word == 0));
        assert_eq!((tree[words], errors[rows]), (7, 7));
    }

    #[test]
    fn a_text_without_room_changes_no_byte() {
        let tree = read(b"a=b", 50, 23).2;
        assert_eq!(write(b"a=b", &tree, 5), (7, 6, vec![7; 5]));
        assert_eq!(write(b"a=b", &tree, 7), (0, 6, b"a = b\n\x07".to_vec()));
        assert_eq!(write(b"a=b", &tree[..40], 7), (6, 4_294_967_295, vec![7; 7]));
    }
}
