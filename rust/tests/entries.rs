//! Sources entry by entry.

use bevelumber::{Reader, MAX_LENGTH};
use std::ops::Range;

fn entries(source: &[u8]) -> Vec<Range<usize>> {
    Reader::new().entries(source).collect()
}

#[test]
fn all_kinds() {
    let source = b"\n# c\na = b\n\n## g\n-t = { $x }\nbroken\n\n";
    assert_eq!(entries(source), [1..4, 5..12, 12..16, 17..29, 29..37]);
    assert_eq!(entries(b""), []);
    assert_eq!(entries(b"\n\n"), []);
}

#[test]
fn none_is_left() {
    let mut deep = b"a = b\nb = ".to_vec();
    deep.extend([b'{'; 65]);
    assert_eq!(entries(&deep), [0..6]);
    assert_eq!(entries(b"a = b\n\xff"), []);
    assert_eq!(entries(&vec![b'a'; MAX_LENGTH + 1]), []);

    let mut reader = Reader::new();
    let mut entries = reader.entries(b"# c");
    assert_eq!([entries.next(), entries.next(), entries.next()], [Some(0..3), None, None]);
}
