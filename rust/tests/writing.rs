//! Normal texts, lists of marks that no reading gives, and refusals.

use bevelumber::{Reader, Refusal, Writer, MAX_LENGTH};

fn text(source: &str, with_junk: bool) -> String {
    let (mut reader, mut writer) = (Reader::new(), Writer::new());
    let reading = reader.read(source.as_bytes()).unwrap();
    writer.write(reading.tree(), with_junk).to_string()
}

/// Words of a tree with no room to spare.
fn words(marks: &[(u32, u32)]) -> Vec<u32> {
    let count = marks.len() as u32;
    let (kinds, places) = (marks.iter().map(|mark| mark.0), marks.iter().map(|mark| mark.1));
    [count, count].into_iter().chain(kinds).chain(places).collect()
}

#[test]
fn rows_of_document_01() {
    assert_eq!(text("a = .b\n  c\n", false), "a = .b\nc\n");
    assert_eq!(text("a = [b\n  c\n", false), "a =\n    [b\n    c\n");
    assert_eq!(text("", true), "");
}

#[test]
fn junk_if_so_asked() {
    let source = "a = b\n}\n# c\n";
    assert_eq!(text(source, false), "a = b\n# c\n\n");
    assert_eq!(text(source, true), "a = b\n}\n# c\n\n");
}

#[test]
fn longer_than_the_source() {
    let select = "a={$b ->\n*[c]{$d ->\n*[e]f\n}\n}";
    let written = text(select, false);
    let lines =
        ["a =", "    { $b ->", "       *[c]", "            { $d ->", "               *[e] f", "            }", "    }", ""];
    assert_eq!(written, lines.join("\n"));
    assert_eq!(text(&written, false), written);
}

#[test]
fn any_list() {
    let mut writer = Writer::new();
    let comment = words(&[(3, 0), (8, 0), (108, 2), (8, 3), (108, 6), (103, 0)]);
    assert_eq!(writer.write_words("xé日".as_bytes(), &comment, false), Err(Refusal::IllFormed(2)));
    assert_eq!(writer.write_words("xy日".as_bytes(), &comment, false), Err(Refusal::IllFormed(3)));
    assert_eq!(writer.write_words("xyz日".as_bytes(), &comment, false), Ok("# xy\n# 日\n\n"));
}

#[test]
fn refusals() {
    let mut writer = Writer::new();
    let none = words(&[]);
    assert_eq!(writer.write_words(&vec![b'a'; MAX_LENGTH + 1], &none, false), Err(Refusal::TooLong(1_000_001)));
    assert_eq!(writer.write_words(b"\xff", &none, false), Err(Refusal::NotUtf8(0)));
    assert_eq!(writer.write_words(b"", &[], false), Err(Refusal::IllFormed(4_294_967_295)));
    assert_eq!(writer.write_words(b"", &words(&[(1, 0)]), false), Err(Refusal::IllFormed(1)));
    assert_eq!(writer.write_words(b"", &none, false), Ok(""));
}
