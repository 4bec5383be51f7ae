//! Files to measure.

use super::Rng;

/// What the sentences of a file are made of.
const ENGLISH: [&str; 40] = [
    "the", "file", "could", "not", "be", "opened", "in", "a", "new", "window", "when", "you", "sign", "out", "of", "your",
    "account", "all", "tabs", "will", "close", "and", "settings", "are", "saved", "to", "this", "device", "until", "it", "is",
    "removed", "again", "please", "try", "later", "or", "ask", "an", "expert",
];
const RUSSIAN: [&str; 12] = ["файл", "не", "найден", "в", "новом", "окне", "когда", "вы", "вышли", "из", "системы", "снова"];

/// A file of at most `size` bytes of messages as programs have them: most of one line, some with a variable, an attribute, a comment,
/// several lines or a select.
pub fn ordinary(size: usize) -> Vec<u8> {
    messages(&ENGLISH, size)
}

/// The same with two bytes for a letter of its sentences.
pub fn cyrillic(size: usize) -> Vec<u8> {
    messages(&RUSSIAN, size)
}

fn messages(words: &[&str], size: usize) -> Vec<u8> {
    let mut rng = Rng(1);
    let mut out = vec![];
    for number in 1.. {
        let message = message(&mut rng, words, number);
        if out.len() + message.len() > size {
            break;
        }
        out.extend_from_slice(message.as_bytes());
    }
    out
}

fn message(rng: &mut Rng, words: &[&str], number: usize) -> String {
    let comment = if rng.once_in(5) { format!("\n# {}\n", sentence(rng, words, 8)) } else { String::new() };
    let name = format!("{}-{}-{number}", rng.pick(&["menu", "error", "dialog", "about", "sync"]), rng.pick(&ENGLISH));
    let kind = rng.below(10);
    let length = 3 + rng.below(10);
    let mut some = |length| sentence(rng, words, length);
    let value = match kind {
        0..=4 => format!(" {}", some(length)),
        5 => format!(" {} {{ $name }} {}", some(3), some(4)),
        6 => format!(" {} {{ NUMBER($count, style: \"percent\") }} {}", some(3), some(4)),
        7 => format!("\n    .label = {}\n    .accesskey = C", some(3)),
        8 => format!("\n    {}\n    {}\n    {{ -brand }} {}", some(8), some(8), some(7)),
        _ => format!("\n    {{ $count ->\n        [one] {}\n       *[other] {{ $count }} {}\n    }}", some(5), some(5)),
    };
    format!("{comment}{name} ={value}\n")
}

fn sentence(rng: &mut Rng, words: &[&str], length: usize) -> String {
    let words: Vec<&str> = (0..length).map(|_| rng.pick(words)).collect();
    words.join(" ")
}

/// A file of about `size` bytes whose placeables nest `depth` deep.
pub fn nested(depth: usize, size: usize) -> Vec<u8> {
    let entry = format!("a = {}$b{}\n", "{".repeat(depth), "}".repeat(depth));
    entry.repeat(size.div_ceil(entry.len())).into_bytes()
}

/// A file of about `size` bytes of selects that nest `depth` deep, with a line of text at each level.
pub fn selects(depth: usize, size: usize) -> Vec<u8> {
    let (open, close) = ("\n    Text { $b ->\n *[other]".repeat(depth), "\n }".repeat(depth));
    let entry = format!("a ={open} Text{close}\n");
    entry.repeat(size.div_ceil(entry.len())).into_bytes()
}

/// A file of about `size` bytes of calls that have so many named arguments each.
pub fn calls(arguments: usize, size: usize) -> Vec<u8> {
    let arguments: Vec<String> = (0..arguments).map(|i| format!("k{i}: 1")).collect();
    let entry = format!("a = {{ F({}) }}\n", arguments.join(", "));
    entry.repeat(size.div_ceil(entry.len())).into_bytes()
}

/// A file of `size` bytes in which each line is junk.
pub fn junk(size: usize) -> Vec<u8> {
    "not-a-message\n".bytes().cycle().take(size).collect()
}
