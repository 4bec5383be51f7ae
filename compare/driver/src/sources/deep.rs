//! Nesting close to the limit of 64, closed or not, at all places for it.

use super::Rng;

/// One entry that nests deep, sometimes after another.
pub fn deep(rng: &mut Rng) -> Vec<u8> {
    let mut out = rng.pick(&["", "# c\n", "a = {{1}}\n", "b = {\n", "x\n"]).as_bytes().to_vec();
    let start = rng.pick(&[
        "a = {",
        "a = b\n .c = {",
        "-t = {",
        "a =\n {",
        "a = { 1 ->\n *[x] {",
        "a = {{1}} {",
        "a = {F()} {",
        "a = b\n .c = d\n .e = {",
    ]);
    out.extend_from_slice(start.as_bytes());
    let mut open = if start.contains("->") { vec![b'}', b'}'] } else { vec![b'}'] };
    let depth = 58 + rng.below(12);
    while open.len() < depth {
        nest(rng, &mut out, &mut open);
    }
    if !rng.once_in(4) {
        out.extend_from_slice(rng.pick(&["1", "$x", "\"\"", "", "a", "-t.a"]).as_bytes());
        while let Some(b) = open.pop() {
            if !rng.once_in(200) {
                out.push(b);
            }
        }
    }
    out.extend_from_slice(rng.pick(&["\n", "", "\nb = c\n", "\n .d = {F(1)}\n"]).as_bytes());
    out
}

/// Opens one more, mostly.
fn nest(rng: &mut Rng, out: &mut Vec<u8>, open: &mut Vec<u8>) {
    let last = open.last().copied();
    match rng.below(24) {
        0..=7 => {
            out.push(b'{');
            open.push(b'}');
        }
        8..=15 => {
            out.extend_from_slice(rng.pick(&["F(", "-t(", "F (", "f(", "-t.a(", "F(1,"]).as_bytes());
            open.push(b')');
        }
        16 => out.push(b' '),
        17 if last == Some(b')') => {
            out.extend_from_slice(rng.pick(&["1 ", "F()", "{1}", "\"{(\"", "$x "]).as_bytes());
        }
        18 if last == Some(b')') => {
            out.extend_from_slice(b"k:F(");
            open.push(b')');
        }
        19 if last == Some(b'}') => {
            out.extend_from_slice(b"$x ->\n *[k] {");
            open.push(b'}');
        }
        20 if open.len() > 2 && rng.once_in(4) => {
            if last == Some(b'}') {
                out.push(b'1');
            }
            out.extend(open.pop());
            if open.last() == Some(&b'}') {
                out.extend_from_slice(b"}{");
            }
        }
        _ => {}
    }
}
