//! Random files that a grammar of FTL, with mistakes in it, might give.

use super::Rng;

/// A random file.
pub fn random(rng: &mut Rng) -> Vec<u8> {
    let mut writer = Writer { crlf: rng.below(4), mistakes: [6, 15, 60, 400][rng.below(4)], depth: 0, out: vec![], rng };
    writer.file();
    writer.out
}

struct Writer<'a> {
    rng: &'a mut Rng,
    out: Vec<u8>,
    /// 0: mixed line ends; 1: all "\r\n"; otherwise all "\n".
    crlf: usize,
    /// One mistake in so many occasions.
    mistakes: usize,
    depth: usize,
}

const NAMES: [&str; 12] = ["a", "b", "c", "foo", "F", "FOO", "A-b_1", "t", "a1", "Z9", "X_", "n-"];
const TEXTS: [&str; 30] = [
    "x", "Text", " ", "  ", "word", ".", ",", "[", "]", "*", "#", "-", "\"", "\\", "=", "é", "日本", "🎉", "\t", "\r", "->", "(",
    ")", ":", "$", "1", "&nbsp;", "a = b", "\u{a0}", "/",
];
const ESCAPES: [&str; 14] =
    ["\\\\", "\\\"", "\\{", "\\u00e9", "\\U01F602", "\\u12", "\\U12345", "\\x", "\\é", "\\u1é", "\\U日", "\\", "\\n", "\\ud800"];
const ODDITIES: [&str; 21] = [
    "{", "}", " a = b", ".a = b", "[b] c", "*[b] c", "é", "\t", "\r", "=", "1 = 2", "a", "a b", "-", "--a = b", "\"", "{ $x }",
    "####", "a = }", "\r\ra=b", "-a.b = c",
];

impl Writer<'_> {
    fn put(&mut self, text: &str) {
        self.out.extend_from_slice(text.as_bytes());
    }

    fn pick(&mut self, from: &[&str]) {
        let text = self.rng.pick(from);
        self.put(text);
    }

    fn mistake(&mut self) -> bool {
        self.rng.once_in(self.mistakes)
    }

    fn eol(&mut self) {
        let crlf = match self.crlf {
            0 => self.rng.once_in(2),
            1 => true,
            _ => false,
        };
        self.put(if crlf { "\r\n" } else { "\n" });
    }

    fn spaces(&mut self, most: usize) {
        for _ in 0..self.rng.below(most + 1) {
            self.put(" ");
        }
    }

    /// Blank that may hold line ends.
    fn blank(&mut self) {
        match self.rng.below(12) {
            0..=5 => {}
            6..=9 => self.put(" "),
            10 => self.spaces(4),
            _ => {
                self.eol();
                self.spaces(6);
            }
        }
    }

    fn name(&mut self) {
        self.pick(&NAMES);
    }

    fn file(&mut self) {
        for _ in 0..self.rng.below(7) {
            self.entry();
            if self.rng.once_in(4) {
                self.eol();
            }
        }
        if self.rng.once_in(4) {
            while matches!(self.out.last(), Some(b'\n' | b'\r')) {
                self.out.pop();
            }
        }
    }

    fn entry(&mut self) {
        match self.rng.below(20) {
            0..=8 => self.message(),
            9..=11 => {
                self.put("-");
                self.message();
            }
            12..=16 => self.comment(),
            17 => {
                self.pick(&ODDITIES);
                if !self.rng.once_in(5) {
                    self.eol();
                }
            }
            _ => {
                self.spaces(3);
                self.eol();
            }
        }
    }

    fn comment(&mut self) {
        let level = 1 + self.rng.below(3);
        for _ in 0..1 + self.rng.below(3) {
            let level = if self.mistake() { 1 + self.rng.below(4) } else { level };
            for _ in 0..level {
                self.put("#");
            }
            match self.rng.below(8) {
                0 => {}
                1 => self.put(" "),
                2 if self.mistake() => self.put("x"),
                _ => {
                    self.put(" ");
                    for _ in 0..self.rng.below(4) {
                        self.pick(&TEXTS);
                    }
                }
            }
            self.eol();
        }
    }

    fn message(&mut self) {
        self.name();
        self.assignment();
        self.attributes();
    }

    fn assignment(&mut self) {
        self.spaces(2);
        if !self.mistake() {
            self.put("=");
        }
        self.spaces(2);
        if !self.rng.once_in(9) {
            self.pattern(0);
        }
        self.eol();
    }

    fn attributes(&mut self) {
        for _ in 0..self.rng.below(5).saturating_sub(2) {
            if self.rng.once_in(6) {
                self.spaces(3);
                self.eol();
            }
            self.spaces(5);
            self.put(".");
            if !self.mistake() {
                self.name();
            }
            self.assignment();
        }
    }

    /// Elements without the last line end.
    fn pattern(&mut self, indent: usize) {
        let first_on_own_line = self.rng.once_in(3);
        let lines = if self.rng.once_in(2) { 1 } else { 1 + self.rng.below(4) };
        for line in 0..lines {
            if line > 0 || first_on_own_line {
                self.eol();
                if self.rng.once_in(5) {
                    self.spaces(5);
                    self.eol();
                }
                self.line_start(indent);
            }
            for _ in 0..1 + self.rng.below(3) {
                self.element();
            }
        }
    }

    fn line_start(&mut self, indent: usize) {
        match self.rng.below(20) {
            0 => {}
            1 => self.put("{ 1 }"),
            2 => self.put("\r"),
            3 => {
                self.put(" ");
                self.pick(&[".", "}", "[", "*", "#", "-"]);
            }
            _ => {
                for _ in 0..=indent {
                    self.put(" ");
                }
                self.spaces(5);
            }
        }
    }

    fn element(&mut self) {
        if self.rng.once_in(3) {
            self.placeable();
        } else {
            for _ in 0..1 + self.rng.below(4) {
                self.pick(&TEXTS);
            }
            if self.mistake() {
                self.put("}");
            }
        }
    }

    fn placeable(&mut self) {
        self.put("{");
        self.depth += 1;
        self.blank();
        self.inline();
        self.blank();
        if self.depth < 4 && self.rng.once_in(5) {
            self.select();
        }
        self.depth -= 1;
        if !self.mistake() {
            self.put("}");
        }
    }

    fn select(&mut self) {
        self.put("->");
        self.spaces(2);
        if !self.mistake() {
            self.eol();
        }
        let variants = self.rng.below(4);
        let default = if self.mistake() { usize::MAX } else { self.rng.below(variants.max(1)) };
        for variant in 0..variants {
            self.variant(variant == default);
        }
        if variants == 0 && self.rng.once_in(2) {
            self.put("*");
        }
        self.spaces(4);
    }

    fn variant(&mut self, default: bool) {
        self.spaces(6);
        if default || self.mistake() {
            self.put("*");
        }
        if !self.mistake() {
            self.put("[");
        }
        self.blank();
        if self.rng.once_in(3) {
            self.number();
        } else {
            self.name();
        }
        self.blank();
        self.put("]");
        self.spaces(1);
        if !self.mistake() {
            self.pattern(4);
        }
        self.eol();
    }

    fn number(&mut self) {
        if self.rng.once_in(4) {
            self.put("-");
        }
        self.pick(&["0", "1", "42", "007", "3.14", "1.0", "12345"]);
        if self.mistake() {
            self.put(".");
        }
    }

    fn string(&mut self) {
        self.put("\"");
        for _ in 0..self.rng.below(4) {
            if self.rng.once_in(4) {
                let good = if self.mistake() { ESCAPES.len() } else { 5 };
                self.pick(&ESCAPES[..good]);
            } else {
                self.pick(&["x", "{", "}", " ", "é", "日", "a b", "#", "\r", "\t"]);
            }
        }
        if self.mistake() {
            self.eol();
        }
        if !self.mistake() {
            self.put("\"");
        }
    }

    fn accessor(&mut self) {
        if self.rng.once_in(3) {
            self.put(".");
            self.name();
        }
    }

    fn inline(&mut self) {
        match self.rng.below(if self.depth < 5 { 14 } else { 8 }) {
            0 | 1 => self.string(),
            2 => self.number(),
            3..=5 => {
                self.put("$");
                self.name();
            }
            6 => {
                self.name();
                if self.rng.once_in(6) {
                    self.blank();
                }
                self.accessor();
            }
            7 => self.term(),
            8 | 9 => {
                self.term();
                self.arguments();
            }
            10..=12 => self.function(),
            _ => self.placeable(),
        }
    }

    fn term(&mut self) {
        self.put("-");
        self.name();
        self.accessor();
    }

    fn function(&mut self) {
        if self.mistake() {
            self.put("f");
        } else {
            self.pick(&["F", "NUMBER", "G-1_"]);
        }
        self.arguments();
    }

    fn arguments(&mut self) {
        self.blank();
        self.put("(");
        self.depth += 1;
        self.blank();
        for _ in 0..self.rng.below(3) {
            self.inline();
            self.separator();
        }
        self.named_arguments();
        if self.mistake() {
            self.inline();
        }
        self.depth -= 1;
        if !self.mistake() {
            self.put(")");
        }
    }

    /// Named arguments, whose names differ but for mistakes.
    fn named_arguments(&mut self) {
        let first = self.rng.below(NAMES.len());
        for i in 0..self.rng.below(5).saturating_sub(2) {
            let next = if self.mistake() { 0 } else { i };
            self.put(NAMES[(first + next) % NAMES.len()]);
            self.blank();
            self.put(":");
            self.blank();
            if self.mistake() {
                self.inline();
            } else if self.rng.once_in(2) {
                self.string();
            } else {
                self.put("7");
            }
            self.separator();
        }
    }

    fn separator(&mut self) {
        self.blank();
        if !self.rng.once_in(5) {
            self.put(",");
        }
        self.blank();
    }
}
