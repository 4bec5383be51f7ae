//! A typed view of marks: one after the other, or as nodes.

use std::ops::Range;

/// The kind of a node.
#[derive(Clone, Copy, Debug, Eq, Hash, PartialEq)]
#[allow(missing_docs)]
pub enum Kind {
    Message = 1,
    Term = 2,
    /// A free regular comment.
    Comment = 3,
    GroupComment = 4,
    ResourceComment = 5,
    /// The comment of the message or term right after it.
    AttachedComment = 6,
    Junk = 7,
    CommentLine = 8,
    Identifier = 9,
    Attribute = 10,
    Pattern = 11,
    Text = 12,
    Placeable = 13,
    Select = 14,
    Variant = 15,
    DefaultVariant = 16,
    NumberKey = 17,
    IdentifierKey = 18,
    /// A string, its quotes not included.
    String = 19,
    Number = 20,
    Variable = 21,
    Function = 22,
    MessageReference = 23,
    TermReference = 24,
    Arguments = 25,
    NamedArgument = 26,
}

/// All kinds, kind n at n - 1.
const KINDS: [Kind; 26] = [
    Kind::Message,
    Kind::Term,
    Kind::Comment,
    Kind::GroupComment,
    Kind::ResourceComment,
    Kind::AttachedComment,
    Kind::Junk,
    Kind::CommentLine,
    Kind::Identifier,
    Kind::Attribute,
    Kind::Pattern,
    Kind::Text,
    Kind::Placeable,
    Kind::Select,
    Kind::Variant,
    Kind::DefaultVariant,
    Kind::NumberKey,
    Kind::IdentifierKey,
    Kind::String,
    Kind::Number,
    Kind::Variable,
    Kind::Function,
    Kind::MessageReference,
    Kind::TermReference,
    Kind::Arguments,
    Kind::NamedArgument,
];

impl Kind {
    /// The kind with this number, 1 to 26.
    pub fn of(number: u32) -> Option<Kind> {
        KINDS.get((number as usize).checked_sub(1)?).copied()
    }

    /// Whether nodes of this kind have a text, and so no children.
    pub fn has_text(self) -> bool {
        use Kind::*;
        matches!(self, Junk | CommentLine | Identifier | Text | NumberKey | IdentifierKey | String | Number)
    }
}

/// A mark: it opens or closes a node.
#[derive(Clone, Copy, Debug, Eq, Hash, PartialEq)]
pub struct Mark {
    /// The node's kind.
    pub kind: Kind,
    /// Whether the mark closes the node.
    pub closes: bool,
    /// Where the text of the node starts, or where it ends if the mark closes it; 0 if the node has no text.
    pub place: usize,
}

/// The marks of a source.
#[derive(Clone, Copy, Debug)]
pub struct Tree<'t> {
    source: &'t str,
    words: &'t [u32],
}

impl<'t> Tree<'t> {
    /// The tree that an accepted reading of this source left.
    pub(crate) fn of(source: &'t str, words: &'t [u32]) -> Self {
        Tree { source, words }
    }

    /// The source.
    pub fn source(&self) -> &'t str {
        self.source
    }

    /// How many marks there are.
    pub fn len(&self) -> usize {
        self.words[0] as usize
    }

    /// Whether there are none.
    pub fn is_empty(&self) -> bool {
        self.len() == 0
    }

    /// The numbers of the marks' kinds; a closing mark's is 100 more.
    pub fn kinds(&self) -> &'t [u32] {
        &self.words[2..2 + self.len()]
    }

    /// The marks' places.
    pub fn places(&self) -> &'t [u32] {
        let start = 2 + self.words[1] as usize;
        &self.words[start..start + self.len()]
    }

    /// The words as they are lent to the calls: sizes first, then kinds, then places.
    pub fn words(&self) -> &'t [u32] {
        self.words
    }

    /// The marks in order.
    ///
    /// ```
    /// use bevelumber::{Kind, Mark, Reader};
    ///
    /// let mut reader = Reader::new();
    /// let marks: Vec<Mark> = reader.read(b"# c").unwrap().tree().marks().collect();
    /// assert_eq!(marks[1], Mark { kind: Kind::CommentLine, closes: false, place: 2 });
    /// assert_eq!(marks[2], Mark { kind: Kind::CommentLine, closes: true, place: 3 });
    /// ```
    pub fn marks(&self) -> impl ExactSizeIterator<Item = Mark> + 't {
        self.kinds().iter().zip(self.places()).map(|(&number, &place)| Mark {
            kind: Kind::of(number % 100).expect("a kind of the tree"),
            closes: number >= 100,
            place: place as usize,
        })
    }

    /// The nodes at the top, in order.
    pub fn nodes(&self) -> Nodes<'t> {
        Nodes { tree: *self, next: 0, end: self.len() }
    }
}

/// A node: its opening mark, its children, its closing mark.
#[derive(Clone, Copy, Debug)]
pub struct Node<'t> {
    tree: Tree<'t>,
    open: usize,
    close: usize,
}

impl<'t> Node<'t> {
    /// The node's kind.
    pub fn kind(&self) -> Kind {
        Kind::of(self.tree.kinds()[self.open]).expect("an opening mark")
    }

    /// Where the node's text stands, if its kind has one.
    pub fn span(&self) -> Option<Range<usize>> {
        let place = |mark: usize| self.tree.places()[mark] as usize;
        self.kind().has_text().then(|| place(self.open)..place(self.close))
    }

    /// The node's text, if its kind has one.
    pub fn text(&self) -> Option<&'t str> {
        self.span().map(|span| &self.tree.source[span])
    }

    /// The nodes inside, in order.
    pub fn children(&self) -> Nodes<'t> {
        Nodes { tree: self.tree, next: self.open + 1, end: self.close }
    }

    /// The first child of a kind.
    ///
    /// ```
    /// use bevelumber::{Kind, Reader};
    ///
    /// let mut reader = Reader::new();
    /// let reading = reader.read(b"a = b\n    .c = d\n").unwrap();
    /// let message = reading.nodes().next().unwrap();
    /// let attribute = message.child(Kind::Attribute).unwrap();
    /// assert_eq!(attribute.child(Kind::Identifier).unwrap().text(), Some("c"));
    /// ```
    pub fn child(&self, kind: Kind) -> Option<Node<'t>> {
        self.children().find(|node| node.kind() == kind)
    }

    /// The numbers of the opening and the closing mark.
    pub fn marks(&self) -> Range<usize> {
        self.open..self.close
    }
}

/// Nodes that stand in a row.
#[derive(Clone, Debug)]
pub struct Nodes<'t> {
    tree: Tree<'t>,
    next: usize,
    end: usize,
}

impl<'t> Iterator for Nodes<'t> {
    type Item = Node<'t>;

    fn next(&mut self) -> Option<Node<'t>> {
        if self.next == self.end {
            return None;
        }
        let open = self.next;
        let mut depth = 0;
        let inside = |kind: &u32| {
            depth += if *kind < 100 { 1 } else { -1 };
            depth > 0
        };
        let close = open + self.tree.kinds()[open..].iter().copied().take_while(inside).count();
        self.next = close + 1;
        Some(Node { tree: self.tree, open, close })
    }
}
