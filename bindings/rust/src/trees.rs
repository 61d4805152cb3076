//! A tree as its nodes say it: what each is, and the children of a list one after the other.
//!
//! ```
//! use stazzumpi::trees::{parse, Kind};
//!
//! let tree = parse(br#"(a #xF "b")"#, 1_000)?; // in at most 1,000 bytes
//! let mut children = tree.root().children();
//! assert_eq!(children.len(), 3);
//! assert!(matches!(children.next().unwrap().kind(), Kind::Symbol("a")));
//! assert!(matches!(children.next().unwrap().kind(), Kind::BitVec { width: 4, value: -1 }));
//! assert!(matches!(children.next().unwrap().kind(), Kind::String("b")));
//! # Ok::<(), stazzumpi::Refusal>(())
//! ```

use alloc::vec::Vec;
use core::fmt;
use core::iter::FusedIterator;

use crate::rooms::Budget;
use crate::{check_arena, parse_sexpr, Refusal, NODE_WORDS};

/// A node of an arena that [`check_arena`] passed, or that [`parse_sexpr`] wrote.
#[derive(Clone, Copy)]
pub struct Node<'a> {
    // The arena's, whole: every number below that leads into them does so by the promise of that check.
    nodes: &'a [u64],
    text: &'a [u8],
    at: usize,
}

/// What a node is.
#[derive(Clone, Debug)]
pub enum Kind<'a> {
    /// The number is read as signed, in as many bits as the width says, but no more than 128.
    BitVec {
        width: u64,
        value: i128,
    },
    Numeral(u128),
    /// The characters that it stands for, escapes read.
    String(&'a str),
    /// As it is written, bars kept.
    Symbol(&'a str),
    /// A list.
    App(Children<'a>),
}

/// The children of a list that are still to come.
#[derive(Clone)]
pub struct Children<'a> {
    next: Node<'a>,
    left: usize,
}

impl<'a> Node<'a> {
    /// The root of the tree that words and a text start with, whoever wrote them; what stands behind it is not looked at.
    /// All of the tree is checked here, once. Refusal: 27.
    pub fn root(nodes: &'a [u64], text: &'a [u8]) -> Result<Node<'a>, Refusal> {
        let arena = check_arena(nodes, text)?;
        Ok(Node { nodes: &nodes[..NODE_WORDS * arena.nodes], text: &text[..arena.text], at: 0 })
    }

    pub fn kind(self) -> Kind<'a> {
        let [kind, first, second, third] = self.words();
        let number = u128::from(third) << 64 | u128::from(second);
        match kind {
            1 => Kind::BitVec { width: first, value: number as i128 },
            2 => Kind::Numeral(number),
            3 => Kind::String(self.text(first, second)),
            4 => Kind::Symbol(self.text(first, second)),
            _ => Kind::App(Children { next: Node { at: self.at + 1, ..self }, left: first as usize }),
        }
    }

    /// The children of a list, from the left; an atom has none.
    pub fn children(self) -> Children<'a> {
        match self.kind() {
            Kind::App(children) => children,
            _ => Children { next: self, left: 0 },
        }
    }

    fn words(self) -> [u64; NODE_WORDS] {
        let from = NODE_WORDS * self.at;
        [self.nodes[from], self.nodes[from + 1], self.nodes[from + 2], self.nodes[from + 3]]
    }

    /// The node behind this one and all that is below it.
    fn after(self) -> Node<'a> {
        let at = match self.words() {
            [5, _, end, _] => end as usize,
            _ => self.at + 1,
        };
        Node { at, ..self }
    }

    fn text(self, length: u64, offset: u64) -> &'a str {
        let text = &self.text[offset as usize..][..length as usize];
        // SAFETY: the check of 27 passes texts that are UTF-8 alone (docs/RULES.md; `Sound` in crates/arena), the reader
        // leaves an arena that it passes (`accepted-arena`), and nobody can have changed it since, as it is borrowed.
        unsafe { core::str::from_utf8_unchecked(text) }
    }
}

/// Its number alone: the words are the whole arena's.
impl fmt::Debug for Node<'_> {
    fn fmt(&self, f: &mut fmt::Formatter<'_>) -> fmt::Result {
        f.debug_struct("Node").field("at", &self.at).finish_non_exhaustive()
    }
}

impl<'a> Iterator for Children<'a> {
    type Item = Node<'a>;

    fn next(&mut self) -> Option<Node<'a>> {
        self.left = self.left.checked_sub(1)?;
        let child = self.next;
        self.next = child.after();
        Some(child)
    }

    fn size_hint(&self) -> (usize, Option<usize>) {
        (self.left, Some(self.left))
    }
}

impl ExactSizeIterator for Children<'_> {}

impl FusedIterator for Children<'_> {}

/// How many they are, and not what is below them, which may be deep.
impl fmt::Debug for Children<'_> {
    fn fmt(&self, f: &mut fmt::Formatter<'_>) -> fmt::Result {
        f.debug_struct("Children").field("left", &self.left).finish_non_exhaustive()
    }
}

/// A tree in memory of its own.
#[derive(Clone, Debug, PartialEq, Eq)]
pub struct Parsed {
    nodes: Vec<u64>,
    text: Vec<u8>,
}

/// The tree of one S-expression. Its rooms take 32 bytes a node, one for each byte of text, and, until it is read, 8 for
/// each of the brackets that are open at once; together at most `limit`.
///
/// Refusals: 9, 1 to 6 by the input; 10, 11 or 12, with the need as the library tells it, for the first of these rooms, in
/// this order, for which there is no place beside those before it.
pub fn parse(input: &[u8], limit: usize) -> Result<Parsed, Refusal> {
    Parsed::within(input, &mut Budget::new(limit))
}

impl Parsed {
    /// The same out of what is left of a limit.
    pub(crate) fn within(input: &[u8], budget: &mut Budget) -> Result<Parsed, Refusal> {
        let (mut nodes, mut text, mut stack) = (Vec::new(), Vec::new(), Vec::new());
        loop {
            match parse_sexpr(input, &mut nodes, &mut text, &mut stack) {
                Ok(_) => break,
                Err(short @ Refusal::NodeRoom(need)) => {
                    budget.grow(&mut nodes, need.saturating_mul(NODE_WORDS), short)?
                }
                Err(short @ Refusal::TextRoom(need)) => budget.grow(&mut text, need, short)?,
                Err(short @ Refusal::DepthRoom(need)) => budget.grow(&mut stack, need, short)?,
                Err(refusal) => return Err(refusal),
            }
        }
        budget.give_back(stack);
        Ok(Parsed { nodes, text }) // each as long as was needed
    }

    pub fn root(&self) -> Node<'_> {
        Node { nodes: &self.nodes, text: &self.text, at: 0 }
    }

    /// The words of its arena.
    pub fn nodes(&self) -> &[u64] {
        &self.nodes
    }

    /// The text of its arena.
    pub fn text(&self) -> &[u8] {
        &self.text
    }
}
