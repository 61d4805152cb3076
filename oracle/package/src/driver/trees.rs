//! `trees`: the bytes of a case go to `parse_sexpr`, and the tree comes out as document 01's arena.

use super::{ask, hex, numbers, Fault};
use crate::hook;
use crate::symcc::decoder::sexpr::{parse_sexpr, SExpr};

const BITVEC: u64 = 1;
const NUMERAL: u64 = 2;
const STRING: u64 = 3;
const SYMBOL: u64 = 4;
const APP: u64 = 5;

/// The arena while it is filled: nodes in the order their tokens begin, the text, and the depth met so far.
#[derive(Default)]
pub struct Arena {
    pub nodes: Vec<[u64; 4]>,
    pub text: Vec<u8>,
    pub depth: usize,
}

pub fn answer(line: &str) -> Result<String, Fault> {
    let bytes = hex::read(line)?;
    hook::take();
    let result = ask(|| parse_sexpr(&bytes));
    let numbers = hook::take();
    Ok(match result {
        Ok(Ok(tree)) => written(&filled(&tree, numbers)),
        Ok(Err(error)) => numbers::of_reading(&error),
        Err(panic) => panic,
    })
}

/// The crate's tree as an arena, or its refusal's number.
#[cfg(feature = "ours")]
pub fn arena(bytes: &[u8]) -> Result<Result<Arena, u64>, String> {
    hook::take();
    let result = ask(|| parse_sexpr(bytes));
    let numbers = hook::take();
    result.map(|answer| match answer {
        Ok(tree) => Ok(filled(&tree, numbers)),
        Err(error) => Err(numbers::number_of_reading(&error).into()),
    })
}

/// Walks the tree with a stack of its own, so that depth costs no frames.
fn filled(tree: &SExpr, numbers: Vec<i128>) -> Arena {
    let mut arena = Arena::default();
    let mut numbers = numbers.into_iter();
    let mut open: Vec<(usize, std::slice::Iter<SExpr>)> = Vec::new();
    let mut next = Some(tree);
    loop {
        if let Some(node) = next {
            let at = arena.nodes.len();
            arena.push(node, &mut numbers);
            if let SExpr::App(children) = node {
                open.push((at, children.iter()));
                arena.depth = arena.depth.max(open.len());
            }
        }
        let Some((at, rest)) = open.last_mut() else { break };
        next = rest.next();
        if next.is_none() {
            arena.nodes[*at][2] = arena.nodes.len() as u64;
            open.pop();
        }
    }
    assert!(numbers.next().is_none(), "each number noted belongs to a vector of the tree");
    arena
}

impl Arena {
    /// Adds a node; the end of an application is written when it closes.
    fn push(&mut self, node: &SExpr, numbers: &mut impl Iterator<Item = i128>) {
        let words = match node {
            SExpr::BitVec(vector) => {
                let number = numbers.next().expect("the hook noted a number for each vector");
                [BITVEC, vector.width().get().into(), number as u64, (number >> 64) as u64]
            }
            SExpr::Numeral(number) => [NUMERAL, 0, *number as u64, (*number >> 64) as u64],
            SExpr::String(text) => self.keep(STRING, text),
            SExpr::Symbol(text) => self.keep(SYMBOL, text),
            SExpr::App(children) => [APP, children.len() as u64, 0, 0],
        };
        self.nodes.push(words);
    }

    fn keep(&mut self, kind: u64, text: &str) -> [u64; 4] {
        let offset = self.text.len() as u64;
        self.text.extend_from_slice(text.as_bytes());
        [kind, text.len() as u64, offset, 0]
    }
}

fn written(arena: &Arena) -> String {
    let nodes: Vec<String> = arena.nodes.iter().map(|[a, b, c, d]| format!("{a:x},{b:x},{c:x},{d:x}")).collect();
    format!("nodes={} text={} depth={:x}", nodes.join(";"), hex::of(&arena.text), arena.depth)
}
