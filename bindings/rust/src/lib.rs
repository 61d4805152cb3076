#![doc = include_str!("../README.md")]
#![no_std]

extern crate alloc;

mod ffi;
mod refusal;
mod rooms;

pub use refusal::Refusal;

/// The words of a node: its kind, then three by the kind.
pub const NODE_WORDS: usize = 4;

/// How much of what was lent a tree took: nodes of four words, bytes of text, and open brackets.
#[derive(Clone, Copy, Debug, PartialEq, Eq)]
pub struct Tree {
    pub nodes: usize,
    pub text: usize,
    pub depth: usize,
}

/// How much of the words and the text a tree's arena is: nodes of four words, and bytes.
#[derive(Clone, Copy, Debug, PartialEq, Eq)]
pub struct Arena {
    pub nodes: usize,
    pub text: usize,
}

/// One call: the numbers that it tells, or its refusal.
fn answer<const N: usize>(call: impl FnOnce(*mut u64, usize) -> u64) -> Result<[usize; N], Refusal> {
    let mut told = [0; N];
    match call(told.as_mut_ptr(), N) {
        0 => Ok(told.map(|number: u64| number as usize)),
        word => Err(Refusal::from_word(word)),
    }
}

/// A call of the library: slices that are read, then slices that are lent, each as its address and its length.
macro_rules! call {
    ($function:ident($($read:expr),*; $($lent:expr),*)) => {
        // SAFETY: slices are valid for their lengths, and those lent mutably overlap nothing.
        $crate::answer(|told, n| unsafe {
            $crate::ffi::$function($($read.as_ptr(), $read.len(),)* $($lent.as_mut_ptr(), $lent.len(),)* told, n)
        })
    };
}

pub mod lines;
pub mod listings;
pub mod models;
pub mod tables;
pub mod trees;

/// Major, minor and patch number of the library that is linked. It goes with this crate as long as the major number is
/// this crate's, and while that is 0 the minor number too.
///
/// ```
/// assert_eq!(stazzumpi::version(), (0, 3, 0));
/// ```
pub fn version() -> (u64, u64, u64) {
    // SAFETY: it takes nothing and is lent nothing.
    let version = unsafe { ffi::stazzumpi_version() };
    (version >> 16, version >> 8 & 255, version & 255)
}

/// The text of what stands between the quotes of a string literal, at the front of `out`; answers its length.
///
/// Refusals: 9, 3, 11. `out` needs at most twice the length of `s`.
///
/// ```
/// let mut out = [0; 4];
/// assert_eq!(stazzumpi::decode_string(br"\u{41}\u0042", &mut out), Ok(2));
/// assert_eq!(&out, b"AB\0\0");
/// ```
pub fn decode_string(s: &[u8], out: &mut [u8]) -> Result<usize, Refusal> {
    let [length] = call!(stazzumpi_decode_string(s; out))?;
    Ok(length)
}

/// The tree of one S-expression, its nodes and text at the front of `nodes` and `text`. As many first entries of `stack`
/// are zeroed as it has open brackets. include/stazzumpi.h says what each word is; [`trees::Node`] reads them.
///
/// Refusals: 9, 1 to 6 by the input, 10, 11, 12. An input of n bytes needs at most n nodes, 2 n bytes of text and n
/// entries.
///
/// ```
/// use stazzumpi::{parse_sexpr, Refusal};
///
/// let reply = br#"(a #xF "b")"#;
/// let (mut nodes, mut text, mut stack) = ([0; 16], [0; 2], [0; 1]);
///
/// // too little room is refused with the need
/// assert_eq!(parse_sexpr(reply, &mut nodes[..12], &mut text, &mut stack), Err(Refusal::NodeRoom(4)));
///
/// let tree = parse_sexpr(reply, &mut nodes, &mut text, &mut stack)?;
/// assert_eq!((tree.nodes, tree.text, tree.depth), (4, 2, 1));
/// assert_eq!(nodes[..4], [5, 3, 4, 0]); // a list: three children, the node after its last is 4
/// assert_eq!(nodes[8..12], [1, 4, u64::MAX, u64::MAX]); // a bit vector of width 4, sign-extended
/// assert_eq!(&text, b"ab");
/// # Ok::<(), Refusal>(())
/// ```
pub fn parse_sexpr(input: &[u8], nodes: &mut [u64], text: &mut [u8], stack: &mut [u64]) -> Result<Tree, Refusal> {
    let [nodes, text, depth] = call!(stazzumpi_parse_sexpr(input; nodes, text, stack))?;
    Ok(Tree { nodes, text, depth })
}

/// Whether words and a text start with the arena of a tree, whoever wrote them. Refusal: 27.
pub fn check_arena(words: &[u64], text: &[u8]) -> Result<Arena, Refusal> {
    let [nodes, text] = call!(stazzumpi_check_arena(words, text;))?;
    Ok(Arena { nodes, text })
}

#[cfg(test)]
mod tests {
    use super::*;

    /// A slice for numbers that is too short is refused before anything is looked at, with its need.
    #[test]
    fn told_one_short() {
        let (mut out, mut nodes, mut stack, mut told) = ([9; 2], [9; 4], [9; 1], [9; 4]);
        let told = told.as_mut_ptr();
        let (s, o) = (b"\"".as_ptr(), out.as_mut_ptr());
        assert_eq!(unsafe { ffi::stazzumpi_decode_string(s, 1, o, 2, told, 0) }, 26 + 256);
        assert_eq!(
            unsafe { ffi::stazzumpi_parse_sexpr(s, 1, nodes.as_mut_ptr(), 4, o, 2, stack.as_mut_ptr(), 1, told, 2) },
            26 + 256 * 3
        );
        assert_eq!(unsafe { ffi::stazzumpi_check_arena(nodes.as_ptr(), 4, o, 2, told, 1) }, 26 + 256 * 2);
        assert_eq!(unsafe { ffi::stazzumpi_find_variable(nodes.as_ptr(), 4, s, 1, s, 1, told, 1) }, 26 + 256 * 2);
        assert_eq!(unsafe { ffi::stazzumpi_find_sort(nodes.as_ptr(), 4, 1, 0, told, 1) }, 26 + 256 * 2);
        let mut table = [[9; 1]; 5];
        let [a, b, c, d, e] = table.each_mut().map(|word| word.as_mut_ptr());
        assert_eq!(unsafe { ffi::stazzumpi_read_tables(s, 1, a, 1, b, 1, c, 1, d, 1, e, 1, told, 4) }, 26 + 256 * 5);
        let n = nodes.as_ptr();
        for list in [ffi::stazzumpi_list_model, ffi::stazzumpi_list_values] {
            assert_eq!(unsafe { list(n, 4, n, 4, n, 4, n, 4, n, 4, s, 1, n, 4, s, 1, o, 2, told, 0) }, 26 + 256);
        }
        assert_eq!((out, nodes, stack, table), ([9; 2], [9; 4], [9; 1], [[9; 1]; 5]));
    }

    /// Words past what is told, and all of them on refusal, stay as they were.
    #[test]
    fn told_past_the_end() {
        let (mut out, mut told) = ([9; 2], [9; 3]);
        assert_eq!(
            unsafe { ffi::stazzumpi_decode_string(b"ab".as_ptr(), 2, out.as_mut_ptr(), 2, told.as_mut_ptr(), 3) },
            0
        );
        assert_eq!((&out, told), (b"ab", [2, 9, 9]));
        assert_eq!(
            unsafe { ffi::stazzumpi_decode_string(b"abc".as_ptr(), 3, out.as_mut_ptr(), 2, told.as_mut_ptr(), 3) },
            11 + 256 * 3
        );
        assert_eq!((&out, told), (b"ab", [2, 9, 9]));
    }
}
