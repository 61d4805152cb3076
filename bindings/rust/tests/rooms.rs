//! Buffers that are just enough and one short, and the bytes that stay.

use stazzumpi::{decode_string, parse_sexpr, Refusal, Tree};

const INPUT: &[u8] = b"(a (#xF) \"b\")";

#[test]
fn text_just_enough() {
    let mut out = *b"......";
    assert_eq!(decode_string(br"a\u0042\q", &mut out[..4]), Ok(4));
    assert_eq!(&out, b"aB\\q..");
}

#[test]
fn text_one_short() {
    let mut out = *b"......";
    assert_eq!(decode_string(br"a\u0042\q", &mut out[..3]), Err(Refusal::TextRoom(4)));
    assert_eq!(decode_string(br"a\ud800", &mut out), Err(Refusal::StringParseError));
    assert_eq!(&out, b"......");
}

#[test]
fn tree_just_enough() {
    let (mut nodes, mut text, mut stack) = ([9; 21], [9; 3], [9; 3]);
    assert_eq!(
        parse_sexpr(INPUT, &mut nodes[..20], &mut text[..2], &mut stack[..2]),
        Ok(Tree { nodes: 5, text: 2, depth: 2 })
    );
    assert_eq!(
        nodes[..20],
        [[5, 3, 5, 0], [4, 1, 0, 0], [5, 1, 4, 0], [1, 4, u64::MAX, u64::MAX], [3, 1, 1, 0]].concat()
    );
    assert_eq!((nodes[20], text, stack), (9, [b'a', b'b', 9], [0, 0, 9]));
}

#[test]
fn tree_one_short() {
    let rooms = [(19, 2, 2, Refusal::NodeRoom(5)), (20, 1, 2, Refusal::TextRoom(2)), (20, 2, 1, Refusal::DepthRoom(2))];
    for (n, t, s, refusal) in rooms {
        let (mut nodes, mut text, mut stack) = ([9; 21], [9; 3], [9; 3]);
        assert_eq!(parse_sexpr(INPUT, &mut nodes[..n], &mut text[..t], &mut stack[..s]), Err(refusal));
        assert_eq!((nodes, text, stack), ([9; 21], [9; 3], [9; 3]));
    }
}

#[test]
fn room_to_spare() {
    let (mut nodes, mut text, mut stack) = ([9; 64], [9; 16], [9; 16]);
    assert_eq!(parse_sexpr(b"x", &mut nodes, &mut text, &mut stack), Ok(Tree { nodes: 1, text: 1, depth: 0 }));
    assert_eq!((&nodes[..5], &text[..2], stack), (&[4, 1, 0, 0, 9][..], &[b'x', 9][..], [9; 16]));
    assert!(nodes[4..].iter().all(|&word| word == 9) && text[1..].iter().all(|&byte| byte == 9));
}
