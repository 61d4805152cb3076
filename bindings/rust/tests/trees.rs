//! Trees node by node: document 01's sample, atoms, arenas of others, the real replies, and a deep one.

use std::fs;

use stazzumpi::trees::{parse, Children, Kind, Node};
use stazzumpi::{parse_sexpr, Refusal, NODE_WORDS};

mod replies;

/// A tree's words and text anew, from what its nodes say.
fn rebuilt(root: Node<'_>) -> (Vec<u64>, Vec<u8>) {
    let (mut words, mut text) = (vec![], vec![]);
    let mut open: Vec<(usize, Children<'_>)> = vec![];
    let mut next = Some(root);
    while let Some(node) = next {
        match node.kind() {
            Kind::BitVec { width, value } => words.extend([1, width, value as u64, (value >> 64) as u64]),
            Kind::Numeral(number) => words.extend([2, 0, number as u64, (number >> 64) as u64]),
            Kind::String(string) => put(3, string, &mut words, &mut text),
            Kind::Symbol(name) => put(4, name, &mut words, &mut text),
            Kind::App(children) => {
                open.push((words.len(), children.clone()));
                words.extend([5, children.len() as u64, 0, 0]);
            }
        }
        next = loop {
            let Some((at, children)) = open.last_mut() else { break None };
            if let Some(child) = children.next() {
                break Some(child);
            }
            words[*at + 2] = (words.len() / NODE_WORDS) as u64;
            open.pop();
        };
    }
    (words, text)
}

fn put(kind: u64, piece: &str, words: &mut Vec<u64>, text: &mut Vec<u8>) {
    assert_eq!(std::str::from_utf8(piece.as_bytes()), Ok(piece));
    words.extend([kind, piece.len() as u64, text.len() as u64, 0]);
    text.extend(piece.bytes());
}

#[test]
fn sample() {
    let tree = parse(b"(a #xF \"b\")", usize::MAX).unwrap();
    assert_eq!((tree.nodes().len(), tree.text()), (16, &b"ab"[..]));
    let mut children = tree.root().children();
    let kinds: Vec<Kind<'_>> = children.clone().map(Node::kind).collect();
    let [Kind::Symbol("a"), Kind::BitVec { width: 4, value: -1 }, Kind::String("b")] = kinds[..] else {
        panic!("{kinds:?}")
    };
    assert_eq!(children.len(), 3);
    for left in [2, 1, 0] {
        let child = children.next().unwrap();
        assert_eq!((children.len(), child.children().len()), (left, 0));
        assert!(child.children().next().is_none());
    }
    assert!(children.next().is_none() && children.next().is_none());
}

#[test]
fn atoms() {
    let is = |input: &[u8], wanted: fn(Kind<'_>) -> bool| {
        let tree = parse(input, usize::MAX).unwrap();
        assert!(wanted(tree.root().kind()), "{:?}", tree.root().kind());
    };
    is(b"340282366920938463463374607431768211455", |kind| matches!(kind, Kind::Numeral(u128::MAX)));
    is(b"007", |kind| matches!(kind, Kind::Numeral(7)));
    is(b"#b0111", |kind| matches!(kind, Kind::BitVec { width: 4, value: 7 }));
    is(b"#x80000000000000000000000000000000", |kind| matches!(kind, Kind::BitVec { width: 128, value: i128::MIN }));
    is(format!("#b0{}", "1".repeat(128)).as_bytes(), |kind| matches!(kind, Kind::BitVec { width: 129, value: -1 }));
    is(b"\"\\u{e9}\xe9\"\"\"", |kind| matches!(kind, Kind::String("\u{e9}\u{e9}\"")));
    is(b"\"\"", |kind| matches!(kind, Kind::String("")));
    is("|é|".as_bytes(), |kind| matches!(kind, Kind::Symbol("|é|")));
    is(b"()", |kind| matches!(kind, Kind::App(children) if children.len() == 0));
    assert_eq!(parse(b"", usize::MAX), Err(Refusal::UnexpectedEnd));
}

/// Words and a text that somebody else wrote, with more behind them; and such as are no arena.
#[test]
fn arenas_of_others() {
    let (mut nodes, mut text, mut stack) = ([9; 24], [9; 8], [9; 4]);
    parse_sexpr(b"(a (#xF) \"b\")", &mut nodes, &mut text, &mut stack).unwrap();
    let root = Node::root(&nodes, &text).unwrap();
    assert_eq!(rebuilt(root), (nodes[..20].to_vec(), b"ab".to_vec()));

    let wrong: [(&[u64], &[u8]); 9] = [
        (&[], b""),
        (&[4, 1, 0], b"a"),
        (&[4, 1, 0, 0], b""),                     // text that is not there
        (&[4, 1, 1, 0], b"ab"),                   // a gap in the text
        (&[4, 1, 0, 0], b"\xff"),                 // not UTF-8
        (&[3, 1, 0, 0, 3, 1, 1, 0], b"\xc3\xa9"), // UTF-8 only with what follows
        (&[5, 1, 1, 0], b""),                     // a child that is not there
        (&[5, u64::MAX, u64::MAX, 0], b""),
        (&[6, 0, 0, 0], b""),
    ];
    for (nodes, text) in wrong {
        assert_eq!(Node::root(nodes, text).map(rebuilt), Err(Refusal::BadArena), "{nodes:?}");
    }
}

#[test]
fn real_replies() {
    let mut count = 0;
    for path in replies::models() {
        let Ok(tree) = parse(&fs::read(&path).expect("a reply"), usize::MAX) else { continue };
        let (words, text) = rebuilt(tree.root());
        assert!(words == tree.nodes() && text == tree.text(), "{}", path.display());
        let again = Node::root(tree.nodes(), tree.text()).expect("an arena that the reader left");
        assert!(rebuilt(again) == (words, text), "{}", path.display());
        count += 1;
    }
    assert!(count > 0);
}

/// Document 01's answers from vectors/, each tree from its nodes.
#[test]
fn as_document_01_has_them() {
    let cases = include_str!("../../../crates/replay_trees/stdin").lines();
    let answers = include_str!("../../../crates/replay_trees/stdout").lines();
    let mut count = 0;
    for (case, answer) in cases.zip(answers).filter(|(case, _)| !case.starts_with('R')) {
        let digits = |at| u8::from_str_radix(&case[at..at + 2], 16).expect("a pair of digits");
        let input: Vec<u8> = (0..case.len()).step_by(2).map(digits).collect();
        match parse(&input, usize::MAX) {
            Ok(tree) => {
                let (words, text) = rebuilt(tree.root());
                let nodes: Vec<String> = words
                    .chunks(NODE_WORDS)
                    .map(|node| node.iter().map(|word| format!("{word:x}")).collect::<Vec<_>>().join(","))
                    .collect();
                let text: String = text.iter().map(|byte| format!("{byte:02x}")).collect();
                assert!(answer.starts_with(&format!("nodes={} text={text} ", nodes.join(";"))), "{case}");
                count += 1;
            }
            Err(refusal) => assert_eq!(format!("refused={}", refusal.number()), answer, "{case}"),
        }
    }
    assert!(count > 0);
}

/// Deeper than a stack is: no step calls itself, nor does what is told of a node.
#[test]
fn deep() {
    let depth = 1_000_000;
    let tree = parse(&[vec![b'('; depth], vec![b')'; depth]].concat(), usize::MAX).unwrap();
    let (mut node, mut count) = (tree.root(), 1);
    while let Some(child) = node.children().next() {
        (node, count) = (child, count + 1);
    }
    assert_eq!(count, depth);
    assert!(format!("{:?} {:?}", tree.root(), tree.root().kind()).len() < 200);
}
