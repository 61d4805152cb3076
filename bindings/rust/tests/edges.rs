//! Document 01, "Samples at the edges".

use stazzumpi::{check_arena, parse_sexpr, Arena, Refusal, Tree, NODE_WORDS};

/// A reading with all the room an input can need: its words and its text.
fn read(input: &[u8]) -> Result<(Vec<u64>, Vec<u8>), Refusal> {
    let (mut nodes, mut text, mut stack) =
        (vec![7; NODE_WORDS * input.len()], vec![7; 2 * input.len()], vec![7; input.len()]);
    let tree = parse_sexpr(input, &mut nodes, &mut text, &mut stack)?;
    assert_eq!(check_arena(&nodes, &text), Ok(Arena { nodes: tree.nodes, text: tree.text }));
    nodes.truncate(NODE_WORDS * tree.nodes);
    text.truncate(tree.text);
    Ok((nodes, text))
}

#[test]
fn refused() {
    let samples: [(&[u8], Refusal); 10] = [
        (b"", Refusal::UnexpectedEnd),
        (b")", Refusal::UnclosedSExpr),
        (b"a b", Refusal::TrailingTokens),
        (b") \"", Refusal::UnexpectedEnd),
        (b"#b", Refusal::ParseIntError),
        (b"#", Refusal::UnexpectedEnd),
        (b"\"\\ud800\"", Refusal::StringParseError),
        (b"12ab", Refusal::TrailingTokens),
        (b"\xff", Refusal::Utf8Error),
        (b"340282366920938463463374607431768211456", Refusal::ParseIntError),
    ];
    for (input, refusal) in samples {
        assert_eq!(read(input), Err(refusal), "{}", String::from_utf8_lossy(input));
    }
}

#[test]
fn strings() {
    let samples: [(&[u8], &[u8]); 4] = [
        (b"\"\\u{000041}\"", b"A"),
        (b"\"\\u{0000041}\"", b"\\u{0000041}"),
        (b"\"\"\"\"", b"\""),
        (b"\"\xff\"", b"\xc3\xbf"),
    ];
    for (input, text) in samples {
        assert_eq!(read(input), Ok((vec![3, text.len() as u64, 0, 0], text.to_vec())));
    }
}

#[test]
fn trees() {
    let words = [[5, 3, 4, 0], [4, 1, 0, 0], [1, 4, u64::MAX, u64::MAX], [3, 1, 1, 0]].concat();
    assert_eq!(read(b"(a #xF \"b\")"), Ok((words, b"ab".to_vec())));
    let most = b"340282366920938463463374607431768211455";
    assert_eq!(read(most), Ok((vec![2, 0, u64::MAX, u64::MAX], vec![])));
    let wide = format!("#b0{}", "1".repeat(128));
    assert_eq!(read(wide.as_bytes()), Ok((vec![1, 129, u64::MAX, u64::MAX], vec![])));
}

#[test]
fn too_long() {
    let input = vec![b' '; 16_777_217];
    assert_eq!(parse_sexpr(&input, &mut [], &mut [], &mut []), Err(Refusal::InputTooLong));
    assert_eq!(parse_sexpr(&input[1..], &mut [], &mut [], &mut []), Err(Refusal::UnexpectedEnd));
}

#[test]
fn no_arena() {
    assert_eq!(check_arena(&[], &[]), Err(Refusal::BadArena));
    assert_eq!(check_arena(&[4, 1, 0, 0], b"a"), Ok(Arena { nodes: 1, text: 1 }));
    assert_eq!(check_arena(&[4, 1, 1, 0], b"ab"), Err(Refusal::BadArena));
}

#[test]
fn told_to_people() {
    let tree = parse_sexpr(b"a", &mut [0; 4], &mut [], &mut []);
    let told = "TextRoom (1): lend as many bytes for the text, and call again";
    assert_eq!(tree.map_err(|refusal| refusal.to_string()), Err::<Tree, _>(told.to_string()));
}
