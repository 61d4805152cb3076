//! `models::list` and `trees::parse` within a limit: just enough passes, less is refused with a need, no more is ever held;
//! and the rooms for tables are as large as their text needs them.

use std::alloc::{GlobalAlloc, Layout, System};
use std::cell::Cell;
use std::ptr;

use stazzumpi::models::{self, list_model};
use stazzumpi::tables::Tables;
use stazzumpi::{parse_sexpr, trees, Refusal, Tree, NODE_WORDS};

/// Notes what each thread holds, and has no room for it above a size.
struct Noting;

thread_local! {
    static HELD: Cell<isize> = const { Cell::new(0) };
    static MOST: Cell<isize> = const { Cell::new(0) };
    static LARGEST: Cell<usize> = const { Cell::new(usize::MAX) };
}

#[global_allocator]
static NOTING: Noting = Noting;

// SAFETY: all memory is the system's; a thread's numbers are noted without taking any.
unsafe impl GlobalAlloc for Noting {
    unsafe fn alloc(&self, layout: Layout) -> *mut u8 {
        if layout.size() > LARGEST.get() {
            return ptr::null_mut();
        }
        HELD.set(HELD.get() + layout.size() as isize);
        MOST.set(MOST.get().max(HELD.get()));
        unsafe { System.alloc(layout) }
    }

    unsafe fn dealloc(&self, at: *mut u8, layout: Layout) {
        HELD.set(HELD.get() - layout.size() as isize);
        unsafe { System.dealloc(at, layout) }
    }
}

/// A call's answer, and the most bytes that it held at once.
fn held<R>(call: impl FnOnce() -> R) -> (R, usize) {
    let before = HELD.get();
    MOST.set(before);
    let answer = call();
    (answer, (MOST.get() - before) as usize)
}

const TABLES: &[u8] = include_bytes!("../../../crates/modellist/data/tables.txt");
const REPLY: &[u8] = include_bytes!("../../../crates/modellist/stdin");
const LISTING: &[u8] = include_bytes!("../../../crates/modellist/stdout");

/// Each kind of row and two fields; a set whose need is more than its text, and a reply that is shorter than its listing.
const FULL_TABLES: &[u8] = b"sort=bool\nsort=string\nsort=entity Color\nsort=record Pair 0 1\nsort=set 2\n\
    var=x 4\nvar=y 3\nfun=f 2 0\nenum=Red 2 the red, which is a long text\n";
const FULL_REPLY: &[u8] = b"((define-fun x () (Set Color) (set.union (set.singleton Red) (set.singleton Red)))\
    (define-fun y () Pair (Pair true \"\")))";

/// As much room as any text of tables needs, and its tables.
fn with_tables<R>(text: &[u8], then: impl FnOnce(&Tables<'_>) -> R) -> Result<R, Refusal> {
    let mut rows = vec![[0; 5_120]; 4];
    let [a, b, c, d] = &mut rows[..] else { unreachable!() };
    Tables::read(text, a, &mut vec![0; 32_768], b, c, d).map(|tables| then(&tables))
}

/// What a tree takes, by the library.
fn tree_of(reply: &[u8]) -> Tree {
    let (mut nodes, mut text, mut stack) =
        (vec![0; NODE_WORDS * reply.len()], vec![0; 2 * reply.len()], vec![0; reply.len()]);
    parse_sexpr(reply, &mut nodes, &mut text, &mut stack).expect("an S-expression")
}

/// The refusals at every limit from 0 up, each once with the first limit that it is given at, and the first limit that is
/// enough. No call holds more than its limit; that one holds all of it; and larger ones answer the same.
fn by_limit<R: PartialEq>(call: impl Fn(usize) -> Result<R, Refusal>) -> (Vec<(usize, Refusal)>, usize) {
    let within = |limit| {
        let (answer, most) = held(|| call(limit));
        assert!(most <= limit, "{most} bytes held where {limit} are the limit");
        (answer, most)
    };
    let (mut refusals, mut limit): (Vec<(usize, Refusal)>, usize) = (vec![], 0);
    while let (Err(refusal), _) = within(limit) {
        if refusals.last().map_or(true, |&(_, last)| last != refusal) {
            refusals.push((limit, refusal));
        }
        limit += 1;
    }
    let (answer, most) = within(limit);
    assert_eq!(most, limit);
    for more in [limit + 1, 2 * limit, usize::MAX] {
        assert!(within(more).0 == answer);
    }
    (refusals, limit)
}

#[test]
fn sample_by_every_limit() {
    let tree = tree_of(REPLY);
    let (rows, nodes) = (3 * 40 + 40 + 40, 32 * tree.nodes);
    let (refusals, enough) = by_limit(|limit| models::list(TABLES, REPLY, limit));
    let read = rows + nodes + tree.text;
    let expected = [
        (0, Refusal::OutRoom(15)),  // the words of three sorts
        (120, Refusal::OutRoom(5)), // of a variable, then of a function
        (rows, Refusal::NodeRoom(tree.nodes)),
        (rows + nodes, Refusal::TextRoom(tree.text)),
        (read, Refusal::DepthRoom(tree.depth)),
        (read + 8 * tree.depth, Refusal::OutRoom(LISTING.len())),
    ];
    assert_eq!(refusals, expected);
    assert_eq!(enough, read + LISTING.len());
    assert_eq!(models::list(TABLES, REPLY, enough), Ok(LISTING.to_vec()));
}

/// Fields, members, and a need that is more than the listing has.
#[test]
fn full_by_every_limit() {
    let tree = tree_of(FULL_REPLY);
    let (refusals, enough) = by_limit(|limit| models::list(FULL_TABLES, FULL_REPLY, limit));
    let length = models::list(FULL_TABLES, FULL_REPLY, usize::MAX).expect("a listing").len();
    let need = length + ",e2:".len() + 2 * "the red, which is a long text".len();
    let rows = 9 * 40 + 2 * 8;
    let read = rows + 32 * tree.nodes + tree.text;
    assert!(length < need && FULL_REPLY.len() < need && 8 * tree.depth < need);
    assert_eq!(enough, read + need);
    let expected = [
        (0, Refusal::OutRoom(25)),
        (200, Refusal::OutRoom(2)),
        (216, Refusal::OutRoom(10)),
        (296, Refusal::OutRoom(5)),
        (rows, Refusal::NodeRoom(tree.nodes)),
        (rows + 32 * tree.nodes, Refusal::TextRoom(tree.text)),
        (read, Refusal::DepthRoom(tree.depth)),
        (read + 8 * tree.depth, Refusal::OutRoom(need)),
    ];
    assert_eq!(refusals, expected);
}

/// The bracket stack is given back when the reply is read: where it is larger than the listing, that takes no more.
#[test]
fn stack_given_back() {
    let reply = b"((define-fun skipped () ((((((((((((((((((((((((((((((x)))))))))))))))))))))))))))))) y))";
    let tree = tree_of(reply);
    let (refusals, enough) = by_limit(|limit| models::list(b"", reply, limit));
    let read = 32 * tree.nodes + tree.text;
    assert_eq!(enough, read + 8 * tree.depth);
    let expected = [
        (0, Refusal::NodeRoom(tree.nodes)),
        (32 * tree.nodes, Refusal::TextRoom(tree.text)),
        (read, Refusal::DepthRoom(tree.depth)),
    ];
    assert_eq!(refusals, expected);
}

#[test]
fn trees_by_every_limit() {
    for reply in [REPLY, b"a", b"()", b"7", b"\"\"", b"(a (#xF) \"b\")"] {
        let tree = tree_of(reply);
        let (_, enough) = by_limit(|limit| trees::parse(reply, limit));
        assert_eq!(enough, 32 * tree.nodes + tree.text + 8 * tree.depth);
    }
}

/// What is wrong with the texts is told at any limit; room is looked at after it.
#[test]
fn other_refusals_first() {
    for limit in [0, 100, usize::MAX] {
        assert_eq!(models::list(b"x", REPLY, limit), Err(Refusal::BadTable));
        assert_eq!(models::list(&b"sort=bool\n".repeat(2_000), REPLY, limit), Err(Refusal::BadTable));
        assert_eq!(models::list(&[b'\n'; 65_537], REPLY, limit), Err(Refusal::InputTooLong));
        assert_eq!(models::list(b"", b"", limit), Err(Refusal::UnexpectedEnd));
        assert_eq!(trees::parse(b")", limit), Err(Refusal::UnclosedSExpr));
    }
    let enough = 32 + "unsat".len();
    assert_eq!(models::list(b"", b"unsat", enough - 1), Err(Refusal::TextRoom(5)));
    assert_eq!(models::list(b"", b"unsat", enough), Err(Refusal::UnexpectedModel));
}

/// Memory that the machine does not have is refused as the limit refuses it.
#[test]
fn no_memory() {
    let with = |largest, call: &dyn Fn() -> Option<Refusal>| {
        LARGEST.set(largest);
        let refusal = call();
        LARGEST.set(usize::MAX);
        refusal
    };
    let tree = tree_of(REPLY);
    let list = || models::list(TABLES, REPLY, usize::MAX).err();
    assert_eq!(with(119, &list), Some(Refusal::OutRoom(15)));
    assert_eq!(with(120, &list), Some(Refusal::NodeRoom(tree.nodes)));
    assert_eq!(with(32 * tree.nodes, &list), None);
    assert_eq!(with(31, &|| trees::parse(b"a", usize::MAX).err()), Some(Refusal::NodeRoom(1)));
    assert_eq!(with(32, &|| trees::parse(b"a", usize::MAX).err()), None);
    let long = vec![b'a'; 50];
    assert_eq!(with(49, &|| trees::parse(&long, usize::MAX).err()), Some(Refusal::TextRoom(50)));
}

/// A text of tables is answered as it is in the largest rooms, with a reply that defines nothing.
fn as_in_plenty(text: &[u8]) {
    let plenty = with_tables(text, |tables| {
        let mut out = [0; 14];
        list_model(tables, &[5, 0, 1, 0], &[], &mut out).map(|_| out.to_vec())
    });
    let answer = models::list(text, b"()", usize::MAX);
    assert!(answer == plenty.and_then(|listing| listing), "{}", String::from_utf8_lossy(text));
}

/// Texts of tables with a byte changed, left out or put in, and cut short.
#[test]
fn damaged_tables() {
    for at in 0..FULL_TABLES.len() {
        as_in_plenty(&FULL_TABLES[..at]);
        let mut text = FULL_TABLES.to_vec();
        text.remove(at);
        as_in_plenty(&text);
        text.insert(at, 0);
        for byte in b"\n =aeou019\xc3" {
            text[at] = *byte;
            as_in_plenty(&text);
        }
        text.insert(at, FULL_TABLES[at]);
        as_in_plenty(&text);
    }
    as_in_plenty(FULL_TABLES);
}

/// Bytes in the form of vectors/README.md: pieces between dots, `*N` behind one that goes on until it is N bytes long, N in
/// hexadecimal too.
fn bytes(pieces: &str) -> Vec<u8> {
    let piece = |piece: &str| {
        let (hex, long) = piece.split_once('*').unwrap_or((piece, ""));
        let digits = |at| u8::from_str_radix(&hex[at..at + 2], 16).expect("a pair of digits");
        let bytes: Vec<u8> = (0..hex.len()).step_by(2).map(digits).collect();
        let long = if long.is_empty() { bytes.len() } else { usize::from_str_radix(long, 16).expect("a number") };
        bytes.into_iter().cycle().take(long).collect::<Vec<u8>>()
    };
    pieces.split('.').flat_map(piece).collect()
}

/// The texts of vectors/, at their limits of rows, fields and bytes too.
#[test]
fn tables_of_vectors() {
    let cases = include_str!("../../../crates/replay_tables/stdin").lines();
    let answers = include_str!("../../../crates/replay_tables/stdout").lines();
    let (mut read, mut refused) = (0, 0);
    for (case, answer) in cases.zip(answers) {
        let Some(text) = case.strip_prefix("T ") else { continue };
        match models::list(&bytes(text), b"()", usize::MAX) {
            Ok(listing) => {
                assert!(listing == b"vars=0\nfuns=0\n" && answer.starts_with("sorts="), "{case}");
                read += 1;
            }
            Err(refusal) => {
                assert_eq!(answer, format!("refused={}", refusal.number()), "{case}");
                refused += 1;
            }
        }
    }
    assert!(read > 0 && refused > 0);
}
