//! Listings, of models and of replies to get-value: document 01's sample, refusals, rooms, the answers from vectors/, and the real replies.

use std::fs;
use std::thread;

use stazzumpi::models::{self, list_model, list_values};
use stazzumpi::tables::Tables;
use stazzumpi::{parse_sexpr, Refusal, NODE_WORDS};

mod replies;

const TABLES: &[u8] = include_bytes!("../../../crates/modellist/data/tables.txt");
const REPLY: &[u8] = include_bytes!("../../../crates/modellist/stdin");
const LISTING: &[u8] = include_bytes!("../../../crates/modellist/stdout");

/// A listing in as much memory as it takes.
fn list(tables: &[u8], reply: &[u8]) -> Result<Vec<u8>, Refusal> {
    models::list(tables, reply, usize::MAX)
}

/// Hands on the tables of a text and the words and text of a reply's tree.
fn with<R>(tables: &[u8], reply: &[u8], then: impl FnOnce(&Tables<'_>, &[u64], &[u8]) -> R) -> R {
    let mut rows = vec![[0; 5_120]; 4];
    let [a, b, c, d] = &mut rows[..] else { unreachable!() };
    let mut fields = vec![0; 32_768];
    let tables = Tables::read(tables, a, &mut fields, b, c, d).expect("lawful tables");
    let (mut nodes, mut text, mut stack) =
        (vec![7; NODE_WORDS * reply.len()], vec![7; 2 * reply.len()], vec![7; reply.len()]);
    parse_sexpr(reply, &mut nodes, &mut text, &mut stack).expect("an S-expression");
    then(&tables, &nodes, &text)
}

type Whole = fn(&[u8], &[u8], usize) -> Result<Vec<u8>, Refusal>;
type Call = fn(&Tables<'_>, &[u64], &[u8], &mut [u8]) -> Result<usize, Refusal>;

/// A model's listing in its rooms.
fn in_rooms(tables: &[u8], reply: &[u8], listing: &[u8], need: usize) {
    in_rooms_by(list_model, tables, reply, listing, need);
}

/// A listing in a room that is just its need, in one that is larger and in one that is a byte short, marked on all sides.
fn in_rooms_by(call: Call, tables: &[u8], reply: &[u8], listing: &[u8], need: usize) {
    with(tables, reply, |tables, nodes, text| {
        for spare in [0, 5] {
            let mut out = vec![7; 3 + need + spare + 3];
            let length = call(tables, nodes, text, &mut out[3..3 + need + spare]);
            assert_eq!(length, Ok(listing.len()));
            assert_eq!(out, [&[7; 3], listing, &vec![0; need - listing.len()], &[7; 3], &vec![7; spare]].concat());
        }
        let mut out = vec![7; 3 + need];
        for short in [&mut out[3..need + 2], &mut []] {
            assert_eq!(call(tables, nodes, text, short), Err(Refusal::OutRoom(need)));
        }
        assert_eq!(out, vec![7; 3 + need]);
    });
}

#[test]
fn sample() {
    assert_eq!(list(TABLES, REPLY), Ok(LISTING.to_vec()));
    in_rooms(TABLES, REPLY, LISTING, LISTING.len());
    assert_eq!(list(b"", b"()"), Ok(b"vars=0\nfuns=0\n".to_vec()));
}

/// A member and an arm that are written twice are in the need: `,true`, and the two lines of an arm.
#[test]
fn zeros_up_to_the_need() {
    let tables = b"sort=bool\nsort=set 0\nvar=s 1\nfun=f 0 0\n";
    let reply = b"((define-fun s () (Set Bool) (set.union (set.singleton true) (set.singleton true)))
        (define-fun f ((a Bool)) Bool (ite (= a true) true (ite (= true a) false true))))";
    let listing = b"vars=1\nfuns=1\nvar=s\nsort=1\nvalue={true}\n\
        fun=f\narg=0\nout=0\nwhen=true\nthen=false\nelse=true\n";
    assert_eq!(list(tables, reply), Ok(listing.to_vec()));
    in_rooms(tables, reply, listing, listing.len() + 5 + 20);
}

/// Only the last definition counts, in the need too; each is checked.
#[test]
fn defined_twice() {
    let reply = b"((define-fun x () (Option (_ BitVec 8)) (some #x01))
        (define-fun x () (Option (_ BitVec 8)) (as none (Option (_ BitVec 8)))))";
    let listing = b"vars=1\nfuns=0\nvar=x\nsort=2\nvalue=none\n";
    in_rooms(TABLES, reply, listing, listing.len());
}

#[test]
fn refused() {
    let nested = |count: usize| {
        let sort = format!("{}Bool{}", "(Option ".repeat(count), ")".repeat(count));
        format!("((define-fun x () {sort} true))").into_bytes()
    };
    let samples: [(&[u8], Refusal); 14] = [
        (b"", Refusal::UnexpectedEnd), // the reader's
        (b"x", Refusal::UnexpectedModel),
        (b"7", Refusal::UnexpectedModel),
        (b"(x)", Refusal::UnexpectedModel),
        (b"((define-fun x () Bool))", Refusal::UnexpectedModel),
        (b"((define-fun y () Int 3) (declare-fun y () Int))", Refusal::UnexpectedModel),
        (b"((define-fun x () (Option (_ BitVec 8)) nil))", Refusal::UnknownLiteral),
        (b"((define-fun x () Bool true))", Refusal::UnmatchedType), // not the table's sort
        (b"((define-fun x () (Option (_ BitVec 8)) true))", Refusal::UnmatchedType), // not the written one
        (b"((define-fun x () Bool true) x)", Refusal::UnmatchedType), // the first command comes first
        (b"((define-fun f ((a (_ BitVec 8))) Bool (ite a true false)))", Refusal::UnexpectedForm),
        (b"((define-fun x () (_ BitVec 0) #x00))", Refusal::ZeroWidthBitVec),
        (&nested(1_023), Refusal::NoSortRow),
        (&nested(1_024), Refusal::TooNested),
    ];
    for (reply, refusal) in samples {
        assert_eq!(list(TABLES, reply), Err(refusal), "{}", String::from_utf8_lossy(reply));
    }
    assert_eq!(list(b"sort=bool", REPLY), Err(Refusal::BadTable));
    assert_eq!(list(&[b'\n'; 65_537], REPLY), Err(Refusal::InputTooLong));
}

/// As deep as document 01 lets a value be, on as much stack as the header names.
#[test]
fn deepest() {
    let nested = |open: &str, inside: &str, close: &str| open.repeat(1_023) + inside + &close.repeat(1_023);
    let rows: String = (0..1_023).map(|row| format!("sort=set {row}\n")).collect();
    let (sort, value) = (nested("(Set ", "Bool", ")"), nested("(set.singleton ", "true", ")"));
    let tables = format!("sort=bool\n{rows}var=x 1023\n");
    let reply = format!("((define-fun x () {sort} {value}))");
    let listing = format!("vars=1\nfuns=0\nvar=x\nsort=1023\nvalue={}\n", nested("{", "true", "}"));
    let thread = thread::Builder::new().stack_size(1_300_000);
    let listed = thread.spawn(move || list(tables.as_bytes(), reply.as_bytes())).expect("a thread").join();
    assert_eq!(listed.expect("room on the stack"), Ok(listing.into_bytes()));
}

/// Words that nobody read, to both calls: the tables' rules first, then the arena's, then the root; nothing is written.
#[test]
fn words_refused() {
    let wrong = Tables { sorts: &[0, 0, 7, 0, 0], ..Tables::default() }; // an option of itself
    let lawful = Tables::default();
    for call in [list_model, list_values] as [Call; 2] {
        let mut out = [7; 32];
        assert_eq!(call(&wrong, &[], &[], &mut out), Err(Refusal::BadTable));
        assert_eq!(call(&lawful, &[], &[], &mut out), Err(Refusal::BadArena));
        assert_eq!(call(&lawful, &[5, 1, 1, 0], &[], &mut out), Err(Refusal::BadArena));
        assert_eq!(call(&lawful, &[4, 1, 0, 0], b"a", &mut out), Err(Refusal::UnexpectedModel));
        assert_eq!(call(&lawful, &[5, 0, 1, 0], &[], &mut out[..13]), Err(Refusal::OutRoom(14)));
        assert_eq!(out, [7; 32]);
        assert_eq!(call(&lawful, &[5, 0, 1, 0], &[], &mut out[..14]), Ok(14));
        assert_eq!((&out[..14], &out[14..]), (&b"vars=0\nfuns=0\n"[..], &[7; 18][..]));
    }
}

/// Replies to get-value over `tables`: each with its listing's lines behind `funs=0`, or with its refusal.
#[test]
fn values_of_pairs() {
    let tables = b"sort=bool\nsort=bitvec 1\nsort=set 0\nvar=b 0\nvar=s 2\nfun=f 0 0\n";
    let lists = |reply: &str, vars: usize, lines: &str, more: usize| {
        let listing = format!("vars={vars}\nfuns=0\n{lines}").into_bytes();
        assert_eq!(models::values(tables, reply.as_bytes(), usize::MAX).as_ref(), Ok(&listing), "{reply}");
        in_rooms_by(list_values, tables, reply.as_bytes(), &listing, listing.len() + more);
    };
    lists("()", 0, "", 0);
    lists("((b true))", 1, "var=b\nsort=0\nvalue=true\n", 0);
    lists("((b true) (b false))", 1, "var=b\nsort=0\nvalue=false\n", 0); // the later one
    lists("((z z) (f z) (|b| z))", 0, "", 0); // unread: no variable, a function, a name with bars
    lists(
        "((s (set.union (set.singleton true) (set.singleton true))) (b true))",
        2,
        "var=b\nsort=0\nvalue=true\nvar=s\nsort=2\nvalue={true}\n",
        5,
    ); // in table order; `,true` is in the need
    let samples: [(&str, Refusal); 13] = [
        ("b", Refusal::UnexpectedModel),
        ("(b true)", Refusal::UnexpectedModel),
        ("((b))", Refusal::UnexpectedModel),
        ("((z z z))", Refusal::UnexpectedModel), // a shape is looked at before a name
        ("((7 true))", Refusal::UnexpectedModel),
        ("(((b) true))", Refusal::UnexpectedModel),
        ("((define-fun b () Bool true))", Refusal::UnexpectedModel),
        ("((b z) x)", Refusal::UnknownLiteral), // the first pair's comes first
        ("((b z) (b true))", Refusal::UnknownLiteral), // one that is replaced is checked
        ("((b #b1))", Refusal::UnmatchedType),
        ("((b (_ bv0 0)))", Refusal::ZeroWidthBitVec),
        ("((s (set.singleton #b1)))", Refusal::NoSortRow),
        ("((b true)", Refusal::UnexpectedEnd), // the reader's
    ];
    for (reply, refusal) in samples {
        assert_eq!(models::values(tables, reply.as_bytes(), usize::MAX), Err(refusal), "{reply}");
    }
    assert_eq!(models::list(tables, b"((b true))", usize::MAX), Err(Refusal::UnexpectedModel)); // no model
    assert_eq!(models::values(b"sort=bool", b"()", usize::MAX), Err(Refusal::BadTable));
    assert_eq!(models::values(tables, b"()", 0), Err(Refusal::OutRoom(15)));
}

fn bytes(hex: &str) -> Vec<u8> {
    let hex = hex.trim_matches('-');
    (0..hex.len()).step_by(2).map(|at| u8::from_str_radix(&hex[at..at + 2], 16).expect("a pair of digits")).collect()
}

/// The list of vectors/README.md, but for refusals that hang on what the program that replays it lends.
#[test]
fn as_document_01_has_it() {
    let cases = include_str!("../../../crates/replay_listings/stdin").lines();
    let answers = include_str!("../../../crates/replay_listings/stdout").split_terminator("\n\n");
    for (case, answer) in cases.zip(answers) {
        let fields: Vec<&str> = case.split(' ').collect();
        let (tables, reply) = (bytes(fields[1]), bytes(fields[2]));
        // a small letter is of a reply to get-value
        let values = fields[0].starts_with(|letter: char| letter.is_lowercase());
        let (whole, call): (Whole, Call) =
            if values { (models::values, list_values) } else { (models::list, list_model) };
        let got = whole(&tables, &reply, usize::MAX);
        if let Some(refused) = answer.strip_prefix("refused=") {
            let number: u8 = refused.lines().next().and_then(|number| number.parse().ok()).expect("a number");
            if ![9, 10, 11, 12, 26, 27].contains(&number) {
                assert_eq!(got.map_err(Refusal::number), Err(number), "{case}");
            }
        } else {
            let (listing, rooms) = answer.split_at(answer.rfind("need=").expect("a need"));
            assert_eq!(got.as_deref(), Ok(listing.as_bytes()), "{case}");
            let need = rooms["need=".len()..].lines().next().and_then(|need| need.parse().ok()).expect("a number");
            in_rooms_by(call, &tables, &reply, listing.as_bytes(), need);
        }
    }
}

/// The real replies that document 01 refuses and the crate lists (docs/DIFFERENCES.md, D1 and D4).
const OTHERWISE: [(&str, u8); 6] = [
    ("bv-functions/z3-4.8.12+model.compact=false.model.txt", 15),
    ("bv-functions/z3-4.8.12+pp.bv_literals=false.model.txt", 15),
    ("bv-functions/z3-4.8.12.model.txt", 15),
    ("option-single/z3-4.8.12.model.txt", 15),
    ("fun-bool-1-1/cvc5-1.0.3.model.txt", 22),
    ("shop-policy-1/cvc5-1.0.3.model.txt", 22),
];

#[test]
fn real_replies() {
    let (mut replies, mut otherwise) = (0, 0);
    for path in replies::models() {
        let tables = fs::read(path.with_file_name("tables.txt")).expect("tables");
        let got = match list(&tables, &fs::read(&path).expect("a reply")) {
            Ok(listing) => listing,
            Err(refusal) => format!("refused={}\n", refusal.number()).into_bytes(),
        };
        let want = match OTHERWISE.iter().find(|(name, _)| path.ends_with(name)) {
            Some((_, number)) => {
                otherwise += 1;
                format!("refused={number}\n").into_bytes()
            }
            None => fs::read(path.with_extension("crate.txt")).expect("the crate's answer"),
        };
        assert!(got == want, "{}: {}", path.display(), String::from_utf8_lossy(&got));
        replies += 1;
    }
    assert_eq!((replies, otherwise), (87, 6));
}
