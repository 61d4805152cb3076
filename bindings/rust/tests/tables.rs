//! Tables that pass the check of 25, and tables that do not; tables read from their text; rows found in them.

use stazzumpi::tables::{Tables, Wanted};
use stazzumpi::Refusal;

/// Document 01's sample: bool, bitvec 8, option 1; x of sort 2; f from 1 to 0.
const SAMPLE: Tables<'static> = Tables {
    sorts: &[0, 0, 1, 0, 0, 0, 0, 6, 8, 0, 0, 0, 7, 1, 0],
    fields: &[],
    variables: &[0, 1, 2, 0, 0],
    functions: &[1, 1, 1, 0, 0],
    members: &[],
    names: b"xf",
};

#[test]
fn passes() {
    assert_eq!(SAMPLE.check(), Ok(()));
    assert_eq!(Tables::default().check(), Ok(()));
}

#[test]
fn refused() {
    let wrong = [
        Tables { variables: &[0, 1, 3, 0, 0], ..SAMPLE }, // a sort out of range
        Tables { variables: &[0, 1, 2, 0], ..SAMPLE },    // a row that is not whole
        Tables { variables: &[0, 1, 2, 0, 0, 0, 1, 0, 0, 0], ..SAMPLE }, // a name twice
        Tables { variables: &[1, 2, 2, 0, 0], ..SAMPLE }, // a name past the bytes
        Tables { sorts: &[0, 0, 6, 129, 0], functions: &[], variables: &[], ..SAMPLE }, // a bit vector too wide
        Tables { sorts: &[0, 0, 7, 0, 0], functions: &[], variables: &[], ..SAMPLE }, // an option of itself
        Tables { sorts: &[0, 0, 1, 0, 0, 0, 0, 1, 0, 0], functions: &[], variables: &[], ..SAMPLE }, // equal sorts
        Tables { names: b"1f", ..SAMPLE },                // a name that is no symbol
    ];
    for tables in wrong {
        assert_eq!(tables.check(), Err(Refusal::BadTable), "{tables:?}");
    }
}

const TEXT: &[u8] = b"sort=bool\nsort=bitvec 8\nsort=option 1\nvar=x 2\nfun=f 1 0\n";

/// A text with each kind of row, and two fields.
const FULL: &[u8] = b"sort=bool\nsort=string\nsort=entity Color\nsort=record Pair 0 1\nsort=set 2\n\
var=x 4\nvar=y 3\nfun=f 2 0\nenum=Red 2 the red\n";

/// The words that each table of `FULL` has, fields second.
const ROOM: [usize; 5] = [25, 2, 10, 5, 5];

/// A text read into slices of 30 nines, as much of each as is lent.
fn read_in(text: &[u8], lent: [usize; 5], buffers: &mut [[u64; 30]; 5]) -> Result<[usize; 5], Refusal> {
    let [a, b, c, d, e] = buffers.each_mut();
    let [i, j, k, m, n] = lent;
    let tables = Tables::read(text, &mut a[..i], &mut b[..j], &mut c[..k], &mut d[..m], &mut e[..n])?;
    assert_eq!((tables.names, tables.check()), (text, Ok(())));
    Ok([tables.sorts, tables.fields, tables.variables, tables.functions, tables.members].map(<[u64]>::len))
}

#[test]
fn sample_read() {
    let mut buffers = [[9; 30]; 5];
    assert_eq!(read_in(TEXT, [30; 5], &mut buffers), Ok([15, 0, 5, 5, 0]));
    let [sorts, fields, variables, functions, members] = buffers;
    assert_eq!((&sorts[..15], &sorts[15..]), (SAMPLE.sorts, &[9; 15][..]));
    assert_eq!((&variables[..6], &functions[..6]), (&[42, 1, 2, 0, 0, 9][..], &[50, 1, 1, 0, 0, 9][..]));
    assert_eq!((&TEXT[42..43], &TEXT[50..51]), (&b"x"[..], &b"f"[..]));
    assert_eq!((fields, members), ([9; 30], [9; 30]));
}

#[test]
fn sample_looked_up() {
    let (mut sorts, mut variables, mut functions) = ([0; 15], [0; 5], [0; 5]);
    let tables = Tables::read(TEXT, &mut sorts, &mut [], &mut variables, &mut functions, &mut []).unwrap();
    for tables in [tables, SAMPLE] {
        assert_eq!([b"x", b"f", b"y"].map(|name| tables.find_variable(name)), [Some(0), None, None]);
        assert_eq!([b"x", b"f", b"y"].map(|name| tables.find_function(name)), [None, Some(0), None]);
        let wanted = [Wanted::Bool, Wanted::BitVec(8), Wanted::Option(1)];
        assert_eq!(wanted.map(|sort| tables.find_sort(sort)), [Some(0), Some(1), Some(2)]);
        let absent = [Wanted::String, Wanted::Decimal, Wanted::Datetime, Wanted::Duration];
        assert_eq!(absent.map(|sort| tables.find_sort(sort)), [None; 4]);
        let absent = [Wanted::BitVec(7), Wanted::Option(0), Wanted::Set(1)];
        assert_eq!(absent.map(|sort| tables.find_sort(sort)), [None; 3]);
        assert_eq!((tables.find_member(b"x"), tables.find_sort_name(b"x")), (None, None));
    }
}

#[test]
fn full_looked_up() {
    let mut buffers = [[9; 30]; 5];
    assert_eq!(read_in(FULL, ROOM, &mut buffers), Ok(ROOM));
    let [sorts, fields, variables, functions, members] = &buffers;
    let tables = Tables {
        sorts: &sorts[..25],
        fields: &fields[..2],
        variables: &variables[..10],
        functions: &functions[..5],
        members: &members[..5],
        names: FULL,
    };
    assert_eq!(tables.fields, [0, 1]);
    assert_eq!((tables.find_sort_name(b"Color"), tables.find_sort_name(b"Pair")), (Some(2), Some(3)));
    assert_eq!((tables.find_sort_name(b"Red"), tables.find_sort_name(b"Pai")), (None, None));
    assert_eq!((tables.find_sort(Wanted::String), tables.find_sort(Wanted::Set(2))), (Some(1), Some(4)));
    assert_eq!((tables.find_variable(b"y"), tables.find_variable(b"")), (Some(1), None));
    assert_eq!((tables.find_member(b"Red"), tables.find_member(b"red")), (Some(0), None));
    // words that no check has seen: the first of two rows, and a name that ends with the bytes
    let twice = Tables { variables: &[0, 1, 0, 0, 0, 1, 1, 0, 0, 0, 1, 9, 0, 0, 0], names: b"ab", ..Tables::default() };
    assert_eq!((twice.find_variable(b"a"), twice.find_variable(b"b")), (Some(0), Some(1)));
    assert_eq!((Tables::default().find_variable(b""), twice.find_variable(b"ab")), (None, None));
}

#[test]
fn text_refused() {
    let wrong: [&[u8]; 6] = [
        b"sort=bool",                     // no 0A at the end
        b"sort=bitvec 08\n",              // a leading zero
        b"var=x 0\nsort=bool\n",          // another order of kinds
        b"sort=bool\n\n",                 // an empty line
        b"sort=bool\nvar=x 1\n",          // a sort out of range
        b"sort=bool\nvar=x 0\nvar=x 0\n", // a name twice
    ];
    let mut buffers = [[9; 30]; 5];
    for text in wrong {
        assert_eq!(read_in(text, [30; 5], &mut buffers), Err(Refusal::BadTable), "{text:?}");
    }
    assert_eq!(read_in(&[b'\n'; 65_537], [30; 5], &mut buffers), Err(Refusal::InputTooLong));
    assert_eq!(buffers, [[9; 30]; 5]);
}

#[test]
fn rooms_one_short() {
    for short in 0..5 {
        let mut buffers = [[9; 30]; 5];
        let mut room = ROOM;
        room[short] -= 1;
        assert_eq!(read_in(FULL, room, &mut buffers), Err(Refusal::OutRoom(ROOM[short])));
        assert_eq!(read_in(FULL, [ROOM[0], 0, 0, 0, 0], &mut buffers), Err(Refusal::OutRoom(ROOM[1])));
        assert_eq!(buffers, [[9; 30]; 5]);
    }
    let mut buffers = [[9; 30]; 5];
    assert_eq!(read_in(FULL, ROOM, &mut buffers), Ok(ROOM));
    for (buffer, room) in buffers.iter().zip(ROOM) {
        assert!(buffer[room..].iter().all(|&word| word == 9));
    }
}
