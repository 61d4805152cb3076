//! Listings taken apart: document 01's sample, each form of a value, listings of vectors/ and of the real replies put together
//! again, and bytes that are no listing.

use std::fmt::Write;
use std::{fs, thread};

use stazzumpi::listings::{Hex, Listing, Value, Values, View};
use stazzumpi::models;

mod replies;

const LISTING: &str = include_str!("../../../crates/modellist/stdout");

/// A listing with each form of a value.
const FULL: &str = "vars=4
funs=2
var=x
sort=2
value=r4({bv4:1,bv4:2},some(none),e3:7a,s:61c3a9,{},r0(),{{},{some(true)}})
var=|y=|
sort=0
value=false
var=z
sort=10
value=s:
var=d
sort=1023
value=d:-9223372036854775808
fun=f
arg=1
out=0
when=bv127:7fffffffffffffffffffffffffffffff
then=t:0
when=u:10
then=bv128:ffffffffffffffffffffffffffffffff
else=none
fun=g
arg=0
out=0
else=true
";

/// The listing again, from its parts; none where a value, or a part of one, has no view.
fn again(listing: &Listing<'_>) -> Option<String> {
    let mut out = format!("vars={}\nfuns={}\n", listing.variables().len(), listing.functions().len());
    for variable in listing.variables() {
        let value = value_again(variable.value)?;
        writeln!(out, "var={}\nsort={}\nvalue={value}", variable.name, variable.sort).unwrap();
    }
    for function in listing.functions() {
        writeln!(out, "fun={}\narg={}\nout={}", function.name, function.argument, function.result).unwrap();
        for arm in function.arms() {
            writeln!(out, "when={}\nthen={}", value_again(arm.when)?, value_again(arm.then)?).unwrap();
        }
        writeln!(out, "else={}", value_again(function.default)?).unwrap();
    }
    Some(out)
}

fn value_again(value: Value<'_>) -> Option<String> {
    Some(match value.view()? {
        View::Bool(truth) => truth.to_string(),
        View::BitVec { width, value } => format!("bv{width}:{value:0digits$x}", digits = width.div_ceil(4) as usize),
        View::String(text) => format!("s:{}", hex(text)),
        View::Entity { row, text } => format!("e{row}:{}", hex(text)),
        View::Record { row, fields } => format!("r{row}({})", all(fields)?),
        View::None => "none".to_string(),
        View::Some(inner) => format!("some({})", value_again(inner)?),
        View::Set(members) => format!("{{{}}}", all(members)?),
        View::Decimal(number) => format!("d:{number}"),
        View::Datetime(number) => format!("t:{number}"),
        View::Duration(number) => format!("u:{number}"),
    })
}

fn all(values: Values<'_>) -> Option<String> {
    Some(values.map(value_again).collect::<Option<Vec<String>>>()?.join(","))
}

fn hex(text: Hex<'_>) -> String {
    assert_eq!((text.to_vec(), text.digits().len()), (text.bytes().collect(), 2 * text.bytes().len()));
    text.bytes().map(|byte| format!("{byte:02x}")).collect()
}

/// Where bytes are a listing and all of its values have a view, nothing of them is lost.
fn whole(bytes: &[u8]) -> Option<()> {
    let told = again(&Listing::of(bytes)?)?;
    assert_eq!(told.as_bytes(), bytes, "{}", String::from_utf8_lossy(bytes));
    Some(())
}

/// The value of a listing that has one.
fn with_value<R>(text: &str, then: impl FnOnce(Value<'_>) -> R) -> R {
    let listing = format!("vars=1\nfuns=0\nvar=x\nsort=0\nvalue={text}\n");
    let value = Listing::of(listing.as_bytes()).expect("a listing").variables().next().expect("a variable").value;
    assert_eq!((value.text(), value.to_string()), (text, text.to_string()));
    then(value)
}

#[test]
fn sample() {
    let listing = Listing::of(LISTING.as_bytes()).unwrap();
    assert_eq!((listing.variables().len(), listing.functions().len()), (1, 1));
    let x = listing.variables().next().unwrap();
    assert_eq!((x.name, x.sort, x.value.text()), ("x", 2, "some(bv8:ff)"));
    let Some(View::Some(inner)) = x.value.view() else { panic!("{:?}", x.value.view()) };
    assert_eq!(inner.view(), Some(View::BitVec { width: 8, value: 255 }));
    let f = listing.functions().next().unwrap();
    assert_eq!((f.name, f.argument, f.result, f.default.text()), ("f", 1, 0, "false"));
    let arms: Vec<_> = f.arms().map(|arm| (arm.when.text(), arm.then.text())).collect();
    assert_eq!((arms, f.arms().len()), (vec![("bv8:00", "true"), ("bv8:01", "true")], 2));
    let values = ["bv8:00", "bv8:01", "bv8:02", "", "bv8:0"].map(|argument| f.at(argument).view());
    assert_eq!(values, [true, true, false, false, false].map(|truth| Some(View::Bool(truth))));
    assert_eq!(whole(LISTING.as_bytes()), Some(()));
}

#[test]
fn nothing_defined() {
    let listing = Listing::of(b"vars=0\nfuns=0\n").unwrap();
    assert!(listing.variables().next().is_none() && listing.functions().next().is_none());
}

#[test]
fn iterators_end() {
    let listing = Listing::of(FULL.as_bytes()).unwrap();
    let mut variables = listing.variables();
    let names: Vec<&str> = variables.by_ref().map(|variable| variable.name).collect();
    assert_eq!(names, ["x", "|y=|", "z", "d"]);
    assert!(variables.len() == 0 && variables.next().is_none() && variables.next().is_none());
    let arms: Vec<usize> = listing.functions().map(|function| function.arms().len()).collect();
    assert_eq!(arms, [2, 0]);
}

#[test]
fn forms() {
    assert_eq!(whole(FULL.as_bytes()), Some(()));
    with_value("s:c3a9", |value| {
        let Some(View::String(text)) = value.view() else { panic!("{:?}", value.view()) };
        assert_eq!((text.digits(), text.to_vec(), text.to_text().as_deref()), ("c3a9", vec![0xc3, 0xa9], Some("é")));
    });
    with_value("e12:c3", |value| {
        let Some(View::Entity { row: 12, text }) = value.view() else { panic!("{:?}", value.view()) };
        assert_eq!((text.to_vec(), text.to_text()), (vec![0xc3], None));
    });
    with_value("r4({bv4:1,bv4:2},r0(true,none),s:)", |value| {
        let Some(View::Record { row: 4, fields }) = value.view() else { panic!("{:?}", value.view()) };
        let fields: Vec<&str> = fields.map(Value::text).collect();
        assert_eq!(fields, ["{bv4:1,bv4:2}", "r0(true,none)", "s:"]);
    });
    let plain = [
        ("none", View::None),
        ("bv1:1", View::BitVec { width: 1, value: 1 }),
        ("bv5:1f", View::BitVec { width: 5, value: 31 }),
        ("bv128:ffffffffffffffffffffffffffffffff", View::BitVec { width: 128, value: u128::MAX }),
        ("d:-1", View::Decimal(-1)),
        ("t:9223372036854775807", View::Datetime(i64::MAX)),
        ("u:-9223372036854775808", View::Duration(i64::MIN)),
    ];
    for (text, view) in plain {
        with_value(text, |value| assert_eq!(value.view(), Some(view), "{text}"));
    }
}

/// No text of a value, by itself or inside a set; and values that are two.
#[test]
fn no_values() {
    let wrong = [
        "",
        "tru",
        "true ",
        "True",
        "none(",
        "some",
        "some(",
        "some()",
        "some(none",
        "some(none))",
        "some(true,true)",
        "bv8:f",
        "bv8:fff",
        "bv8:FF",
        "bv8:+f",
        "bv08:ff",
        "bv0:",
        "bv:",
        "bv129:000000000000000000000000000000000",
        "bv1:2",
        "bv7:80",
        "bv127:80000000000000000000000000000000",
        "bv4294967304:ff",
        "s",
        "s:6",
        "s:6G",
        "s:AB",
        "s:é",
        "e:61",
        "e01:61",
        "e1",
        "e1:6",
        "e-1:61",
        "e18446744073709551616:61",
        "r(",
        "r()",
        "r00()",
        "r1",
        "r1(true",
        "r1(true,)",
        "r1(,)",
        "r1(true}",
        "{",
        "}",
        "{,}",
        "{true,}",
        "{true}}",
        "{{true}",
        "{true)",
        "({})",
        "d:",
        "d:-",
        "d:-0",
        "d:+1",
        "d:01",
        "d:1 ",
        "d:9223372036854775808",
        "t:-9223372036854775809",
        "u:a",
        ":",
        "x:1",
        "d:1:2",
    ];
    for text in wrong {
        with_value(text, |value| assert_eq!(value_again(value), None, "{text}"));
        with_value(&format!("{{none,{text}}}"), |value| assert_eq!(value_again(value), None, "{text}"));
    }
    for text in ["true,true", "r1(),r1()", "{},{}", "{true},{true}", "some(true),some(true)", "s:61,s:62", "d:1,d:2"] {
        with_value(text, |value| assert_eq!(value.view(), None, "{text}"));
    }
}

#[test]
fn no_listings() {
    let wrong: [&[u8]; 17] = [
        b"",
        b"vars=0",
        b"vars=0\n",
        b"vars=0\nfuns=0",
        b"vars=0\nfuns=0\n\n",
        b"vars=00\nfuns=0\n",
        b"vars=+0\nfuns=0\n",
        b"vars=\nfuns=0\n",
        b"funs=0\nvars=0\n",
        b"vars=0\r\nfuns=0\r\n",
        b"vars=18446744073709551616\nfuns=0\n",
        b"vars=18446744073709551615\nfuns=0\n",
        b"vars=0\nfuns=0\nvar=x\nsort=0\nvalue=true\n", // one more than counted
        b"vars=2\nfuns=0\nvar=x\nsort=0\nvalue=true\n", // one fewer
        b"vars=0\nfuns=1\nfun=f\narg=0\nout=0\nwhen=true\nelse=true\n", // half an arm
        b"vars=0\nfuns=1\nfun=f\narg=0\nout=0\nwhen=true\nthen=true\n", // no last line
        b"vars=1\nfuns=0\nvar=\xff\nsort=0\nvalue=true\n", // not UTF-8
    ];
    for bytes in wrong {
        assert!(Listing::of(bytes).is_none(), "{}", String::from_utf8_lossy(bytes));
    }
}

/// A listing cut short is none; one with a byte changed, left out or put in is answered, and what is told of it is its bytes.
#[test]
fn damaged() {
    for listing in [LISTING, FULL] {
        let bytes = listing.as_bytes();
        for at in 0..bytes.len() {
            assert!(Listing::of(&bytes[..at]).is_none());
            let mut changed = bytes.to_vec();
            changed.remove(at);
            whole(&changed);
            changed.insert(at, 0);
            for byte in 0..=255 {
                changed[at] = byte;
                whole(&changed);
            }
            changed.insert(at, bytes[at]);
            whole(&changed);
        }
    }
}

/// Every text of up to four of these pieces.
#[test]
fn pieces() {
    let pieces =
        ["true", "none", "some(", "r0(", "{", "}", ")", ",", "bv1:", "1", "s:", "61", "e0:", "d:", "-", "0", "é"];
    let mut texts = vec![String::new()];
    for _ in 0..4 {
        for text in &texts {
            with_value(text, |value| {
                if let Some(told) = value_again(value) {
                    assert_eq!(&told, text);
                }
            });
        }
        texts = texts.iter().flat_map(|text| pieces.map(|piece| text.clone() + piece)).collect();
    }
}

/// As deep as no value of the library is; what the views are asked for here calls nothing anew.
#[test]
fn deep() {
    let depth = 3_000;
    with_value(&("{".repeat(depth) + "true" + &"}".repeat(depth)), |mut value| {
        for _ in 0..depth {
            let Some(View::Set(mut members)) = value.view() else { panic!("no set") };
            value = members.next().expect("a member");
            assert!(members.next().is_none());
        }
        assert_eq!(value.view(), Some(View::Bool(true)));
    });
}

/// Each listing of vectors/ and of the real replies, put together again from its parts.
#[test]
fn whole_listings() {
    // the test calls itself for each level of a value
    let thread = thread::Builder::new().stack_size(1 << 26).spawn(|| {
        let mut count = 0;
        for answer in include_str!("../../../crates/replay_listings/stdout").split_terminator("\n\n") {
            if !answer.starts_with("refused=") {
                let listing = &answer[..answer.rfind("need=").expect("a need")];
                assert_eq!(whole(listing.as_bytes()), Some(()), "{listing}");
                count += 1;
            }
        }
        for path in replies::models() {
            let tables = fs::read(path.with_file_name("tables.txt")).expect("tables");
            if let Ok(listing) = models::list(&tables, &fs::read(&path).expect("a reply"), usize::MAX) {
                assert_eq!(whole(&listing), Some(()), "{}", path.display());
                count += 1;
            }
        }
        count
    });
    assert!(thread.expect("a thread").join().expect("no panic") > 100);
}
