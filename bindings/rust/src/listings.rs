//! A listing taken apart: its variables, its functions, their arms, and values down to their parts, all of them parts of the
//! listing's own bytes. docs/RULES.md has the form of a listing, docs/MEANING.md what it means.
//!
//! ```
//! use stazzumpi::listings::{Listing, View};
//!
//! let bytes = b"vars=1\nfuns=1\nvar=x\nsort=2\nvalue=some(bv8:ff)\nfun=f\narg=1\nout=0\nwhen=bv8:00\nthen=true\nelse=false\n";
//! let listing = Listing::of(bytes).unwrap();
//!
//! let x = listing.variables().next().unwrap();
//! assert_eq!((x.name, x.sort, x.value.text()), ("x", 2, "some(bv8:ff)"));
//! let Some(View::Some(inner)) = x.value.view() else { panic!("no option") };
//! assert_eq!(inner.view(), Some(View::BitVec { width: 8, value: 255 }));
//!
//! let f = listing.functions().next().unwrap();
//! assert_eq!((f.name, f.argument, f.result, f.arms().len()), ("f", 1, 0, 1));
//! assert_eq!((f.at("bv8:00").text(), f.at("bv8:01").text()), ("true", "false"));
//! ```

use alloc::{string::String, vec::Vec};
use core::fmt;
use core::iter::FusedIterator;
use core::str::FromStr;

/// The variables and the functions of a listing.
#[derive(Clone, Debug)]
pub struct Listing<'a> {
    variables: Variables<'a>,
    functions: Functions<'a>,
}

/// What a listing says of a variable: its value, and the row of its sort.
#[derive(Clone, Copy, Debug, PartialEq, Eq)]
pub struct Variable<'a> {
    pub name: &'a str,
    pub sort: usize,
    pub value: Value<'a>,
}

/// What a listing says of a function: the rows of its argument's and its result's sort, its arms, and its value where no arm
/// has the argument.
#[derive(Clone, Debug)]
pub struct Function<'a> {
    pub name: &'a str,
    pub argument: usize,
    pub result: usize,
    pub default: Value<'a>,
    arms: Arms<'a>,
}

/// A function's value at one argument.
#[derive(Clone, Copy, Debug, PartialEq, Eq)]
pub struct Arm<'a> {
    pub when: Value<'a>,
    pub then: Value<'a>,
}

/// Entries of a listing that are still to come, one after the other.
#[derive(Clone)]
pub struct Entries<'a, T> {
    lines: Lines<'a>,
    left: usize,
    take: fn(&mut Lines<'a>) -> Option<T>,
}

pub type Variables<'a> = Entries<'a, Variable<'a>>;
pub type Functions<'a> = Entries<'a, Function<'a>>;
pub type Arms<'a> = Entries<'a, Arm<'a>>;

impl<'a> Listing<'a> {
    /// Takes a listing's bytes, all of them. None where the lines are not those of a listing: another label, a number that
    /// is none, other counts than the first two lines say, or bytes that are not UTF-8. What stands behind the label of a
    /// name or a value is taken as it is; [`Value::view`] looks at values. The time is that of going through the bytes once.
    pub fn of(bytes: &'a [u8]) -> Option<Listing<'a>> {
        let mut lines = Lines(core::str::from_utf8(bytes).ok()?);
        let (variables, functions) = (lines.number("vars=")?, lines.number("funs=")?);
        let variables = lines.entries(variables, Lines::variable)?;
        let functions = lines.entries(functions, Lines::function)?;
        lines.0.is_empty().then_some(Listing { variables, functions })
    }

    /// In the order of the tables.
    pub fn variables(&self) -> Variables<'a> {
        self.variables.clone()
    }

    /// In the order of the tables.
    pub fn functions(&self) -> Functions<'a> {
        self.functions.clone()
    }
}

impl<'a> Function<'a> {
    /// Ascending by the bytes of the argument's text, in a listing of the library.
    pub fn arms(&self) -> Arms<'a> {
        self.arms.clone()
    }

    /// The value at an argument, given by its text as the listing would write it: that of the arm which has it, else the
    /// default.
    pub fn at(&self, argument: &str) -> Value<'a> {
        self.arms().find(|arm| arm.when.text() == argument).map_or(self.default, |arm| arm.then)
    }
}

/// Lines that are still to be looked at.
#[derive(Clone, Copy)]
struct Lines<'a>(&'a str);

impl<'a> Lines<'a> {
    /// What stands behind the label of the next line; none, and nothing is passed, where it has another one or no end.
    fn line(&mut self, label: &str) -> Option<&'a str> {
        let (content, rest) = self.0.strip_prefix(label)?.split_once('\n')?;
        self.0 = rest;
        Some(content)
    }

    fn number(&mut self, label: &str) -> Option<usize> {
        decimal(self.line(label)?)
    }

    fn value(&mut self, label: &str) -> Option<Value<'a>> {
        self.line(label).map(Value)
    }

    fn variable(&mut self) -> Option<Variable<'a>> {
        Some(Variable { name: self.line("var=")?, sort: self.number("sort=")?, value: self.value("value=")? })
    }

    fn function(&mut self) -> Option<Function<'a>> {
        let (name, argument, result) = (self.line("fun=")?, self.number("arg=")?, self.number("out=")?);
        let mut arms = Entries { lines: *self, left: 0, take: Lines::arm };
        while self.arm().is_some() {
            arms.left += 1;
        }
        Some(Function { name, argument, result, default: self.value("else=")?, arms })
    }

    /// Both lines of an arm; nothing is passed where one is missing.
    fn arm(&mut self) -> Option<Arm<'a>> {
        let mut lines = *self;
        let arm = Arm { when: lines.value("when=")?, then: lines.value("then=")? };
        *self = lines;
        Some(arm)
    }

    /// So many entries, each of which is there; the lines go on behind them.
    fn entries<T>(&mut self, count: usize, take: fn(&mut Lines<'a>) -> Option<T>) -> Option<Entries<'a, T>> {
        let entries = Entries { lines: *self, left: count, take };
        for _ in 0..count {
            take(self)?;
        }
        Some(entries)
    }
}

impl<T> Iterator for Entries<'_, T> {
    type Item = T;

    fn next(&mut self) -> Option<T> {
        self.left = self.left.checked_sub(1)?;
        (self.take)(&mut self.lines)
    }

    fn size_hint(&self) -> (usize, Option<usize>) {
        (self.left, Some(self.left))
    }
}

impl<T> ExactSizeIterator for Entries<'_, T> {}

impl<T> FusedIterator for Entries<'_, T> {}

impl<T> fmt::Debug for Entries<'_, T> {
    fn fmt(&self, f: &mut fmt::Formatter<'_>) -> fmt::Result {
        f.debug_struct("Entries").field("left", &self.left).finish_non_exhaustive()
    }
}

/// A value's text. Two of one sort are the same value where their texts are equal.
#[derive(Clone, Copy, Debug, PartialEq, Eq, Hash)]
pub struct Value<'a>(&'a str);

/// What a value is. Rows are those of its sort.
#[derive(Clone, Debug, PartialEq, Eq)]
pub enum View<'a> {
    Bool(bool),
    /// Below 2^width; the width is 1 to 128.
    BitVec {
        width: u32,
        value: u128,
    },
    String(Hex<'a>),
    Entity {
        row: usize,
        text: Hex<'a>,
    },
    Record {
        row: usize,
        fields: Values<'a>,
    },
    None,
    Some(Value<'a>),
    Set(Values<'a>),
    /// The signed number of 64 bits that it holds.
    Decimal(i64),
    /// The same.
    Datetime(i64),
    /// The same.
    Duration(i64),
}

impl<'a> Value<'a> {
    /// As the listing has it.
    pub fn text(self) -> &'a str {
        self.0
    }

    /// What it is, its parts not yet looked at. None where the text is no value's, as in no listing of the library; a part
    /// that is none shows when it is looked at. The time is that of going through the text once.
    pub fn view(self) -> Option<View<'a>> {
        if let Some(text) = self.0.strip_suffix('}') {
            return Some(View::Set(Values::of(text.strip_prefix('{')?)?));
        }
        if let Some(text) = self.0.strip_suffix(')') {
            let (head, inside) = text.split_once('(')?;
            let mut parts = Values::of(inside)?;
            if head != "some" {
                return Some(View::Record { row: decimal(head.strip_prefix('r')?)?, fields: parts });
            }
            let inner = parts.next()?;
            return parts.next().is_none().then_some(View::Some(inner));
        }
        match self.0.split_once(':') {
            Some((head, content)) => marked(head, content),
            None => match self.0 {
                "true" => Some(View::Bool(true)),
                "false" => Some(View::Bool(false)),
                "none" => Some(View::None),
                _ => None,
            },
        }
    }
}

/// Its text.
impl fmt::Display for Value<'_> {
    fn fmt(&self, f: &mut fmt::Formatter<'_>) -> fmt::Result {
        f.write_str(self.0)
    }
}

/// An atom with a colon, by what stands before and behind it.
fn marked<'a>(head: &'a str, content: &'a str) -> Option<View<'a>> {
    Some(match head {
        "s" => View::String(Hex::of(content)?),
        "d" => View::Decimal(signed(content)?),
        "t" => View::Datetime(signed(content)?),
        "u" => View::Duration(signed(content)?),
        _ => match head.strip_prefix("bv") {
            Some(width) => bit_vector(decimal(width)?, content)?,
            None => View::Entity { row: decimal(head.strip_prefix('e')?)?, text: Hex::of(content)? },
        },
    })
}

/// As many digits as the width takes, and no bit beyond it.
fn bit_vector(width: u32, digits: &str) -> Option<View<'_>> {
    if !(1..=128).contains(&width) || digits.len() != width.div_ceil(4) as usize || !digits.bytes().all(is_digit) {
        return None;
    }
    let value = digits.bytes().fold(0, |value: u128, digit| value << 4 | u128::from(worth(digit)));
    (width == 128 || value >> width == 0).then_some(View::BitVec { width, value })
}

/// A decimal number without leading zeros.
fn decimal<T: FromStr>(text: &str) -> Option<T> {
    let plain = text.bytes().all(|byte| byte.is_ascii_digit()) && (text == "0" || !text.starts_with('0'));
    plain.then(|| text.parse().ok())?
}

/// The same with `-` before one that is negative.
fn signed(text: &str) -> Option<i64> {
    match text.strip_prefix('-') {
        Some(number) => decimal::<u64>(number).and_then(|number| 0i64.checked_sub_unsigned(number)).filter(|&n| n < 0),
        None => decimal(text),
    }
}

/// A digit of lower-case hexadecimal.
fn is_digit(byte: u8) -> bool {
    matches!(byte, b'0'..=b'9' | b'a'..=b'f')
}

/// What such a digit is worth: letters, and no others, have bit 6, and `a` ends in 1.
fn worth(digit: u8) -> u8 {
    (digit & 15) + 9 * (digit >> 6)
}

/// Values between brackets that are still to come.
#[derive(Clone, Debug, PartialEq, Eq)]
pub struct Values<'a> {
    rest: Option<&'a str>,
}

impl<'a> Values<'a> {
    /// What stands between two brackets; none where brackets in it close that did not open, or stay open.
    fn of(inside: &'a str) -> Option<Values<'a>> {
        let mut depth = 0_usize;
        for byte in inside.bytes() {
            depth = deeper(depth, byte)?;
        }
        (depth == 0).then_some(Values { rest: Some(inside).filter(|inside| !inside.is_empty()) })
    }
}

/// How many brackets are open behind a byte; none where it closes one that did not open.
fn deeper(depth: usize, byte: u8) -> Option<usize> {
    match byte {
        b'(' | b'{' => depth.checked_add(1),
        b')' | b'}' => depth.checked_sub(1),
        _ => Some(depth),
    }
}

impl<'a> Iterator for Values<'a> {
    type Item = Value<'a>;

    /// Up to the next comma outside of brackets, or the end.
    fn next(&mut self) -> Option<Value<'a>> {
        let text = self.rest.take()?;
        let mut depth = 0;
        for (at, byte) in text.bytes().enumerate() {
            if depth == 0 && byte == b',' {
                self.rest = text.get(at + 1..);
                return text.get(..at).map(Value);
            }
            depth = deeper(depth, byte)?;
        }
        Some(Value(text))
    }
}

impl FusedIterator for Values<'_> {}

/// A text of any bytes, as two digits of lower-case hexadecimal for each.
#[derive(Clone, Copy, Debug, PartialEq, Eq, Hash)]
pub struct Hex<'a>(&'a str);

impl<'a> Hex<'a> {
    fn of(digits: &'a str) -> Option<Hex<'a>> {
        (digits.len() % 2 == 0 && digits.bytes().all(is_digit)).then_some(Hex(digits))
    }

    /// As the listing has them.
    pub fn digits(self) -> &'a str {
        self.0
    }

    pub fn bytes(self) -> impl ExactSizeIterator<Item = u8> + Clone + 'a {
        self.0.as_bytes().chunks_exact(2).map(|pair| worth(pair[0]) << 4 | worth(pair[1]))
    }

    pub fn to_vec(self) -> Vec<u8> {
        self.bytes().collect()
    }

    /// None where the bytes are not UTF-8, as in no listing of the library.
    pub fn to_text(self) -> Option<String> {
        String::from_utf8(self.to_vec()).ok()
    }
}
