//! `compare SEED TIMES`: the crate and our library on the same inputs, in one run: the answer, the needs, and every
//! element that was lent, written or not. Standard input names files of real replies, a name a line.

use super::inputs::{all, damaged, smallest, Random};
use super::lent::Marked;
use super::ours::{self, Line};
use super::trees::{self, Arena};
use super::{hex, lines, strings, Fault};
use std::io::BufRead;

/// What the crate answers: numbers to be told and the texts that buffers then start with, or a refusal's number.
pub type Wanted<T> = Result<T, u64>;

const INPUT_TOO_LONG: u64 = 9;
const NODE_ROOM: u64 = 10;
const TEXT_ROOM: u64 = 11;
const DEPTH_ROOM: u64 = 12;
pub const OUT_ROOM: u64 = 26;

/// What a call answers to a refusal with a need.
pub fn short(number: u64, need: usize) -> u64 {
    number + 256 * need as u64
}

pub fn same(what: &str, found: u64, wanted: u64) -> Result<(), String> {
    if found == wanted {
        return Ok(());
    }
    Err(format!("{what}: answered {}, detail {}; wanted {}, detail {}", found % 256, found / 256, wanted % 256, wanted / 256))
}

/// Puts a text that the crate wrote, or its refusal, to a call of ours in several rooms.
fn text_call(what: &str, wanted: &Wanted<Vec<u8>>, room: u64, call: impl Fn(&mut [u8], &mut [u64]) -> u64) -> Result<(), String> {
    let (mut out, mut told) = (Marked::<u8>::default(), Marked::<u64>::default());
    let need = wanted.as_ref().map_or(3, Vec::len);
    let mut rooms = vec![need, need + 5];
    if 0 < need {
        rooms.push(need - 1);
    }
    for size in rooms {
        let answer = call(out.lend(size), told.lend(2));
        let (code, front, numbers): (u64, &[u8], &[u64]) = match wanted {
            Err(number) => (*number, &[], &[]),
            Ok(text) if size < text.len() => (short(room, text.len()), &[], &[]),
            Ok(text) => (0, text, &[need as u64]),
        };
        same(what, answer, code)?;
        out.holds(front).map_err(|fault| format!("{what}, output: {fault}"))?;
        told.holds(numbers).map_err(|fault| format!("{what}, told: {fault}"))?;
    }
    same("no room to tell", call(out.lend(need), told.lend(0)), short(OUT_ROOM, 1))?;
    out.holds(&[]).map_err(|fault| format!("{what}, output: {fault}"))
}

fn string(bytes: &[u8]) -> Result<(), String> {
    text_call("decode_string", &strings::decoded(bytes)?, TEXT_ROOM, |out, told| ours::decode_string(bytes, out, told))
}

fn line(line: &Line) -> Result<(), String> {
    text_call("script line", &Ok(lines::written(line)?), OUT_ROOM, |out, told| ours::write(line, out, told))
}

fn reading(bytes: &[u8]) -> Result<(), String> {
    arena(bytes).map(drop)
}

/// The crate's tree as document 01's arena, and ours, in rooms that are just enough, larger, and one short of each.
pub fn arena(bytes: &[u8]) -> Result<Wanted<Arena>, String> {
    let wanted = trees::arena(bytes)?;
    let (mut nodes, mut text) = (Marked::<u64>::default(), Marked::<u8>::default());
    let (mut stack, mut told) = (Marked::<u64>::default(), Marked::<u64>::default());
    let (words, needs) = match &wanted {
        Ok(arena) => (arena.nodes.concat(), [arena.nodes.len(), arena.text.len(), arena.depth]),
        Err(_) => (Vec::new(), [1, 1, 1]),
    };
    let exact = [4 * needs[0], needs[1], needs[2]];
    let mut rooms = vec![exact, exact.map(|room| room + 3)];
    rooms.extend((0..3).filter(|&place| 0 < exact[place]).map(|place| {
        let mut room = exact;
        room[place] -= 1;
        room
    }));
    for [a, b, c] in rooms {
        let answer = ours::parse_sexpr(bytes, nodes.lend(a), text.lend(b), stack.lend(c), told.lend(4));
        let code = match &wanted {
            Err(number) => *number,
            Ok(_) if a / 4 < needs[0] => short(NODE_ROOM, needs[0]),
            Ok(_) if b < needs[1] => short(TEXT_ROOM, needs[1]),
            Ok(_) if c < needs[2] => short(DEPTH_ROOM, needs[2]),
            Ok(_) => 0,
        };
        same("parse_sexpr", answer, code)?;
        let empty = Vec::new();
        let (front, text_front, zeros) = match &wanted {
            Ok(arena) if code == 0 => (&words, &arena.text, arena.depth),
            _ => (&Vec::new(), &empty, 0),
        };
        nodes.holds(front).map_err(|fault| format!("nodes: {fault}"))?;
        text.holds(text_front).map_err(|fault| format!("text: {fault}"))?;
        stack.holds(&vec![0; zeros]).map_err(|fault| format!("stack: {fault}"))?;
        let numbers = needs.map(|need| need as u64);
        told.holds(if code == 0 { &numbers } else { &[] }).map_err(|fault| format!("told: {fault}"))?;
    }
    if let Ok(arena) = &wanted {
        same("check_arena", ours::check_arena(&words, &arena.text, told.lend(3)), 0)?;
        told.holds(&[needs[0] as u64, needs[1] as u64]).map_err(|fault| format!("check_arena, told: {fault}"))?;
    }
    Ok(wanted)
}

/// A difference, with the smallest input that shows one.
fn told(bytes: &[u8], check: fn(&[u8]) -> Result<(), String>) -> Result<(), String> {
    let Err(fault) = check(bytes) else { return Ok(()) };
    let small = smallest(bytes, |shorter| check(shorter).is_err());
    let why = check(&small).err().unwrap_or(fault);
    Err(format!("{why}\ninput, in hex: {}", hex::of(&small)))
}

const STRING_LETTERS: &[u8] = b"\\u{}0dF\"\x80a8";
const STRING_PIECES: &[&[u8]] = &[
    b"\\", b"u", b"{", b"}", b"\\u", b"\\u{", b"\\u0041", b"\\u{41}", b"\\ud800", b"\\uDFFF", b"\\u{2FFFF}", b"\\u{30000}",
    b"\\u{000041}", b"\\u{0000041}", b"\"\"", b"\"", b"a", b"\xc3\xa9", b"\xff", b"\x00", b"0", b"9", b"f", b"G", b"\n",
];
const READING_LETTERS: &[u8] = b"() ;\n\"#bx01a\\\xff";
const READING_PIECES: &[&[u8]] = &[
    b"(", b")", b"(", b")", b" ", b"\n", b"\t", b"\x0b", b"\x0c", b"\r", b";", b"; c\n", b"\"", b"\"a\"", b"\"\"", b"\"\\u{41}\"",
    b"\"\\ud800\"", b"#", b"#b", b"#x", b"#b01", b"#xFf", b"#b2", b"0", b"007", b"12ab", b"340282366920938463463374607431768211455",
    b"340282366920938463463374607431768211456", b"a", b"define-fun", b"|a b|", b"\xc3\xa9", b"\xff", b"\x00", b"true", b"_", b"-1",
];

/// Runs that sit at a boundary: so many digits, brackets, letters.
fn runs(random: &mut Random) -> Vec<u8> {
    let size = *random.one(&[1, 31, 32, 33, 63, 64, 65, 127, 128, 129, 255, 256, 257, 1000, 4095, 4096, 4097]);
    let byte = *random.one(b"01f a\"\n(\x80");
    let (before, after): (&[u8], &[u8]) = *random.one(&[
        (b"" as &[u8], b"" as &[u8]), (b"#b", b""), (b"#x", b""), (b"\"", b"\""), (b"(", b")"), (b";", b"\na"), (b"#b1", b" )"),
    ]);
    let mut bytes = before.to_vec();
    bytes.extend(std::iter::repeat(byte).take(size));
    if byte == b'(' && random.below(2) == 0 {
        bytes.extend(std::iter::repeat(b')').take(size + random.below(2)));
    }
    bytes.extend_from_slice(after);
    bytes
}

fn text(random: &mut Random) -> String {
    const PIECES: &[&str] = &["", "a", " ", "\n", "\r\n", "é", "(x y)", "\"s\"", "; c", "par", "Bool", "|q r|", "0", ")", "\u{1f600}"];
    (0..random.below(5)).map(|_| *random.one(PIECES)).collect()
}

fn texts(random: &mut Random, most: usize) -> Vec<String> {
    (0..random.below(most + 1)).map(|_| text(random)).collect()
}

fn any_line(random: &mut Random) -> Line {
    match random.below(16) {
        0 => Line::SetLogic(text(random)),
        1 => Line::SetOption(text(random), text(random)),
        2 => Line::Comment(text(random)),
        3 => Line::Assert(text(random)),
        4..=6 => {
            let mut pairs = texts(random, 8);
            pairs.truncate(pairs.len() / 2 * 2);
            Line::DefineFun(text(random), pairs, text(random), text(random))
        }
        7 => Line::DeclareConst(text(random), text(random)),
        8 | 9 => Line::DeclareFun(text(random), texts(random, 6), text(random)),
        10 => Line::CheckSat,
        11 => Line::GetModel,
        12 => Line::Reset,
        13 => Line::Exit,
        _ => Line::DeclareDatatype(text(random), texts(random, 4), texts(random, 6)),
    }
}

/// So many of what a rule makes, with a line now and then to say how far it is.
fn many<T>(what: &str, count: usize, mut make: impl FnMut() -> T, mut check: impl FnMut(&T) -> Result<(), String>) -> Result<usize, String> {
    for done in 0..count {
        if done % 250_000 == 0 && 0 < done {
            eprintln!("{what}: {done} of {count}");
        }
        check(&make())?;
    }
    println!("{what}: {count}, no difference");
    Ok(count)
}

/// The limit of 9 met exactly, and passed by one byte; and brackets nested deep.
fn edges() -> Result<(), String> {
    const LIMIT: usize = 16_777_216;
    let mut bytes = vec![b' '; LIMIT];
    bytes[LIMIT - 1] = b'a';
    told(&bytes, reading)?;
    bytes.push(b' ');
    let answer = ours::parse_sexpr(&bytes, &mut [0; 4], &mut [0; 1], &mut [], &mut [0; 3]);
    same("parse_sexpr over the limit", answer, INPUT_TOO_LONG)?;
    let answer = ours::decode_string(&bytes, &mut [], &mut [0; 1]);
    same("decode_string over the limit", answer, INPUT_TOO_LONG)?;
    let mut deep = vec![b'('; 100_000];
    deep.extend(vec![b')'; 100_000]);
    told(&deep, reading)?;
    println!("edges: a reading of {LIMIT} bytes, one of a byte more, and 100000 open brackets, no difference");
    Ok(())
}

pub fn run() -> Result<(), Fault> {
    let mut numbers = std::env::args().skip(3).map(|text| text.parse::<u64>().map_err(|fault| format!("{text}: {fault}")));
    let seed = numbers.next().unwrap_or(Ok(2026))?;
    let times = numbers.next().unwrap_or(Ok(1))? as usize;
    let mut replies = Vec::new();
    for name in std::io::stdin().lock().lines() {
        let name = name.map_err(|fault| fault.to_string())?;
        replies.push(std::fs::read(&name).map_err(|fault| format!("{name}: {fault}"))?);
    }
    let mut random = Random::new(seed);
    println!("seed={seed} times={times} replies={}", replies.len());
    let mut strings = all(STRING_LETTERS, 5, |bytes| told(bytes, string))?;
    println!("strings, all of up to 5 of {} letters: {strings}, no difference", STRING_LETTERS.len());
    strings += many("strings, random", 900_000 * times, || { let size = random.below(12); random.pieces(STRING_PIECES, size) }, |bytes| told(bytes, string))?;
    let mut readings = all(READING_LETTERS, 5, |bytes| told(bytes, reading))?;
    println!("readings, all of up to 5 of {} letters: {readings}, no difference", READING_LETTERS.len());
    readings += many("readings, random pieces", 500_000 * times, || { let size = random.below(16); random.pieces(READING_PIECES, size) }, |bytes| told(bytes, reading))?;
    readings += many("readings, runs at boundaries", 3_000 * times, || runs(&mut random), |bytes| told(bytes, reading))?;
    for reply in &replies {
        told(reply, reading)?;
    }
    readings += replies.len();
    println!("readings, the real replies: {}, no difference", replies.len());
    let small: Vec<&Vec<u8>> = replies.iter().filter(|reply| reply.len() < 4_000).collect();
    if !small.is_empty() {
        readings += many("readings, damaged replies", 40_000 * times, || { let of = *random.one(&small); damaged(&mut random, of, READING_LETTERS) }, |bytes| told(bytes, reading))?;
    }
    edges()?;
    let lines = many("script lines", 120_000 * times, || any_line(&mut random), |one| line(one).map_err(|fault| format!("{fault}\nline: {one:?}")))?;
    println!("in all: {strings} strings, {readings} readings, {lines} script lines, no difference");
    Ok(())
}
