//! The Rust crate's own lines, from vectors/, in buffers that are just enough and one short.

use stazzumpi::lines::{self, Parts};
use stazzumpi::Refusal;

fn bytes(hex: &str) -> Vec<u8> {
    (0..hex.len()).step_by(2).map(|at| u8::from_str_radix(&hex[at..at + 2], 16).expect("a pair of digits")).collect()
}

/// A list's texts, each followed by a comma, as one string and its ends.
fn parts(list: &str) -> (Vec<u8>, Vec<u64>) {
    let (mut string, mut ends) = (vec![], vec![]);
    for text in list.split_terminator(',') {
        string.extend(bytes(text));
        ends.push(string.len() as u64);
    }
    (string, ends)
}

/// The line that a case of the list asks for; its form and its parts stand between spaces.
fn line(case: &str, out: &mut [u8]) -> Result<usize, Refusal> {
    let fields: Vec<&str> = case.split(' ').collect();
    let text = |at: usize| bytes(fields[at]);
    let list = |at: usize| parts(fields[at]);
    match fields[0] {
        "1" => lines::set_logic(&text(1), out),
        "2" => lines::set_option(&text(1), &text(2), out),
        "3" => lines::comment(&text(1), out),
        "4" => lines::assert(&text(1), out),
        "5" => {
            let (string, ends) = list(2);
            lines::define_fun(&text(1), Parts { string: &string, ends: &ends }, &text(3), &text(4), out)
        }
        "6" => lines::declare_const(&text(1), &text(2), out),
        "7" => {
            let (string, ends) = list(2);
            lines::declare_fun(&text(1), Parts { string: &string, ends: &ends }, &text(3), out)
        }
        "8" => {
            let ((a, b), (c, d)) = (list(2), list(3));
            lines::declare_datatype(&text(1), Parts { string: &a, ends: &b }, Parts { string: &c, ends: &d }, out)
        }
        "9" => lines::check_sat(out),
        "a" => lines::get_model(out),
        "b" => lines::reset(out),
        "c" => lines::exit(out),
        form => panic!("no form {form}"),
    }
}

#[test]
fn as_the_crate_writes_them() {
    let cases = include_str!("../../../crates/replay_lines/stdin").lines();
    let answers = include_str!("../../../crates/replay_lines/stdout").lines();
    for (case, answer) in cases.zip(answers).filter(|(case, _)| !case.starts_with('E')) {
        let want = bytes(answer.strip_prefix("line=").expect("the crate refuses no line"));
        let mut out = vec![7; want.len() + 1];
        assert_eq!(line(case, &mut out[..want.len()]), Ok(want.len()), "{case}");
        assert_eq!((&out[..want.len()], out[want.len()]), (&want[..], 7), "{case}");
        let mut out = vec![7; want.len() - 1];
        assert_eq!(line(case, &mut out), Err(Refusal::OutRoom(want.len())), "{case}");
        assert!(out.iter().all(|&byte| byte == 7), "{case}");
    }
}

#[test]
fn wrong_ends() {
    let mut out = [7; 64];
    for ends in [&[2, 1][..], &[1, 4], &[u64::MAX]] {
        let arguments = Parts { string: b"abc", ends };
        assert_eq!(lines::declare_fun(b"f", arguments, b"Bool", &mut out), Err(Refusal::BadTable));
    }
    let odd = Parts { string: b"abc", ends: &[3] };
    assert_eq!(lines::define_fun(b"f", odd, b"Bool", b"true", &mut out), Err(Refusal::BadTable));
    assert_eq!(out, [7; 64]);
}

#[test]
fn too_long() {
    let long = vec![b'a'; 16_777_217];
    assert_eq!(lines::assert(&long, &mut []), Err(Refusal::InputTooLong));
    assert_eq!(lines::assert(&long[1..], &mut []), Err(Refusal::OutRoom(16_777_216 + 10)));
}
