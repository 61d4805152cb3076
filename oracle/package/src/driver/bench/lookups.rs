//! Names to rows: a full table of 64-byte names, checked and asked for each of them, beside a BTreeMap of the same names.

use super::timing::Plan;
use crate::driver::{ours, Fault};
use std::collections::BTreeMap;
use std::hint::black_box;

const ROWS: usize = 1024;

/// The check of 25, our lookups of all names, and the map: filled, and asked for all names.
fn table(plan: &Plan, which: &str, name: impl Fn(usize) -> String) {
    let names: Vec<String> = (0..ROWS).map(name).collect();
    let words: Vec<u64> = (0..ROWS as u64).flat_map(|row| [64 * row, 64, 0, 0, 0]).collect();
    let text = names.concat();
    assert_eq!(text.len(), 64 * ROWS, "every name has 64 bytes");
    let map: BTreeMap<&str, usize> = names.iter().map(String::as_str).zip(0..).collect();
    let times = plan.in_turns(&mut [
        &mut || {
            let answer = ours::check_tables(&[0, 0, 1, 0, 0], &[], black_box(&words), &[], &[], text.as_bytes());
            assert_eq!(answer, 0, "the table breaks no rule");
        },
        &mut || {
            for (row, one) in names.iter().enumerate() {
                let mut told = [0; 2];
                ours::find_variable(black_box(&words), text.as_bytes(), one.as_bytes(), &mut told);
                assert_eq!(told, [1, row as u64], "the row that has the name");
            }
        },
        &mut || {
            black_box(names.iter().map(String::as_str).zip(0..).collect::<BTreeMap<&str, usize>>());
        },
        &mut || {
            for one in &names {
                black_box(map.get(black_box(one.as_str())));
            }
        },
    ]);
    println!("lookup\t{which}\t{ROWS}\t{}", times.iter().map(|time| format!("{time:.1}")).collect::<Vec<_>>().join("\t"));
}

pub fn run(plan: &Plan) -> Result<(), Fault> {
    table(plan, "that differ behind their first byte", |row| format!("n{row:04}{}", "x".repeat(59)));
    table(plan, "that differ at their last bytes", |row| format!("n{}{row:04}", "x".repeat(59)));
    Ok(())
}
