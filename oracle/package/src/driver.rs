//! The driver: reads cases, asks the crate, and writes its answers in document 01's forms.

#[cfg(feature = "bench")]
mod bench;
#[cfg(feature = "ours")]
mod compare;
mod hex;
#[cfg(feature = "ours")]
mod inputs;
#[cfg(feature = "ours")]
mod lent;
mod lines;
mod listings;
#[cfg(feature = "ours")]
mod models;
mod numbers;
#[cfg(any(feature = "ours", feature = "bench"))]
mod ours;
mod strings;
mod tables;
mod trees;

use std::io::{self, BufRead, Write};
use std::panic::{self, AssertUnwindSafe};

/// What is wrong with a case that cannot be put to the crate at all.
type Fault = String;

/// Reads the mode from the command line and answers standard input, line by line.
pub fn run() -> Result<(), Fault> {
    let mode = std::env::args().nth(1).unwrap_or_default();
    #[cfg(feature = "bench")]
    if mode == "bench" {
        return bench::run();
    }
    #[cfg(feature = "ours")]
    if mode == "compare" {
        return compare::run();
    }
    let answer: fn(&str) -> Result<String, Fault> = match mode.as_str() {
        "strings" => strings::answer,
        "trees" => trees::answer,
        "lines" => lines::answer,
        "listings" => listings::answer,
        #[cfg(feature = "ours")]
        "ours" => models::answer,
        _ => return Err("usage: oracle strings|trees|lines|listings, or ours where it is linked, a case a line".into()),
    };
    let mut out = io::BufWriter::new(io::stdout().lock());
    for (at, line) in io::stdin().lock().lines().enumerate() {
        let line = line.map_err(|fault| fault.to_string())?;
        let text = answer(&line).map_err(|fault| format!("line {}: {fault}", at + 1))?;
        writeln!(out, "{text}").map_err(|fault| fault.to_string())?;
    }
    out.flush().map_err(|fault| fault.to_string())
}

/// Calls the crate. Its panic is an answer too: `panicked=` and the message.
fn ask<T>(call: impl FnOnce() -> T) -> Result<T, String> {
    let shown = panic::take_hook();
    panic::set_hook(Box::new(|_| {}));
    let result = panic::catch_unwind(AssertUnwindSafe(call));
    panic::set_hook(shown);
    result.map_err(|load| {
        let text = load.downcast_ref::<&str>().map(ToString::to_string);
        let text = text.or_else(|| load.downcast_ref::<String>().cloned());
        format!("panicked={}", text.unwrap_or_default().escape_default())
    })
}
