//! listmodel [-v] TABLES REPLY: what a solver's model says of the names of the tables, or with -v its reply to get-value, in
//! plain words; or why it is refused.

use std::process::ExitCode;
use std::{env, fs};

use stazzumpi::listings::{Hex, Listing, Value, Values, View};
use stazzumpi::models;

/// How many bytes reading and listing may take.
const LIMIT: usize = 1 << 30;

fn main() -> ExitCode {
    let mut files: Vec<_> = env::args_os().skip(1).collect();
    let values = files.first().is_some_and(|first| first == "-v");
    files.drain(..usize::from(values));
    let [tables, reply] = &files[..] else {
        eprintln!("usage: listmodel [-v] TABLES REPLY");
        return ExitCode::from(2);
    };
    let (tables, reply) = match (fs::read(tables), fs::read(reply)) {
        (Ok(tables), Ok(reply)) => (tables, reply),
        (Err(error), _) | (_, Err(error)) => {
            eprintln!("a file cannot be read: {error}");
            return ExitCode::from(2);
        }
    };
    let list = if values { models::values } else { models::list };
    match list(&tables, &reply, LIMIT) {
        Ok(bytes) => {
            print(&Listing::of(&bytes).expect("a listing of the library"));
            ExitCode::SUCCESS
        }
        Err(refusal) => {
            println!("refused by {}, {refusal}", refusal.number());
            ExitCode::FAILURE
        }
    }
}

fn print(listing: &Listing<'_>) {
    for variable in listing.variables() {
        println!("{}, of sort {}, is {}", variable.name, variable.sort, told(variable.value));
    }
    for function in listing.functions() {
        println!("{}, from sort {} to sort {}, is", function.name, function.argument, function.result);
        for arm in function.arms() {
            println!("  {} at {}", told(arm.then), told(arm.when));
        }
        println!("  {} elsewhere", told(function.default));
    }
}

/// The library nests values no deeper than 1,023 levels, so this may call itself.
fn told(value: Value<'_>) -> String {
    match value.view().expect("a value of the library") {
        View::Bool(truth) => truth.to_string(),
        View::BitVec { width, value } => format!("{value} in {width} bits"),
        View::String(text) => quoted(text),
        View::Entity { row, text } => format!("{} of sort {row}", quoted(text)),
        View::Record { row, fields } => format!("a record of sort {row} with [{}]", all(fields)),
        View::None => "none".to_string(),
        View::Some(inner) => format!("some {}", told(inner)),
        View::Set(members) => format!("the set of [{}]", all(members)),
        View::Decimal(number) => format!("the decimal of {number}"),
        View::Datetime(number) => format!("the datetime of {number}"),
        View::Duration(number) => format!("the duration of {number}"),
    }
}

fn all(values: Values<'_>) -> String {
    values.map(told).collect::<Vec<_>>().join(", ")
}

fn quoted(text: Hex<'_>) -> String {
    format!("{:?}", text.to_text().expect("UTF-8, as the library's texts are"))
}
