//! Prints what the crate answers, case by case: `oracle strings|trees|lines|listings [STACK]`, a case a line
//! on standard input and an answer a line on standard output. oracle/README.md gives the forms.

mod driver;
mod hook;
// The crate's text is built as it stands: parts that only the dropped ones used are left in it.
#[allow(dead_code, unused_imports, unfulfilled_lint_expectations)]
mod symcc;

// The crate's text reaches these by its root, as in the crate's own lib.rs.
use symcc::{bitvec, type_abbrevs, SymEnv};

/// The crate drops and decodes a tree by recursion: the stack has to hold the deepest one that a list brings.
/// It is room that is asked for, not memory that is used.
const STACK: usize = 4 << 30;

/// A second argument gives the stack's bytes, to see where the crate gives out.
fn stack() -> usize {
    std::env::args().nth(2).and_then(|size| size.parse().ok()).unwrap_or(STACK)
}

fn main() -> std::process::ExitCode {
    let thread = std::thread::Builder::new().stack_size(stack()).spawn(driver::run);
    let fault = match thread.map(|running| running.join()) {
        Ok(Ok(Ok(()))) => return std::process::ExitCode::SUCCESS,
        Ok(Ok(Err(fault))) => fault,
        Ok(Err(_)) => "the driver stopped; its message stands above".into(),
        Err(fault) => format!("no thread with that stack: {fault}"),
    };
    eprintln!("oracle: {fault}");
    std::process::ExitCode::FAILURE
}
