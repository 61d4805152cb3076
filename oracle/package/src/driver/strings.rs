//! `strings`: the bytes of a case go to `decode_string`.

use super::{ask, hex, numbers, Fault};
use crate::symcc::decoder::sexpr::decode_string;

pub fn answer(line: &str) -> Result<String, Fault> {
    let bytes = hex::read(line)?;
    let result = ask(|| decode_string(&bytes));
    Ok(match result {
        Ok(Some(text)) => format!("text={}", hex::of(text.as_bytes())),
        // The reader makes StringParseError of the answer None, and nothing else.
        Ok(None) => numbers::refused(3),
        Err(panic) => panic,
    })
}

/// The text, or the refusal's number.
#[cfg(feature = "ours")]
pub fn decoded(bytes: &[u8]) -> Result<Result<Vec<u8>, u64>, String> {
    let answer = ask(|| decode_string(bytes))?;
    Ok(answer.map(|text| text.as_bytes().to_vec()).ok_or(3))
}
