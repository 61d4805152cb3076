//! The lines of a script, each with its line feed at the front of `out`; each answers the length of its line.
//!
//! Refusals: 9 for an input of more than 16,777,216 elements, 25 for ends that fall, pass the string or are odd in count
//! for pairs, 26 with the need where `out` is too short.
//!
//! ```
//! let mut out = [0; 32];
//! let length = stazzumpi::lines::declare_const(b"x", b"Bool", &mut out)?;
//! assert_eq!(&out[..length], b"(declare-const x Bool)\n");
//! # Ok::<(), stazzumpi::Refusal>(())
//! ```

use crate::Refusal;

/// A list of texts: one string, and the ends of its parts. `[2, 5]` over `abcde` is `ab` and `cde`.
#[derive(Clone, Copy, Debug)]
pub struct Parts<'a> {
    pub string: &'a [u8],
    pub ends: &'a [u64],
}

/// `(set-logic LOGIC)`
pub fn set_logic(logic: &[u8], out: &mut [u8]) -> Result<usize, Refusal> {
    let [length] = call!(stazzumpi_set_logic(logic; out))?;
    Ok(length)
}

/// `(set-option :OPTION VALUE)`
pub fn set_option(option: &[u8], value: &[u8], out: &mut [u8]) -> Result<usize, Refusal> {
    let [length] = call!(stazzumpi_set_option(option, value; out))?;
    Ok(length)
}

/// `; TEXT`, its line feeds as spaces
pub fn comment(text: &[u8], out: &mut [u8]) -> Result<usize, Refusal> {
    let [length] = call!(stazzumpi_comment(text; out))?;
    Ok(length)
}

/// `(assert TERM)`
pub fn assert(term: &[u8], out: &mut [u8]) -> Result<usize, Refusal> {
    let [length] = call!(stazzumpi_assert(term; out))?;
    Ok(length)
}

/// `(define-fun NAME ((ARG SORT) ..) SORT BODY)`; the arguments are pairs of a name and a sort
pub fn define_fun(
    name: &[u8],
    arguments: Parts<'_>,
    sort: &[u8],
    body: &[u8],
    out: &mut [u8],
) -> Result<usize, Refusal> {
    let [length] = call!(stazzumpi_define_fun(name, arguments.string, arguments.ends, sort, body; out))?;
    Ok(length)
}

/// `(declare-const NAME SORT)`
pub fn declare_const(name: &[u8], sort: &[u8], out: &mut [u8]) -> Result<usize, Refusal> {
    let [length] = call!(stazzumpi_declare_const(name, sort; out))?;
    Ok(length)
}

/// `(declare-fun NAME (SORT ..) SORT)`; the arguments are sorts
pub fn declare_fun(name: &[u8], arguments: Parts<'_>, sort: &[u8], out: &mut [u8]) -> Result<usize, Refusal> {
    let [length] = call!(stazzumpi_declare_fun(name, arguments.string, arguments.ends, sort; out))?;
    Ok(length)
}

/// `(declare-datatype NAME (CONSTRUCTOR ..))`, a constructor a line; with `par` where the parameters have a text
pub fn declare_datatype(
    name: &[u8],
    parameters: Parts<'_>,
    constructors: Parts<'_>,
    out: &mut [u8],
) -> Result<usize, Refusal> {
    let (these, those) = (parameters, constructors);
    let [length] = call!(stazzumpi_declare_datatype(name, these.string, these.ends, those.string, those.ends; out))?;
    Ok(length)
}

/// `(check-sat)`
pub fn check_sat(out: &mut [u8]) -> Result<usize, Refusal> {
    let [length] = call!(stazzumpi_check_sat(; out))?;
    Ok(length)
}

/// `(get-model)`
pub fn get_model(out: &mut [u8]) -> Result<usize, Refusal> {
    let [length] = call!(stazzumpi_get_model(; out))?;
    Ok(length)
}

/// `(reset)`
pub fn reset(out: &mut [u8]) -> Result<usize, Refusal> {
    let [length] = call!(stazzumpi_reset(; out))?;
    Ok(length)
}

/// `(exit)`
pub fn exit(out: &mut [u8]) -> Result<usize, Refusal> {
    let [length] = call!(stazzumpi_exit(; out))?;
    Ok(length)
}
