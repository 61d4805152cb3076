//! `lines`: a case names one of the twelve forms of smtlib_script.rs and its parts; the crate writes the line.

use super::{ask, hex, Fault};
use crate::symcc::smtlib_script::SmtLibScript;

/// The parts of a case, read in order. Fields stand between single spaces.
struct Parts<'a>(std::str::Split<'a, char>);

pub fn answer(line: &str) -> Result<String, Fault> {
    let mut parts = Parts(line.split(' '));
    let form = parts.0.next().unwrap_or_default();
    let script = match form {
        "1" => with_text(&mut parts, |w, logic| wait(w.set_logic(logic)))?,
        "2" => with_pair(&mut parts, |w, option, value| wait(w.set_option(option, value)))?,
        "3" => with_text(&mut parts, |w, comment| wait(w.comment(comment)))?,
        "4" => with_text(&mut parts, |w, expr| wait(w.assert(expr)))?,
        "5" => define_fun(&mut parts)?,
        "6" => with_pair(&mut parts, |w, id, ty| wait(w.declare_const(id, ty)))?,
        "7" => declare_fun(&mut parts)?,
        "8" => declare_datatype(&mut parts)?,
        "9" => writing(|w| wait(w.check_sat())),
        "a" => writing(|w| wait(w.get_model())),
        "b" => writing(|w| wait(w.reset())),
        "c" => writing(|w| wait(w.exit())),
        _ => return Err(format!("no such form: {form}")),
    };
    match parts.0.next() {
        Some(_) => Err("a field too many".into()),
        None => Ok(script),
    }
}

fn define_fun(parts: &mut Parts) -> Result<String, Fault> {
    let (id, args, ty, expr) = (parts.text()?, parts.list()?, parts.text()?, parts.text()?);
    if args.len() % 2 != 0 {
        return Err("the arguments of define-fun come in pairs".into());
    }
    let pairs = args.chunks(2).map(|pair| (pair[0].as_str(), pair[1].as_str()));
    Ok(writing(|w| wait(w.define_fun(&id, pairs, &ty, &expr))))
}

fn declare_fun(parts: &mut Parts) -> Result<String, Fault> {
    let (id, args, ty) = (parts.text()?, parts.list()?, parts.text()?);
    Ok(writing(|w| wait(w.declare_fun(&id, args.iter().map(String::as_str), &ty))))
}

fn declare_datatype(parts: &mut Parts) -> Result<String, Fault> {
    let (id, params, constructors) = (parts.text()?, parts.list()?, parts.list()?);
    let (params, constructors) = (params.iter().map(String::as_str), constructors.iter().map(String::as_str));
    Ok(writing(|w| wait(w.declare_datatype(&id, params, constructors))))
}

fn with_text(parts: &mut Parts, form: impl FnOnce(&mut Vec<u8>, &str)) -> Result<String, Fault> {
    let text = parts.text()?;
    Ok(writing(|w| form(w, &text)))
}

fn with_pair(parts: &mut Parts, form: impl FnOnce(&mut Vec<u8>, &str, &str)) -> Result<String, Fault> {
    let (first, second) = (parts.text()?, parts.text()?);
    Ok(writing(|w| form(w, &first, &second)))
}

/// The answer of a form that writes to memory.
fn writing(form: impl FnOnce(&mut Vec<u8>)) -> String {
    let mut out = Vec::new();
    match ask(|| form(&mut out)) {
        Ok(()) => format!("line={}", hex::of(&out)),
        Err(panic) => panic,
    }
}

/// Runs one of the crate's async calls to its end.
fn wait(call: impl std::future::Future<Output = tokio::io::Result<()>>) {
    let runtime = tokio::runtime::Builder::new_current_thread().build().expect("a runtime without devices");
    runtime.block_on(call).expect("writing to memory does not fail");
}

impl Parts<'_> {
    fn text(&mut self) -> Result<String, Fault> {
        let field = self.0.next().ok_or("a field is missing")?;
        read(field)
    }

    /// A list: each of its texts is followed by a comma, so that no text and one empty text differ.
    fn list(&mut self) -> Result<Vec<String>, Fault> {
        let field = self.0.next().ok_or("a field is missing")?;
        field.split_terminator(',').map(read).collect()
    }
}

/// The crate takes texts: other bytes cannot be put to it.
fn read(field: &str) -> Result<String, Fault> {
    String::from_utf8(hex::read(field)?).map_err(|_| "not UTF-8".into())
}

/// The bytes that the crate writes.
#[cfg(any(feature = "ours", feature = "bench"))]
pub fn written(line: &super::ours::Line) -> Result<Vec<u8>, String> {
    let mut out = Vec::new();
    ask(|| wait(emit(&mut out, line)))?;
    Ok(out)
}

/// Has the crate write a line behind what is there.
#[cfg(any(feature = "ours", feature = "bench"))]
pub async fn emit(out: &mut Vec<u8>, line: &super::ours::Line) -> tokio::io::Result<()> {
    use super::ours::Line;
    match line {
        Line::SetLogic(logic) => out.set_logic(logic).await,
        Line::SetOption(option, value) => out.set_option(option, value).await,
        Line::Comment(text) => out.comment(text).await,
        Line::Assert(term) => out.assert(term).await,
        Line::DefineFun(name, pairs, sort, body) => {
            let pairs = pairs.chunks(2).map(|pair| (pair[0].as_str(), pair[1].as_str()));
            out.define_fun(name, pairs, sort, body).await
        }
        Line::DeclareConst(name, sort) => out.declare_const(name, sort).await,
        Line::DeclareFun(name, sorts, sort) => out.declare_fun(name, sorts.iter().map(String::as_str), sort).await,
        Line::DeclareDatatype(name, parameters, constructors) => {
            out.declare_datatype(name, parameters.iter().map(String::as_str), constructors.iter().map(String::as_str)).await
        }
        Line::CheckSat => out.check_sat().await,
        Line::GetModel => out.get_model().await,
        Line::Reset => out.reset().await,
        Line::Exit => out.exit().await,
    }
}
