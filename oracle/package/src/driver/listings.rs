//! `listings`: tables and a model go to `decode_model`; its interpretation comes out as document 01's listing.

use super::tables::Tables;
use super::{ask, hex, numbers, Fault};
use crate::hook;
use crate::symcc::decoder::sexpr::parse_sexpr;
use crate::symcc::decoder::DecodeError;
use crate::symcc::env::{SymEntities, SymEnv, SymRequest};
use crate::symcc::ext::Ext;
use crate::symcc::function::Udf;
use crate::symcc::interpretation::Interpretation;
use crate::symcc::term::{Term, TermPrim};
use std::collections::BTreeMap;
use std::fmt::Write;
use std::sync::Arc;

/// A case: the tables in hex, a space, the model in hex.
pub fn answer(line: &str) -> Result<String, Fault> {
    let (tables, model) = line.split_once(' ').ok_or("tables and a model are asked for")?;
    let tables = String::from_utf8(hex::read(tables)?).map_err(|_| "tables are not UTF-8")?;
    let tables = Tables::read(&tables)?;
    let model = hex::read(model)?;
    hook::take();
    let env = empty_env();
    let result = ask(|| decoded(&model, &env, &tables));
    Ok(match result {
        Ok(Ok(found)) => format!("listing={}", hex::of(listing(&tables, &found).as_bytes())),
        Ok(Err(error)) => numbers::of_decoding(&error),
        Err(panic) => panic,
    })
}

/// What the crate's `decode_model` for text does, without its demand that the whole input be UTF-8.
fn decoded<'a>(model: &[u8], env: &'a SymEnv, tables: &Tables) -> Result<Interpretation<'a>, DecodeError> {
    parse_sexpr(model)?.decode_model(env, &tables.id_maps())
}

/// Decoding hands the environment on unread.
pub fn empty_env() -> SymEnv {
    let blank = || Term::from(false);
    let request = SymRequest { principal: blank(), action: blank(), resource: blank(), context: blank() };
    SymEnv { request, entities: Arc::new(SymEntities(BTreeMap::new())) }
}

/// Definitions are looked up by name alone: the crate's keys hold sorts too, whose order can take long to find.
pub fn listing(tables: &Tables, found: &Interpretation<'_>) -> String {
    let mut out = format!("vars={}\nfuns={}\n", found.vars.len(), found.funs.len());
    let vars: BTreeMap<_, _> = found.vars.iter().map(|(var, value)| (var.id.as_str(), value)).collect();
    for (var, row) in &tables.vars {
        if let Some(value) = vars.get(var.id.as_str()) {
            add(&mut out, format_args!("var={}\nsort={row}\nvalue={}\n", var.id, text(tables, value)));
        }
    }
    let funs: BTreeMap<_, _> = found.funs.iter().map(|(fun, table)| (fun.id.as_str(), table)).collect();
    for (fun, arg, out_row) in &tables.funs {
        if let Some(table) = funs.get(fun.id.as_str()) {
            add(&mut out, format_args!("fun={}\narg={arg}\nout={out_row}\n", fun.id));
            add_arms(&mut out, tables, table);
        }
    }
    out
}

/// Arms ascend by the bytes of the key's text; Rust compares texts by their bytes.
fn add_arms(out: &mut String, tables: &Tables, table: &Udf) {
    let mut arms: Vec<_> = table.table.iter().map(|(key, value)| (text(tables, key), text(tables, value))).collect();
    arms.sort();
    for (key, value) in arms {
        add(out, format_args!("when={key}\nthen={value}\n"));
    }
    add(out, format_args!("else={}\n", text(tables, &table.default)));
}

fn add(out: &mut String, parts: std::fmt::Arguments) {
    out.write_fmt(parts).expect("a String takes every text");
}

/// A value as document 01 writes it. What it has no form for is `!term`: terms that are no literals, and addresses.
fn text(tables: &Tables, term: &Term) -> String {
    match term {
        Term::Prim(prim) => prim_text(tables, prim),
        Term::None(_) => "none".into(),
        Term::Some(inner) => format!("some({})", text(tables, inner)),
        Term::Set { elts, .. } => {
            let mut texts: Vec<_> = elts.iter().map(|member| text(tables, member)).collect();
            texts.sort();
            format!("{{{}}}", texts.join(","))
        }
        Term::Record(fields) => {
            let texts: Vec<_> = fields.values().map(|field| text(tables, field)).collect();
            format!("r{}({})", tables.record_row(fields.keys().next()), texts.join(","))
        }
        Term::App { .. } | Term::Var(_) => "!term".into(),
    }
}

fn prim_text(tables: &Tables, prim: &TermPrim) -> String {
    match prim {
        TermPrim::Bool(value) => value.to_string(),
        TermPrim::Bitvec(vector) => {
            let width = vector.width().get();
            let digits = width.div_ceil(4) as usize;
            format!("bv{width}:{:0>digits$}", vector.as_nat().to_str_radix(16))
        }
        TermPrim::String(text) => format!("s:{}", hex::of(text.as_bytes())),
        TermPrim::Entity(uid) => {
            let id: &str = uid.id().as_ref();
            format!("e{}:{}", tables.entity_row(uid.type_name()), hex::of(id.as_bytes()))
        }
        TermPrim::Ext(Ext::Decimal { d }) => format!("d:{}", d.0),
        TermPrim::Ext(Ext::Datetime { dt }) => format!("t:{}", i64::from(dt)),
        TermPrim::Ext(Ext::Duration { d }) => format!("u:{}", i64::from(d)),
        TermPrim::Ext(Ext::Ipaddr { .. }) => "!term".into(),
    }
}
