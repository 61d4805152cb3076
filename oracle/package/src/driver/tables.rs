//! Document 01's tables.txt, made into what the decoder looks names up in.
//! Nothing is checked beyond what is needed to build the rows: the crate has no rule for tables.

use super::Fault;
use crate::symcc::decoder::IdMaps;
use crate::symcc::op::Uuf;
use crate::symcc::term::TermVar;
use crate::symcc::term_type::TermType;
use crate::symcc::type_abbrevs::{Attr, ExtType, Width};
use cedar_policy::{EntityId, EntityTypeName, EntityUid};
use smol_str::SmolStr;
use std::collections::BTreeMap;
use std::sync::Arc;

#[derive(Default)]
pub struct Tables {
    sorts: Vec<TermType>,
    named: Vec<(SmolStr, usize)>,
    pub vars: Vec<(TermVar, usize)>,
    pub funs: Vec<(Uuf, usize, usize)>,
    enums: Vec<(SmolStr, EntityUid)>,
    /// Rows of entity sorts by the type's name, and of record sorts by the first field's name.
    entities: BTreeMap<EntityTypeName, usize>,
    records: BTreeMap<Option<Attr>, usize>,
}

impl Tables {
    pub fn read(text: &str) -> Result<Self, Fault> {
        let mut tables = Self::default();
        for line in text.split_terminator('\n') {
            tables.add(line).ok_or_else(|| format!("no line of tables: {line}"))?;
        }
        Ok(tables)
    }

    pub fn id_maps(&self) -> IdMaps<'_> {
        IdMaps {
            types: self.named.iter().map(|(name, row)| (name, &self.sorts[*row])).collect(),
            vars: self.vars.iter().map(|(var, _)| (&var.id, var)).collect(),
            uufs: self.funs.iter().map(|(fun, _, _)| (&fun.id, fun)).collect(),
            enums: self.enums.iter().cloned().collect(),
        }
    }

    /// Every entity that a model can hold comes from a row.
    pub fn entity_row(&self, name: &EntityTypeName) -> usize {
        self.entities[name]
    }

    /// Records without fields cannot be told apart: the first row that has none stands for all of them.
    pub fn record_row(&self, first_field: Option<&Attr>) -> usize {
        self.records[&first_field.cloned()]
    }

    fn add(&mut self, line: &str) -> Option<()> {
        let (kind, rest) = line.split_once('=')?;
        match kind {
            "sort" => self.add_sort(rest),
            "var" => self.add_var(rest),
            "fun" => self.add_fun(rest),
            "enum" => self.add_enum(rest),
            _ => None,
        }
    }

    fn add_sort(&mut self, rest: &str) -> Option<()> {
        let mut fields = rest.split(' ');
        let sort = match fields.next()? {
            "bool" => TermType::Bool,
            "string" => TermType::String,
            "decimal" => TermType::Ext { xty: ExtType::Decimal },
            "datetime" => TermType::Ext { xty: ExtType::DateTime },
            "duration" => TermType::Ext { xty: ExtType::Duration },
            "bitvec" => TermType::Bitvec { n: Width::new(fields.next()?.parse().ok()?)? },
            "option" => TermType::option_of(self.sort(fields.next()?)?.clone()),
            "set" => TermType::set_of(self.sort(fields.next()?)?.clone()),
            "entity" => self.entity(fields.next()?),
            "record" => self.record(fields.next()?, fields.by_ref())?,
            _ => return None,
        };
        self.sorts.push(sort);
        fields.next().is_none().then_some(())
    }

    fn entity(&mut self, name: &str) -> TermType {
        let row = self.sorts.len();
        let ety = EntityTypeName::new(name);
        self.named.push((name.into(), row));
        self.entities.insert(ety.clone(), row);
        TermType::Entity { ety }
    }

    /// Each row gets field names of its own, in the order of its fields, so that rows of like fields differ.
    fn record<'a>(&mut self, name: &str, fields: impl Iterator<Item = &'a str>) -> Option<TermType> {
        let row = self.sorts.len();
        let field = |(at, sort)| Some((SmolStr::new(format!("{row}.{at:08}")), self.sort(sort)?.clone()));
        let rty: BTreeMap<Attr, TermType> = fields.enumerate().map(field).collect::<Option<_>>()?;
        self.named.push((name.into(), row));
        self.records.entry(rty.keys().next().cloned()).or_insert(row);
        Some(TermType::Record { rty: Arc::new(rty) })
    }

    fn add_var(&mut self, rest: &str) -> Option<()> {
        let (name, row) = rest.split_once(' ')?;
        let ty = self.sort(row)?.clone();
        self.vars.push((TermVar { id: name.into(), ty }, row.parse().ok()?));
        Some(())
    }

    fn add_fun(&mut self, rest: &str) -> Option<()> {
        let (name, rows) = rest.split_once(' ')?;
        let (arg, out) = rows.split_once(' ')?;
        let fun = Uuf { id: name.into(), arg: self.sort(arg)?.clone(), out: self.sort(out)?.clone() };
        self.funs.push((fun, arg.parse().ok()?, out.parse().ok()?));
        Some(())
    }

    fn add_enum(&mut self, rest: &str) -> Option<()> {
        let (name, rest) = rest.split_once(' ')?;
        let (row, text) = rest.split_once(' ')?;
        let TermType::Entity { ety } = self.sort(row)? else { return None };
        let member = EntityUid::from_type_name_and_id(ety.clone(), EntityId::new(text));
        self.enums.push((name.into(), member));
        Some(())
    }

    fn sort(&self, row: &str) -> Option<&TermType> {
        self.sorts.get(row.parse::<usize>().ok()?)
    }
}
