//! Tables as our library takes them: the rows of document 01's tables.txt, whose own bytes hold the names. The library's reading
//! of that text ends at 65,536 bytes, which full tables pass; here it has any length, and the check of 25 says whether it is sound.

use crate::driver::{ours, Fault};

const KINDS: [&str; 10] =
    ["bool", "string", "decimal", "datetime", "duration", "bitvec", "option", "set", "entity", "record"];

#[derive(Default)]
pub struct Rows {
    sorts: Vec<u64>,
    fields: Vec<u64>,
    variables: Vec<u64>,
    functions: Vec<u64>,
    members: Vec<u64>,
    names: Vec<u8>,
}

impl Rows {
    pub fn read(text: &str) -> Result<Rows, Fault> {
        let mut rows = Rows { names: text.into(), ..Rows::default() };
        for line in text.split_terminator('\n') {
            let place = |part: &str| [part.as_ptr() as u64 - text.as_ptr() as u64, part.len() as u64];
            rows.add(line, place).ok_or_else(|| format!("no line of tables: {line}"))?;
        }
        match rows.check() {
            0 => Ok(rows),
            refusal => Err(format!("our library refuses tables of the bench: {}", refusal % 256)),
        }
    }

    fn add(&mut self, line: &str, place: impl Fn(&str) -> [u64; 2]) -> Option<()> {
        let (table, rest) = line.split_once('=')?;
        let parts: Vec<&str> = rest.splitn(if table == "enum" { 3 } else { usize::MAX }, ' ').collect();
        let number = |at: usize| parts.get(at).and_then(|part| part.parse::<u64>().ok());
        let [start, length] = place(parts[0]);
        match table {
            "sort" => return self.add_sort(&parts, place),
            "var" => self.variables.extend([start, length, number(1)?, 0, 0]),
            "fun" => self.functions.extend([start, length, number(1)?, number(2)?, 0]),
            "enum" => {
                let [from, size] = place(parts.get(2)?);
                self.members.extend([start, length, number(1)?, from, size]);
            }
            _ => return None,
        }
        Some(())
    }

    fn add_sort(&mut self, parts: &[&str], place: impl Fn(&str) -> [u64; 2]) -> Option<()> {
        let kind = KINDS.iter().position(|name| *name == parts[0])? as u64 + 1;
        let [start, length] = if 9 <= kind { place(parts.get(1)?) } else { [0, 0] };
        let words = match kind {
            1..=5 | 9 => [0, 0],
            6..=8 => [parts.get(1)?.parse().ok()?, 0],
            _ => [self.fields.len() as u64, parts.len() as u64 - 2],
        };
        if kind == 10 {
            for part in &parts[2..] {
                self.fields.push(part.parse().ok()?);
            }
        }
        self.sorts.extend([start, length, kind, words[0], words[1]]);
        Some(())
    }

    /// The check of 25.
    pub fn check(&self) -> u64 {
        ours::check_tables(&self.sorts, &self.fields, &self.variables, &self.functions, &self.members, &self.names)
    }

    /// The listing of a model whose arena this is.
    pub fn list(&self, nodes: &[u64], text: &[u8], out: &mut [u8], told: &mut [u64; 1]) -> u64 {
        let lists = [&self.sorts[..], &self.fields, &self.variables, &self.functions, &self.members];
        ours::list_model(lists, &self.names, nodes, text, out, told)
    }
}
