//! Models that are made: arms by number and order, members in balanced unions, and definitions over full tables.

use crate::driver::Fault;
use std::fmt::Write;

/// Document 01's tables.txt, and the model.
pub type Made = (String, String);

/// Spreads numbers over 32 bits; no two have the same image (the last steps of MurmurHash3).
fn spread(number: usize) -> u32 {
    let mut word = number as u32;
    word = (word ^ word >> 16).wrapping_mul(0x85eb_ca6b);
    word = (word ^ word >> 13).wrapping_mul(0xc2b2_ae35);
    word ^ word >> 16
}

fn keys(count: usize, order: &str) -> Vec<u32> {
    let mut keys: Vec<u32> = (0..count).map(spread).collect();
    match order {
        "sorted" => keys.sort(),
        "reversed" => keys.sort_by(|one, other| other.cmp(one)),
        _ => {}
    }
    keys
}

/// A function of that many arms, in cvc5's form: keys of 32 bits, no two equal, and results of 64 bits.
pub fn arms(count: usize, order: &str) -> Made {
    let mut model = "((define-fun f ((_arg_1 (_ BitVec 32))) (_ BitVec 64) ".to_string();
    for key in keys(count, order) {
        let value = u64::from(key).wrapping_mul(0x9e37_79b9_7f4a_7c15);
        write!(model, "(ite (= _arg_1 #b{key:032b}) #b{value:064b} ").expect("a String takes every text");
    }
    model += &format!("#b{}{}))", "0".repeat(64), ")".repeat(count));
    ("sort=bitvec 32\nsort=bitvec 64\nfun=f 0 1\n".into(), model)
}

/// A set of that many members of 32 bits, no two equal, halved down to singletons.
pub fn set(count: usize) -> Made {
    let mut model = "((define-fun x () (Set (_ BitVec 32)) ".to_string();
    add_union(&mut model, &keys(count, "random"));
    ("sort=bitvec 32\nsort=set 0\nvar=x 1\n".into(), model + "))")
}

fn add_union(model: &mut String, members: &[u32]) {
    match members {
        [one] => write!(model, "(set.singleton #b{one:032b})").expect("a String takes every text"),
        _ => {
            let (left, right) = members.split_at(members.len() / 2);
            *model += "(set.union ";
            add_union(model, left);
            model.push(' ');
            add_union(model, right);
            model.push(')');
        }
    }
}

/// How many rows a full table has; how many of them are entities and records.
const ROWS: usize = 1024;
const ENTITIES: usize = 300;
const RECORDS: usize = 200;

/// Full tables with names of one length, which differ at their last bytes.
struct Full {
    length: usize,
    /// Each row's kind, and its number or the rows that it refers to.
    sorts: Vec<(&'static str, Vec<usize>)>,
    first_entity: usize,
}

impl Full {
    fn new(length: usize) -> Full {
        let mut sorts = Vec::new();
        sorts.extend(["bool", "string", "decimal", "datetime", "duration"].map(|kind| (kind, vec![])));
        sorts.extend((1..=128).map(|width| ("bitvec", vec![width])));
        let first_entity = sorts.len();
        sorts.extend((0..ENTITIES).map(|_| ("entity", vec![])));
        let lower = sorts.len();
        sorts.extend(
            (0..RECORDS)
                .map(|at| ("record", (1..5).map(|field| spread(at + RECORDS * field) as usize % lower).collect())),
        );
        // Options of every third row, and sets of those that follow them.
        let rest = ROWS - sorts.len();
        sorts.extend((0..rest).map(|at| (["option", "set"][at % 2], vec![at / 2 * 3 + at % 2])));
        Full { length, sorts, first_entity }
    }

    fn name(&self, table: char, row: usize) -> String {
        format!("{table}{}{row:04}", "x".repeat(self.length - 5))
    }

    /// Rows of a function's argument and result.
    fn ends(&self, row: usize) -> [usize; 2] {
        [spread(row) as usize % ROWS, spread(row + ROWS) as usize % ROWS]
    }

    fn tables(&self) -> Result<String, std::fmt::Error> {
        let mut text = String::new();
        for (row, (kind, parts)) in self.sorts.iter().enumerate() {
            write!(text, "sort={kind}")?;
            if matches!(*kind, "entity" | "record") {
                write!(text, " {}", self.name('s', row))?;
            }
            parts.iter().try_for_each(|part| write!(text, " {part}"))?;
            text.push('\n');
        }
        (0..ROWS).try_for_each(|row| writeln!(text, "var={} {row}", self.name('v', row)))?;
        for row in 0..ROWS {
            let [arg, out] = self.ends(row);
            writeln!(text, "fun={} {arg} {out}", self.name('f', row))?;
        }
        for row in 0..ROWS {
            writeln!(text, "enum={} {} member {row}", self.name('m', row), self.first_entity + row % ENTITIES)?;
        }
        Ok(text)
    }

    /// A row as a model writes it.
    fn sort(&self, row: usize) -> String {
        let (kind, parts) = &self.sorts[row];
        match *kind {
            "bitvec" => format!("(_ BitVec {})", parts[0]),
            "option" => format!("(Option {})", self.sort(parts[0])),
            "set" => format!("(Set {})", self.sort(parts[0])),
            "entity" | "record" => self.name('s', row),
            _ => kind[..1].to_uppercase() + &kind[1..],
        }
    }

    /// A value of a row's sort, another one for another number where the sort has it.
    fn value(&self, row: usize, number: usize) -> String {
        let (kind, parts) = &self.sorts[row];
        match *kind {
            "bool" => ["true", "false"][number % 2].into(),
            "string" => format!("\"text {number}\""),
            "bitvec" => format!("#b{:0width$b}", number as u128 & u128::MAX >> (128 - parts[0]), width = parts[0]),
            "option" if number % 4 == 0 => format!("(as none {})", self.sort(row)),
            "option" => format!("((as some {}) {})", self.sort(row), self.value(parts[0], number)),
            "set" => format!(
                "(set.union (set.singleton {}) (set.singleton {}))",
                self.value(parts[0], number + 1),
                self.value(parts[0], number)
            ),
            "entity" if number % 2 == 0 => format!("({} \"player {number}\")", self.name('s', row)),
            "entity" => self.name('m', row - self.first_entity + ENTITIES * (number / 2 % 3)),
            "record" => {
                let fields: Vec<String> = parts.iter().map(|field| self.value(*field, number)).collect();
                format!("({} {})", self.name('s', row), fields.join(" "))
            }
            _ => format!("({} #b{number:064b})", self.sort(row)),
        }
    }

    /// Every variable with a value, and every function with two arms and a default.
    fn model(&self) -> Result<String, std::fmt::Error> {
        let mut model = "(".to_string();
        for row in 0..ROWS {
            writeln!(model, "(define-fun {} () {} {})", self.name('v', row), self.sort(row), self.value(row, row))?;
        }
        for row in 0..ROWS {
            let [arg, out] = self.ends(row);
            writeln!(model, "(define-fun {} ((_arg_1 {})) {}", self.name('f', row), self.sort(arg), self.sort(out))?;
            for number in [row, row + 1] {
                write!(model, " (ite (= _arg_1 {}) {}", self.value(arg, number), self.value(out, number + 2))?;
            }
            writeln!(model, " {})))", self.value(out, row))?;
        }
        Ok(model + ")")
    }
}

/// Full tables of every kind, and a model that defines every variable and every function.
pub fn full(length: usize) -> Result<Made, Fault> {
    let full = Full::new(length);
    let made = full.tables().and_then(|tables| Ok((tables, full.model()?)));
    made.map_err(|fault| fault.to_string())
}
