//! Reading and listing: the crate's maps, reading and decoding beside our reading and listing with its checks, whole and apart.

use super::inputs::Reply;
use super::models::Made;
use super::reading::{Input, Lent};
use super::rows::Rows;
use super::timing::Plan;
use crate::driver::listings::{empty_env, listing};
use crate::driver::tables::Tables;
use crate::driver::{ask, numbers, ours, Fault};
use crate::symcc::decoder::sexpr::{parse_sexpr, SExpr};
use crate::symcc::decoder::IdMaps;
use crate::symcc::env::SymEnv;
use std::cell::RefCell;
use std::hint::black_box;
use std::path::Path;

/// A model that both take, with what the calls that are timed apart begin from.
pub struct Model {
    tables: Tables,
    rows: Rows,
    input: Input,
    tree: SExpr,
    words: Vec<u64>,
    text: Vec<u8>,
    /// How long the listing is, and how much room it asks for.
    size: usize,
    need: usize,
}

/// What is lent, large enough for each model of a row.
#[derive(Default)]
pub struct Room {
    lent: Lent,
    out: Vec<u8>,
}

impl Room {
    /// Reads a model and lists it, as a caller does.
    fn whole(&mut self, model: &Model) {
        assert_eq!(self.lent.ours(&model.input), 0, "ours takes it");
        let (nodes, text) = self.lent.arena(model.input.needs);
        assert_eq!(model.rows.list(nodes, text, &mut self.out, &mut [0]), 0, "ours takes it");
    }

    fn list(&mut self, model: &Model) {
        let (words, text) = (black_box(&model.words), black_box(&model.text));
        assert_eq!(model.rows.list(words, text, &mut self.out, &mut [0]), 0, "ours takes it");
    }

    /// Sets to zero what the reading and the listing of a model will use.
    fn clear(&mut self, model: &Model) {
        self.lent.clear(model.input.needs);
        self.out[..model.need].fill(0);
        black_box(self);
    }
}

/// Our listing of an arena, or our refusal's number; the room that it asks for is lent.
fn listed(rows: &Rows, words: &[u64], text: &[u8], out: &mut Vec<u8>) -> Result<(usize, usize), u64> {
    let mut told = [0];
    // No listing is empty.
    let answer = rows.list(words, text, &mut [], &mut told);
    let need = match answer % 256 {
        26 => (answer / 256) as usize,
        number => return Err(number),
    };
    out.resize(out.len().max(need), 7);
    match rows.list(words, text, out, &mut told) % 256 {
        0 => Ok((told[0] as usize, need)),
        number => Err(number),
    }
}

impl Model {
    /// None where one of the two refuses it; a fault where both take it and list it otherwise, or ours takes what the crate refuses.
    fn new(tables: &str, bytes: &[u8], room: &mut Room) -> Result<Option<Model>, Fault> {
        let (tables, rows) = (Tables::read(tables)?, Rows::read(tables)?);
        let input = Input::new(bytes, &mut room.lent)?;
        let (words, text, _) = room.lent.left(input.needs);
        let found = listed(&rows, &words, &text, &mut room.out);
        let tree = parse_sexpr(bytes).map_err(|error| numbers::of_reading(&error))?;
        let theirs = ask(|| match tree.decode_model(&empty_env(), &tables.id_maps()) {
            Ok(found) => Ok(listing(&tables, &found)),
            Err(error) => Err(numbers::of_decoding(&error)),
        })?;
        match (found, theirs) {
            (Ok((size, need)), Ok(theirs)) if theirs.as_bytes() == &room.out[..size] => {
                Ok(Some(Model { tables, rows, input, tree, words, text, size, need }))
            }
            (Ok(_), Ok(_)) => Err("the crate's listing is another one than ours".into()),
            (Ok(_), Err(theirs)) => Err(format!("the crate: {theirs}; ours lists it")),
            (Err(number), Err(theirs)) if !added(number) && theirs != numbers::refused(number as u8) => {
                Err(format!("the crate: {theirs}; ours: {number}"))
            }
            (Err(_), _) => Ok(None),
        }
    }

    /// What the crate's callers do: the maps, the tree, the terms, and the dropping of all three.
    fn decoded(&self, env: &SymEnv) {
        let tree = parse_sexpr(black_box(self.input.bytes())).expect("the crate takes it");
        black_box(tree.decode_model(env, &self.tables.id_maps()).expect("the crate takes it"));
    }
}

/// Whether a refusal is one that document 01 adds to the crate's.
fn added(number: u64) -> bool {
    matches!(number, 9..=12 | 22..=27)
}

/// The model of a real reply, beside which its tables stand.
fn real(reply: &Reply, room: &mut Room) -> Result<Option<Model>, Fault> {
    let path = Path::new(&reply.name).with_file_name("tables.txt");
    let tables = std::fs::read_to_string(&path).map_err(|fault| format!("{}: {fault}", path.display()))?;
    Model::new(&tables, &reply.bytes, room).map_err(|fault| format!("{}: {fault}", reply.name))
}

/// The replies that both list.
pub fn taken(replies: &[Reply]) -> Result<Vec<Reply>, Fault> {
    let mut taken = Vec::new();
    for reply in replies {
        if real(reply, &mut Room::default())?.is_some() {
            taken.push(reply.clone());
        }
    }
    Ok(taken)
}

/// Times replies that both list, one after the other, as one call.
pub fn replies(plan: &Plan, part: &str, name: &str, replies: &[Reply]) -> Result<(), Fault> {
    let mut room = Room::default();
    let mut models = Vec::new();
    for reply in replies {
        models.extend(real(reply, &mut room)?);
    }
    row(plan, part, name, &models, room)
}

/// Times a made model.
pub fn made(plan: &Plan, part: &str, name: &str, (tables, model): &Made) -> Result<(), Fault> {
    let mut room = Room::default();
    let model = Model::new(tables, model.as_bytes(), &mut room).map_err(|fault| format!("{name}: {fault}"))?;
    let model = model.ok_or_else(|| format!("{name}: a made model that one of the two refuses"))?;
    row(plan, part, name, &[model], room)
}

fn row(plan: &Plan, part: &str, name: &str, models: &[Model], room: Room) -> Result<(), Fault> {
    let env = &empty_env();
    let maps: Vec<IdMaps> = models.iter().map(|model| model.tables.id_maps()).collect();
    // The calls of ours take the same buffers in turn, so each has the same memory.
    let room = RefCell::new(room);
    let times = plan.in_turns(&mut [
        &mut || models.iter().for_each(|model| model.decoded(env)),
        &mut || models.iter().for_each(|model| room.borrow_mut().whole(model)),
        &mut || {
            models.iter().for_each(|model| {
                room.borrow_mut().clear(model);
                room.borrow_mut().whole(model);
            })
        },
        // Each one's parts.
        &mut || models.iter().for_each(|model| drop(black_box(model.tables.id_maps()))),
        &mut || models.iter().for_each(|model| drop(black_box(parse_sexpr(black_box(model.input.bytes()))))),
        &mut || {
            models.iter().zip(&maps).for_each(|(model, maps)| {
                black_box(black_box(&model.tree).decode_model(env, maps).expect("the crate takes it"));
            })
        },
        &mut || {
            models.iter().for_each(|model| assert_eq!(room.borrow_mut().lent.ours(&model.input), 0, "ours takes it"))
        },
        &mut || models.iter().for_each(|model| room.borrow_mut().list(model)),
        &mut || models.iter().for_each(|model| assert_eq!(black_box(&model.rows).check(), 0, "ours takes it")),
        &mut || {
            models.iter().for_each(|model| {
                let answer = ours::check_arena(black_box(&model.words), black_box(&model.text), &mut [0; 2]);
                assert_eq!(answer, 0, "an arena that the reader wrote");
            })
        },
    ]);
    let sum = |part: fn(&Model) -> usize| models.iter().map(part).sum::<usize>();
    println!(
        "{part}\t{name}\t{}\t{}\t{}\t{}",
        sum(|model| model.input.bytes().len()),
        sum(|model| model.input.needs[0]),
        sum(|model| model.size),
        times.iter().map(|time| format!("{time:.1}")).collect::<Vec<_>>().join("\t")
    );
    Ok(())
}
