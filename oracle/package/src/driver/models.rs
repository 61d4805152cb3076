//! `ours`: a case of `listings` goes to our library, in rooms that are just enough, larger and too small. Its answer comes out as that of
//! `listings` does, with the listing's need or the refusal's detail behind it; behind `V` and a space the reply is one to get-value. Every
//! element that was lent is looked at after every call.

use super::compare::{arena, same, short, OUT_ROOM};
use super::lent::Marked;
use super::trees::Arena;
use super::{hex, ours, Fault};

const BAD_TABLE: u64 = 25;
const BAD_ARENA: u64 = 27;
const ROW_WORDS: usize = 5;
/// What reading tables tells, and the names of it.
const LISTS: [&str; 5] = ["sorts", "fields", "variables", "functions", "members"];
/// Elements that are lent beyond what is needed.
const MORE: usize = 29;

/// The words of tables: sorts, fields, variables, functions, members.
type Words = [Vec<u64>; 5];

/// A case: the tables in hex, a space, the reply in hex.
pub fn answer(line: &str) -> Result<String, Fault> {
    let (values, line) = line.strip_prefix("V ").map_or((false, line), |rest| (true, rest));
    let (tables, model) = line.split_once(' ').ok_or("tables and a model are asked for")?;
    let (tables, model) = (hex::read(tables)?, hex::read(model)?);
    let words = match read_tables(&tables)? {
        Ok(words) => words,
        Err(code) => return Ok(refused(code)),
    };
    let tree = match arena(&model)? {
        Ok(tree) => tree,
        Err(code) => return Ok(refused(code)),
    };
    let mut lent = Lent { values, ..Lent::default() };
    lent.put(&words, &tables, &tree, 0);
    lent.lawful()?;
    let code = lent.ask("no room", 0, 2)?;
    if code % 256 != OUT_ROOM {
        refusals(&mut lent, &words, &tables, &tree, code)?;
        return Ok(refused(code));
    }
    let need = usize::try_from(code / 256).map_err(|fault| fault.to_string())?;
    let listing = listed(&mut lent, &words, &tables, &tree, need)?;
    unlawful(&mut lent, &words, &tables, &tree, need)?;
    Ok(format!("listing={} need={need}", hex::of(&listing)))
}

fn refused(code: u64) -> String {
    format!("refused={} detail={}", code % 256, code / 256)
}

/// Five buffers for tables and one for what is told.
#[derive(Default)]
struct Rooms {
    lists: [Marked<u64>; 5],
    told: Marked<u64>,
}

impl Rooms {
    fn ask(&mut self, text: &[u8], sizes: [usize; 5], told: usize) -> u64 {
        let mut sizes = sizes.into_iter();
        let lists = self.lists.each_mut().map(|list| list.lend(sizes.next().unwrap_or(0)));
        ours::read_tables(text, lists, self.told.lend(told))
    }

    /// Whether the buffers start with these, and every other element is as it was.
    fn hold(&self, lists: [&[u64]; 5], told: &[u64]) -> Result<(), String> {
        for ((list, front), name) in self.lists.iter().zip(lists).zip(LISTS) {
            list.holds(front).map_err(|fault| format!("read_tables, {name}: {fault}"))?;
        }
        self.told.holds(told).map_err(|fault| format!("read_tables, told: {fault}"))
    }
}

/// The words of tables, or the refusal: in plenty of room, in just enough, and one word short of each.
fn read_tables(text: &[u8]) -> Result<Result<Words, u64>, String> {
    let mut given = Marked::default();
    given.put(text, 0);
    let mut rooms = Rooms::default();
    let rows = ROW_WORDS * text.iter().filter(|&&byte| byte == b'\n').count();
    let plenty = [rows, text.len(), rows, rows, rows].map(|room| room + MORE);
    same(
        "read_tables, no room to tell",
        rooms.ask(given.slice(), plenty, LISTS.len() - 1),
        short(OUT_ROOM, LISTS.len()),
    )?;
    rooms.hold([&[]; 5], &[])?;
    let code = rooms.ask(given.slice(), plenty, LISTS.len() + 1);
    if code != 0 {
        rooms.hold([&[]; 5], &[])?;
        return Ok(Err(code));
    }
    let told = rooms.told.slice()[..LISTS.len()].to_vec();
    let mut words = Words::default();
    for ((list, size), out) in rooms.lists.iter().zip(&told).zip(&mut words) {
        *out = list.slice().get(..*size as usize).ok_or("read_tables tells more than was lent")?.to_vec();
    }
    let fronts = words.each_ref().map(Vec::as_slice);
    rooms.hold(fronts, &told)?;
    let exact = fronts.map(<[u64]>::len);
    same("read_tables, just enough", rooms.ask(given.slice(), exact, LISTS.len()), 0)?;
    rooms.hold(fronts, &told)?;
    for place in (0..LISTS.len()).filter(|&place| 0 < exact[place]) {
        let mut sizes = exact;
        sizes[place] -= 1;
        same(
            "read_tables, one word short",
            rooms.ask(given.slice(), sizes, LISTS.len()),
            short(OUT_ROOM, exact[place]),
        )?;
        rooms.hold([&[]; 5], &[])?;
    }
    given.holds(text).map_err(|fault| format!("read_tables, text: {fault}"))?;
    Ok(Ok(words))
}

/// All that `list_model` or `list_values` is lent: what it reads stays as it is, and the front of what it may write is looked at by the caller.
#[derive(Default)]
struct Lent {
    values: bool,
    tables: [Marked<u64>; 5],
    names: Marked<u8>,
    nodes: Marked<u64>,
    text: Marked<u8>,
    read: (Words, Vec<u8>, Vec<u64>, Vec<u8>),
    out: Marked<u8>,
    told: Marked<u64>,
}

impl Lent {
    /// Takes tables and an arena, with so many marked elements behind the arena.
    fn put(&mut self, words: &Words, names: &[u8], tree: &Arena, more: usize) {
        self.put_raw(words.clone(), names.to_vec(), tree.nodes.concat(), tree.text.clone(), more);
    }

    fn put_raw(&mut self, words: Words, names: Vec<u8>, nodes: Vec<u64>, text: Vec<u8>, more: usize) {
        for (list, front) in self.tables.iter_mut().zip(&words) {
            list.put(front, 0);
        }
        self.names.put(&names, 0);
        self.nodes.put(&nodes, more);
        self.text.put(&text, more);
        self.read = (words, names, nodes, text);
    }

    /// The answer in rooms of these sizes. What was lent to be read has to be as it was, and on a refusal all else too.
    fn ask(&mut self, what: &str, out: usize, told: usize) -> Result<u64, String> {
        let tables = self.tables.each_ref().map(Marked::slice);
        let call = if self.values { ours::list_values } else { ours::list_model };
        let code = call(
            tables,
            self.names.slice(),
            self.nodes.slice(),
            self.text.slice(),
            self.out.lend(out),
            self.told.lend(told),
        );
        self.stays(what)?;
        if code != 0 {
            self.wrote(what, &[], &[])?;
        }
        Ok(code)
    }

    /// The check of the tables that were read, in the same buffers.
    fn lawful(&self) -> Result<(), String> {
        let [sorts, fields, variables, functions, members] = self.tables.each_ref().map(Marked::slice);
        same("check_tables", ours::check_tables(sorts, fields, variables, functions, members, self.names.slice()), 0)?;
        self.stays("check_tables")
    }

    /// Whether all that was lent to be read is as it was.
    fn stays(&self, what: &str) -> Result<(), String> {
        let (words, names, nodes, text) = &self.read;
        for ((list, front), name) in self.tables.iter().zip(words).zip(LISTS) {
            list.holds(front).map_err(|fault| format!("the listing, {what}, {name}: {fault}"))?;
        }
        self.names.holds(names).map_err(|fault| format!("the listing, {what}, names: {fault}"))?;
        self.nodes.holds(nodes).map_err(|fault| format!("the listing, {what}, nodes: {fault}"))?;
        self.text.holds(text).map_err(|fault| format!("the listing, {what}, text: {fault}"))
    }

    fn wrote(&self, what: &str, out: &[u8], told: &[u64]) -> Result<(), String> {
        self.out.holds(out).map_err(|fault| format!("the listing, {what}, out: {fault}"))?;
        self.told.holds(told).map_err(|fault| format!("the listing, {what}, told: {fault}"))
    }

    /// Asks and looks at the answer.
    fn expect(&mut self, what: &str, out: usize, told: usize, wanted: u64) -> Result<(), String> {
        let code = self.ask(what, out, told)?;
        same(&format!("the listing, {what}"), code, wanted)
    }
}

/// A model that is refused is refused alike in any room, with anything behind its arena.
fn refusals(lent: &mut Lent, words: &Words, names: &[u8], tree: &Arena, code: u64) -> Result<(), String> {
    if code == 0 {
        return Err("a listing of no bytes".into());
    }
    lent.expect("a refusal, no room to tell", MORE, 0, short(OUT_ROOM, 1))?;
    lent.expect("a refusal, room for one number", MORE, 1, code)?;
    lent.put(words, names, tree, MORE);
    lent.expect("a refusal, more behind the arena", 4 * names.len() + MORE, 3, code)?;
    unlawful(lent, words, names, tree, MORE)
}

/// The listing, in just enough room, in more, and in one byte less.
fn listed(lent: &mut Lent, words: &Words, names: &[u8], tree: &Arena, need: usize) -> Result<Vec<u8>, String> {
    lent.expect("no room to tell", need, 0, short(OUT_ROOM, 1))?;
    lent.expect("just enough", need, 1, 0)?;
    let size = lent.told.slice()[0] as usize;
    let listing = lent.out.slice().get(..size).ok_or("the listing tells more than was lent")?.to_vec();
    // From the listing's end to the need there are zeros.
    let mut front = listing.clone();
    front.resize(need, 0);
    lent.wrote("just enough", &front, &[size as u64])?;
    lent.expect("one byte less", need.saturating_sub(1), 2, short(OUT_ROOM, need))?;
    lent.put(words, names, tree, MORE);
    lent.expect("more room, and more behind the arena", need + MORE, 3, 0)?;
    lent.wrote("more room, and more behind the arena", &front, &[size as u64])?;
    Ok(listing)
}

/// Words that are no tables and words that are no arena: 25 comes before 27, and 27 before anything that a model may be refused for.
fn unlawful(lent: &mut Lent, words: &Words, names: &[u8], tree: &Arena, room: usize) -> Result<(), String> {
    let mut nodes = tree.nodes.concat();
    nodes.pop();
    if let Some((_, rest)) = tree.text.split_last() {
        lent.put_raw(words.clone(), names.to_vec(), tree.nodes.concat(), rest.to_vec(), 0);
        lent.expect("a byte of text too few", room, 1, BAD_ARENA)?;
    }
    lent.put_raw(words.clone(), names.to_vec(), nodes.clone(), tree.text.clone(), 0);
    lent.expect("a word of nodes too few", room, 1, BAD_ARENA)?;
    let mut tables = words.clone();
    tables[4].push(0);
    lent.put_raw(tables, names.to_vec(), nodes, tree.text.clone(), 0);
    lent.expect("a word of tables too many", room, 1, BAD_TABLE)?;
    lent.expect("no room to tell", room, 0, short(OUT_ROOM, 1))
}
