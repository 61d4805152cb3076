//! The listing of a reply: what a solver's model says of the variables and functions of the tables, or what its reply to
//! get-value says of the variables.
//!
//! ```
//! let tables = b"sort=bool\nsort=bitvec 8\nsort=option 1\nvar=x 2\nfun=f 1 0\n";
//! let reply = b"((define-fun x () (Option (_ BitVec 8)) (some #xfF)))";
//! let listing = stazzumpi::models::list(tables, reply, 10_000)?; // in at most 10,000 bytes
//! assert_eq!(listing, b"vars=1\nfuns=0\nvar=x\nsort=2\nvalue=some(bv8:ff)\n");
//! assert_eq!(stazzumpi::models::values(tables, b"((x (some #xfF)))", 10_000)?, listing); // what (get-value (x)) gave
//! # Ok::<(), stazzumpi::Refusal>(())
//! ```

use alloc::vec::Vec;

use crate::rooms::Budget;
use crate::tables::{Tables, ROW_WORDS};
use crate::trees::Parsed;
use crate::Refusal;

/// The listing, at the front of `out`, of the tree at the front of `nodes` and `text`, as
/// [`parse_sexpr`](crate::parse_sexpr) leaves it; answers its length. Members of a set and arms of a function that are
/// written again are in the need for `out` and not in the listing; the bytes between its end and the need are zeroed.
///
/// Refusals: 25, 27, 13 for a tree that is no list, that of the first command that has one (4, 7, 8, 13 to 24, 28), 26
/// with the need where `out` is too short.
///
/// The call takes some 130,000 bytes of the stack and up to 1,000 more for each level that a value is nested, at most
/// 1,200,000.
pub fn list_model(tables: &Tables<'_>, nodes: &[u64], text: &[u8], out: &mut [u8]) -> Result<usize, Refusal> {
    let Tables { sorts, fields, variables, functions, members, names } = *tables;
    let [length] = call!(stazzumpi_list_model(sorts, fields, variables, functions, members, names, nodes, text; out))?;
    Ok(length)
}

/// The listing of a reply to get-value, a list of pairs of a name and a value, as that of a model without functions. The
/// value of a name that is in the variable table has to be of the sort that the table gives it; a pair with any other name,
/// a function's too, is skipped and its value not read; a later pair replaces an earlier one, which is checked as well. All
/// else is as [`list_model`] has it.
///
/// Refusals: 25, 27, 13 for a tree that is no list, that of the first pair that has one (13 for its shape, then 4, 7, 8, 14
/// to 20, 22 to 24, 28 for its value, then 16 for another sort), 26 with the need where `out` is too short.
pub fn list_values(tables: &Tables<'_>, nodes: &[u64], text: &[u8], out: &mut [u8]) -> Result<usize, Refusal> {
    let Tables { sorts, fields, variables, functions, members, names } = *tables;
    let [length] = call!(stazzumpi_list_values(sorts, fields, variables, functions, members, names, nodes, text; out))?;
    Ok(length)
}

/// The listing of a model over the tables that a text spells, read and listed in memory of its own;
/// [`Listing`](crate::listings::Listing) takes it apart.
///
/// `limit` is how many bytes its rooms may have together at any time. Just enough are 40 for each row of the tables, 8 for
/// each field of a record, 32 for each node of the reply's tree, one for each byte of its text, and the larger of two: 8 for
/// each of the brackets that are open at once, which are given back when the reply is read, and one for each byte that
/// [`list_model`] needs. With more, the listing's room may have as many bytes as the reply.
///
/// Refusals: those of [`Tables::read`], then of [`parse_sexpr`](crate::parse_sexpr), then of [`list_model`]. With less than
/// enough it is refused by 26, 10, 11, 12 or 26, in this order, for the first room that the limit has no place for beside
/// those before it, with that room's need as the library tells it: words of a table, nodes, bytes of text, brackets, bytes
/// of the listing. So it is where the machine has no memory.
///
/// It takes as much of the stack as these calls do, one after the other.
pub fn list(tables: &[u8], reply: &[u8], limit: usize) -> Result<Vec<u8>, Refusal> {
    listed(list_model, tables, reply, limit)
}

/// The listing of a reply to get-value over the tables that a text spells, read and listed in memory of its own: as
/// [`list`], with [`list_values`] for [`list_model`].
pub fn values(tables: &[u8], reply: &[u8], limit: usize) -> Result<Vec<u8>, Refusal> {
    listed(list_values, tables, reply, limit)
}

/// One of the two calls: tables, nodes, text and room.
type Call = fn(&Tables<'_>, &[u64], &[u8], &mut [u8]) -> Result<usize, Refusal>;

fn listed(call: Call, tables: &[u8], reply: &[u8], limit: usize) -> Result<Vec<u8>, Refusal> {
    let mut budget = Budget::new(limit);
    // a table without place has an empty room: the library says whether the text is lawful, and what is needed
    let [mut sorts, mut fields, mut variables, mut functions, mut members] =
        table_words(tables).map(|words| budget.room(words));
    let tables = Tables::read(tables, &mut sorts, &mut fields, &mut variables, &mut functions, &mut members)?;
    let tree = Parsed::within(reply, &mut budget)?;
    let mut out = budget.at_most(reply.len()); // a guess, for most listings enough
    loop {
        match call(&tables, tree.nodes(), tree.text(), &mut out) {
            Ok(length) => {
                out.truncate(length);
                return Ok(out);
            }
            Err(short @ Refusal::OutRoom(need)) => budget.grow(&mut out, need, short)?,
            Err(refusal) => return Err(refusal),
        }
    }
}

/// How many words the tables of a text have, fields second, where it is lawful: a row for each line that begins as the
/// table's do, and a field for each space behind a record's name. Other texts are refused by 9 or 25, whatever is lent, and
/// so rooms need be no larger than a lawful text's largest.
fn table_words(text: &[u8]) -> [usize; 5] {
    let (mut rows, mut fields) = ([0; 4], 0);
    for line in text.split(|&byte| byte == b'\n') {
        let labels: [&[u8]; 4] = [b"sort=", b"var=", b"fun=", b"enum="];
        for (rows, label) in rows.iter_mut().zip(labels) {
            *rows += usize::from(line.starts_with(label));
        }
        if let Some(record) = line.strip_prefix(b"sort=record ") {
            fields += record.iter().filter(|&&byte| byte == b' ').count();
        }
    }
    let [sorts, variables, functions, members] = rows.map(|rows: usize| ROW_WORDS * rows.min(1_024));
    [sorts, fields.min(32_768), variables, functions, members]
}
