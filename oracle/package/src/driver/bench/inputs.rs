//! What is read: document 01's sample, real replies, and inputs of one kind of token.

use crate::driver::Fault;

/// A real reply and its file's name.
#[derive(Clone)]
pub struct Reply {
    pub name: String,
    pub bytes: Vec<u8>,
}

impl Reply {
    /// The name without the folder that all replies stand in.
    pub fn short_name(&self) -> &str {
        self.name.split_once("replies/").map_or(&self.name, |(_, name)| name)
    }
}

/// The input that document 01 gives for the program modellist.
pub const SAMPLE: &str = "((define-fun x () (Option (_ BitVec 8)) (some #xfF))
(define-fun f ((a (_ BitVec 8))) Bool (or (= a #b00000001) (= #x00 a))))
";

/// Its tables.
pub const SAMPLE_TABLES: &str = "sort=bool\nsort=bitvec 8\nsort=option 1\nvar=x 2\nfun=f 1 0\n";

/// The reply whose length is nearest to a size.
pub fn nearest(replies: &[Reply], size: usize) -> Result<&Reply, Fault> {
    replies
        .iter()
        .min_by_key(|reply| reply.bytes.len().abs_diff(size))
        .ok_or_else(|| "no reply that the crate reads".into())
}

/// So many bytes of input, of one kind each.
const SIZE: usize = 1_000_000;

/// A list of the same item as often as it fits.
fn list(item: &str) -> Vec<u8> {
    format!("({})", format!("{item} ").repeat(SIZE / (item.len() + 1))).into_bytes()
}

fn run(before: &str, of: &str, after: &str) -> Vec<u8> {
    format!("{before}{}{after}", of.repeat(SIZE / of.len())).into_bytes()
}

/// The inputs of one kind each, with what they are.
pub fn made() -> Vec<(&'static str, Vec<u8>)> {
    let half = SIZE / 2;
    vec![
        ("strings of 20 bytes", list("\"a string of 20 bytes\"")),
        ("one long string", run("\"", "a", "\"")),
        ("strings of escapes", list(r#""\u{e9}\u0041\u{1f600}""#)),
        ("symbols of 10 bytes", list("define-fun")),
        ("one long symbol", run("", "a", "")),
        ("numerals of 5 digits", list("12345")),
        ("numerals of 38 digits", list("12345678901234567890123456789012345678")),
        ("`#b` of 64 digits", list(&format!("#b{}", "01".repeat(32)))),
        ("`#x` of 16 digits", list("#x0123456789abcDEF")),
        ("brackets, 500,000 deep", format!("{}{}", "(".repeat(half), ")".repeat(half)).into_bytes()),
        ("brackets side by side", run("(", "()", ")")),
        ("white space", run("", " ", "a")),
    ]
}

/// The commands of a model as often as they fit into one list of that many bytes; line feeds fill the rest.
pub fn repeated(model: &[u8], size: usize) -> Result<Vec<u8>, Fault> {
    let place = |bracket: u8, found: Option<usize>| found.ok_or(format!("a model without {}", bracket as char));
    let first = place(b'(', model.iter().position(|&byte| byte == b'('))?;
    let last = place(b')', model.iter().rposition(|&byte| byte == b')'))?;
    let commands = &model[first + 1..last];
    let mut bytes = vec![b'('];
    while bytes.len() + commands.len() < size {
        bytes.extend_from_slice(commands);
    }
    bytes.resize(size - 1, b'\n');
    bytes.push(b')');
    Ok(bytes)
}
