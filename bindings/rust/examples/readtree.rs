//! readtree FILE: the tree of one S-expression, a node a line, indented by its depth; or why it is refused.

use std::process::ExitCode;
use std::{env, fs};

use stazzumpi::trees::{self, Children, Kind, Node};

/// How many bytes the tree may take.
const LIMIT: usize = 1 << 30;

fn main() -> ExitCode {
    let Some(file) = env::args_os().nth(1) else {
        eprintln!("usage: readtree FILE");
        return ExitCode::from(2);
    };
    let input = match fs::read(&file) {
        Ok(input) => input,
        Err(error) => {
            eprintln!("{}: {error}", file.to_string_lossy());
            return ExitCode::from(2);
        }
    };
    match trees::parse(&input, LIMIT) {
        Ok(tree) => {
            print(tree.root());
            ExitCode::SUCCESS
        }
        Err(refusal) => {
            println!("refused by {}, {refusal}", refusal.number());
            ExitCode::FAILURE
        }
    }
}

/// A reply may be deeper than a stack is: open lists are kept in memory.
fn print(root: Node<'_>) {
    let mut open: Vec<Children<'_>> = vec![];
    let mut next = Some(root);
    while let Some(node) = next {
        print!("{:1$}", "", 2 * open.len());
        match node.kind() {
            Kind::BitVec { width, value } => println!("bit vector of width {width}, signed {value}"),
            Kind::Numeral(number) => println!("numeral {number}"),
            Kind::String(text) => println!("string {text:?}"),
            Kind::Symbol(name) => println!("{name}"),
            Kind::App(children) => {
                println!("list of {}", children.len());
                open.push(children);
            }
        }
        next = following(&mut open);
    }
}

/// The next child of the innermost list that has one.
fn following<'a>(open: &mut Vec<Children<'a>>) -> Option<Node<'a>> {
    while let Some(children) = open.last_mut() {
        if let Some(child) = children.next() {
            return Some(child);
        }
        open.pop();
    }
    None
}
