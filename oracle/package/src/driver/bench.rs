//! `bench STACK [quick]`: the crate, our library and a plain C reader on the same inputs, in turns, in one run. Standard input
//! names files of real replies, a name a line. What is printed is for oracle/bench/run.py: a measurement a line, its fields between
//! tabs, every time in nanoseconds a call.

mod inputs;
mod listing;
mod lookups;
mod models;
mod plain;
mod reading;
mod rows;
mod script;
mod timing;

use super::Fault;
use inputs::Reply;
use std::io::BufRead;
use timing::Plan;

const MIB: usize = 1 << 20;

/// The single replies: the nearest to each size.
const SIZES: [(&str, usize); 4] = [("small", 600), ("45 kB", 45_000), ("165 kB", 165_000), ("1.3 MB", 1_300_000)];

fn replies() -> Result<Vec<Reply>, Fault> {
    let mut replies = Vec::new();
    for line in std::io::stdin().lock().lines() {
        let name = line.map_err(|fault| fault.to_string())?;
        let bytes = std::fs::read(&name).map_err(|fault| format!("{name}: {fault}"))?;
        replies.push(Reply { name, bytes });
    }
    // A solver's error message is among the files; the bench is of what both read.
    replies.retain(|reply| reading::taken(&reply.bytes));
    Ok(replies)
}

pub fn run() -> Result<(), Fault> {
    let plan = Plan::new(std::env::args().nth(3).as_deref() == Some("quick"));
    let replies = replies()?;
    println!("plan\t{}\t{}", plan.rounds, plan.sample.as_millis());
    reading::row(&plan, "real", "document 01's sample", &[inputs::SAMPLE.into()])?;
    for (what, size) in SIZES {
        let reply = inputs::nearest(&replies, size)?;
        reading::row(&plan, "real", &format!("a reply, {what}: {}", reply.short_name()), &[reply.bytes.clone()])?;
    }
    let all: Vec<Vec<u8>> = replies.iter().map(|reply| reply.bytes.clone()).collect();
    reading::row(&plan, "all", &format!("the {} real replies", all.len()), &all)?;
    for (what, bytes) in inputs::made() {
        reading::row(&plan, "made", what, &[bytes])?;
    }
    let model = &inputs::nearest(&replies, 45_000)?.bytes;
    for size in [1, 2, 4, 8, 16] {
        let bytes = inputs::repeated(model, size * MIB)?;
        reading::row(&plan, "growth", &format!("{size} MiB"), &[bytes])?;
    }
    reading::check(&plan, "the arena of the reply of 1.3 MB", &inputs::nearest(&replies, 1_300_000)?.bytes)?;
    script::run(&plan)?;
    lookups::run(&plan)?;
    listings(&plan, &replies)
}

/// Reading and listing together.
fn listings(plan: &Plan, replies: &[Reply]) -> Result<(), Fault> {
    let replies = listing::taken(replies)?;
    let sample = (inputs::SAMPLE_TABLES.into(), inputs::SAMPLE.into());
    listing::made(plan, "listed", "document 01's sample", &sample)?;
    // Among them the one of 1,000 variables, which is for the tables what the others are for arms.
    for (what, size) in SIZES.into_iter().chain([("85 kB", 85_000)]) {
        let reply = inputs::nearest(&replies, size)?;
        let name = format!("a reply, {what}: {}", reply.short_name());
        listing::replies(plan, "listed", &name, &[reply.clone()])?;
    }
    listing::replies(plan, "listed", &format!("the {} real replies", replies.len()), &replies)?;
    for order in ["random", "sorted", "reversed"] {
        for count in [1_000, 3_000, 10_000, 30_000, 100_000].into_iter().filter(|count| *count <= plan.most) {
            listing::made(plan, order, &count.to_string(), &models::arms(count, order))?;
        }
    }
    for count in [1_000, 10_000, 100_000].into_iter().filter(|count| *count <= plan.most) {
        listing::made(plan, "sets", &count.to_string(), &models::set(count))?;
    }
    for length in [20, 64] {
        listing::made(plan, "full", &length.to_string(), &models::full(length)?)?;
    }
    Ok(())
}
