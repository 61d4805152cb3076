//! Script lines: the crate's writer into a vector that has the room already, and ours into a lent buffer.

use super::timing::Plan;
use crate::driver::lines::{emit, written};
use crate::driver::ours::{self, Joined, Line};
use crate::driver::Fault;
use std::hint::black_box;

fn texts(of: &[&str]) -> Vec<String> {
    of.iter().map(ToString::to_string).collect()
}

/// Each of the twelve forms once, with parts as an encoder gives them.
fn forms() -> Vec<Line> {
    let constructors = texts(&["(none)", "(some (val X))"]);
    let body = "(or (= a #x0000000000000001) (= a #x00000000000000ff))";
    vec![
        Line::SetLogic("ALL".into()),
        Line::SetOption("produce-models".into(), "true".into()),
        Line::Comment("the request's principal\nand its resource".into()),
        Line::DeclareDatatype("Option".into(), texts(&["X"]), constructors),
        Line::DeclareConst("t12".into(), "(Option (_ BitVec 64))".into()),
        Line::DeclareFun("f3".into(), texts(&["E0", "E1", "String"]), "Bool".into()),
        Line::DefineFun("f4".into(), texts(&["a", "(_ BitVec 64)", "b", "Bool"]), "Bool".into(), body.into()),
        Line::Assert("(not (=> (and t1 (= t2 (some t3))) (or t4 (f3 t5 t6 \"guild chat\"))))".into()),
        Line::CheckSat,
        Line::GetModel,
        Line::Reset,
        Line::Exit,
    ]
}

fn row(plan: &Plan, name: &str, lines: &[Line]) -> Result<(), Fault> {
    let runtime = tokio::runtime::Builder::new_current_thread().build().map_err(|fault| fault.to_string())?;
    let prepared: Vec<(&Line, [Joined; 2])> = lines.iter().map(|line| (line, ours::lists(line))).collect();
    let size: usize = lines.iter().map(|line| written(line).map(|text| text.len())).sum::<Result<usize, Fault>>()?;
    let (mut theirs, mut lent) = (Vec::with_capacity(size), vec![7; size]);
    let times = plan.in_turns(&mut [
        // One entry into the runtime for all lines, so that its own cost does not count.
        &mut || {
            theirs.clear();
            let writing = async {
                for line in lines {
                    emit(&mut theirs, black_box(line)).await.expect("writing to memory does not fail");
                }
            };
            runtime.block_on(writing);
        },
        &mut || {
            let (mut at, mut told) = (0, [0]);
            for (line, lists) in &prepared {
                assert_eq!(ours::write_lists(black_box(line), lists, &mut lent[at..], &mut told), 0, "there is room");
                at += told[0] as usize;
            }
        },
    ]);
    if theirs != lent {
        return Err(format!("{name}: the crate writes another text than ours"));
    }
    println!("script\t{name}\t{size}\t{}\t{:.1}\t{:.1}", lines.len(), times[0], times[1]);
    Ok(())
}

pub fn run(plan: &Plan) -> Result<(), Fault> {
    row(plan, "the twelve forms", &forms())?;
    row(plan, "an assert of 100,000 bytes", &[Line::Assert("(and t1 t2)".repeat(9_090))])?;
    let sorts = vec!["(_ BitVec 64)".to_string(); 1_000];
    row(plan, "a declare-fun of 1,000 sorts", &[Line::DeclareFun("f".into(), sorts, "Bool".into())])
}
