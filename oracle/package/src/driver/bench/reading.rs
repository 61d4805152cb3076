//! Readings: the crate, our library in buffers used before and in cleared ones, and the plain C reader.

use super::plain;
use super::timing::Plan;
use crate::driver::{ours, Fault};
use crate::symcc::decoder::sexpr::parse_sexpr;
use std::hint::black_box;

/// An input, the byte 0 that the plain C reader stops at, and what a reading takes: nodes, text bytes, open brackets.
pub struct Input {
    ended: Vec<u8>,
    pub needs: [usize; 3],
}

/// What is lent, large enough for each input of a row.
#[derive(Default)]
pub struct Lent {
    nodes: Vec<u64>,
    text: Vec<u8>,
    stack: Vec<u64>,
    told: [u64; 3],
}

pub fn taken(bytes: &[u8]) -> bool {
    parse_sexpr(bytes).is_ok()
}

impl Input {
    pub fn bytes(&self) -> &[u8] {
        &self.ended[..self.ended.len() - 1]
    }

    /// Learns the needs as a caller does: it lends what a refusal asks for, and calls again.
    pub fn new(bytes: &[u8], lent: &mut Lent) -> Result<Input, Fault> {
        let mut input = Input { ended: bytes.to_vec(), needs: [0; 3] };
        input.ended.push(0);
        loop {
            let answer = lent.ours(&input);
            let need = (answer / 256) as usize;
            match answer % 256 {
                0 => break,
                10 => lent.nodes.resize(4 * need, 7),
                11 => lent.text.resize(need, 7),
                12 => lent.stack.resize(need, 7),
                number => return Err(format!("our reader refuses an input of the bench: {number}")),
            }
        }
        input.needs = lent.told.map(|number| number as usize);
        Ok(input)
    }
}

impl Lent {
    pub fn ours(&mut self, input: &Input) -> u64 {
        ours::parse_sexpr(black_box(input.bytes()), &mut self.nodes, &mut self.text, &mut self.stack, &mut self.told)
    }

    fn plain(&mut self, input: &Input) {
        // SAFETY: our reader took this input in these buffers.
        unsafe {
            plain::read(black_box(&input.ended), &mut self.nodes, &mut self.text, &mut self.stack, &mut self.told)
        }
    }

    /// Sets to zero what the reading of an input will use.
    pub fn clear(&mut self, [nodes, text, depth]: [usize; 3]) {
        self.nodes[..4 * nodes].fill(0);
        self.text[..text].fill(0);
        self.stack[..depth].fill(0);
        black_box(self);
    }

    /// The arena that the last reading left, of that many nodes and bytes.
    pub fn arena(&self, [nodes, text, _]: [usize; 3]) -> (&[u64], &[u8]) {
        (&self.nodes[..4 * nodes], &self.text[..text])
    }

    /// The words, the text and the numbers that the last reading left.
    pub fn left(&self, [nodes, text, _]: [usize; 3]) -> (Vec<u64>, Vec<u8>, [u64; 3]) {
        (self.nodes[..4 * nodes].to_vec(), self.text[..text].to_vec(), self.told)
    }
}

/// The plain reader is a limit only if it does the same work.
fn same_work(lent: &mut Lent, input: &Input) -> Result<(), Fault> {
    lent.clear(input.needs);
    lent.ours(input);
    let wanted = lent.left(input.needs);
    lent.clear(input.needs);
    lent.told = [0; 3];
    lent.plain(input);
    match lent.left(input.needs) == wanted {
        true => Ok(()),
        false => Err("the plain C reader leaves another arena than ours".into()),
    }
}

/// Times one row: all of its inputs, one after the other, are a call.
pub fn row(plan: &Plan, part: &str, name: &str, inputs: &[Vec<u8>]) -> Result<(), Fault> {
    let mut lent = Lent::default();
    let inputs = inputs.iter().map(|bytes| Input::new(bytes, &mut lent)).collect::<Result<Vec<Input>, Fault>>()?;
    for input in &inputs {
        same_work(&mut lent, input).map_err(|fault| format!("{name}: {fault}"))?;
    }
    // The four calls take the same buffers in turn, so each has the same memory.
    let lent = std::cell::RefCell::new(lent);
    let times = plan.in_turns(&mut [
        &mut || inputs.iter().for_each(|input| assert!(taken(black_box(input.bytes())), "the crate takes it")),
        &mut || inputs.iter().for_each(|input| assert_eq!(lent.borrow_mut().ours(input), 0, "ours takes it")),
        &mut || {
            inputs.iter().for_each(|input| {
                lent.borrow_mut().clear(input.needs);
                assert_eq!(lent.borrow_mut().ours(input), 0, "ours takes it");
            })
        },
        &mut || inputs.iter().for_each(|input| lent.borrow_mut().plain(input)),
    ]);
    let sum = |part: fn(&Input) -> usize| inputs.iter().map(part).sum::<usize>();
    let (bytes, nodes) = (sum(|input| input.bytes().len()), sum(|input| input.needs[0]));
    println!(
        "{part}\t{name}\t{bytes}\t{nodes}\t{}",
        times.iter().map(|time| format!("{time:.1}")).collect::<Vec<_>>().join("\t")
    );
    Ok(())
}

/// Times the check of 27 on the arena of a reply.
pub fn check(plan: &Plan, name: &str, bytes: &[u8]) -> Result<(), Fault> {
    let mut lent = Lent::default();
    let input = Input::new(bytes, &mut lent)?;
    let (words, text, _) = lent.left(input.needs);
    let mut told = [0; 2];
    let times = plan.in_turns(&mut [&mut || {
        assert_eq!(
            ours::check_arena(black_box(&words), black_box(&text), &mut told),
            0,
            "an arena that the reader wrote"
        );
    }]);
    println!("check\t{name}\t{}\t{}\t{}\t{:.1}", bytes.len(), input.needs[0], 8 * words.len() + text.len(), times[0]);
    Ok(())
}
