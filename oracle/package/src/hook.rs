//! Records each number handed to `BitVec::of_int`, in order: document 01's arena holds that number,
//! which cannot be had back from the stored vector once the width passes 128.

use num_traits::ToPrimitive;
use std::cell::RefCell;

thread_local! {
    static NUMBERS: RefCell<Vec<i128>> = const { RefCell::new(Vec::new()) };
}

/// Called by the crate's text, from the one line that oracle/edits.py adds to it.
pub fn note(number: &num_bigint::BigInt) {
    // The bench times the crate's own work only.
    if cfg!(feature = "bench") {
        return;
    }
    let number = number.to_i128().expect("the reader hands over numbers of 128 bits");
    NUMBERS.with(|numbers| numbers.borrow_mut().push(number));
}

/// Hands out the numbers since the last call, and forgets them.
pub fn take() -> Vec<i128> {
    NUMBERS.with(RefCell::take)
}
