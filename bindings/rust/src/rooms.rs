//! Memory that is taken out of a limit.

use alloc::vec::Vec;
use core::mem::{size_of, take};

use crate::Refusal;

/// How many bytes may still be taken.
pub(crate) struct Budget {
    left: usize,
}

impl Budget {
    pub fn new(limit: usize) -> Budget {
        Budget { left: limit }
    }

    /// A room of so many zeros; an empty one where the limit has no place for it, or the machine no memory.
    pub fn room<T: Clone + Default>(&mut self, count: usize) -> Vec<T> {
        let mut room = Vec::new();
        let left = count.checked_mul(size_of::<T>()).and_then(|bytes| self.left.checked_sub(bytes));
        if let Some(left) = left.filter(|_| room.try_reserve_exact(count).is_ok()) {
            room.resize(count, T::default());
            self.left = left;
        }
        room
    }

    /// The same of bytes, but as many as there is place for.
    pub fn at_most(&mut self, count: usize) -> Vec<u8> {
        self.room(count.min(self.left))
    }

    /// A room is no longer needed.
    pub fn give_back<T>(&mut self, room: Vec<T>) {
        self.left += room.len() * size_of::<T>();
    }

    /// A room of so many zeros in place of one that was too short, which is given back first; `short`, which told the need,
    /// where there is no place for it. A need that is no larger than the room is refused too, so that asking again ends.
    pub fn grow<T: Clone + Default>(&mut self, room: &mut Vec<T>, need: usize, short: Refusal) -> Result<(), Refusal> {
        if need <= room.len() {
            return Err(short);
        }
        self.give_back(take(room));
        *room = self.room(need);
        if room.is_empty() {
            Err(short)
        } else {
            Ok(())
        }
    }
}
