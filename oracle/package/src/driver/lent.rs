//! Buffers to lend: every element is marked before a call, so that what a call left alone shows.

/// Elements before and after what is lent, which no call may touch.
const GUARD: usize = 8;

/// A mark for each place, so that elements that moved show too.
pub trait Mark: Copy + PartialEq + std::fmt::Debug {
    fn at(place: usize) -> Self;
}

impl Mark for u8 {
    fn at(place: usize) -> u8 {
        (place as u8).wrapping_mul(37) ^ 0xa5
    }
}

impl Mark for u64 {
    fn at(place: usize) -> u64 {
        (place as u64).wrapping_mul(0x9e37_79b9_7f4a_7c15) ^ 0xa5a5_a5a5_a5a5_a5a5
    }
}

#[derive(Default)]
pub struct Marked<T> {
    all: Vec<T>,
    size: usize,
}

impl<T: Mark> Marked<T> {
    /// A slice of that many elements, all marked anew.
    pub fn lend(&mut self, size: usize) -> &mut [T] {
        self.size = size;
        self.all.clear();
        self.all.extend((0..size + 2 * GUARD).map(T::at));
        &mut self.all[GUARD..GUARD + size]
    }

    /// A slice that starts with these, for a call to read, and so many marked elements behind them.
    pub fn put(&mut self, front: &[T], more: usize) {
        self.lend(front.len() + more)[..front.len()].copy_from_slice(front);
    }

    /// The slice as it is now.
    pub fn slice(&self) -> &[T] {
        &self.all[GUARD..GUARD + self.size]
    }

    /// Whether the slice now starts with these, and every other element is as it was marked.
    pub fn holds(&self, front: &[T]) -> Result<(), String> {
        if self.size < front.len() {
            return Err(format!("{} elements are more than were lent", front.len()));
        }
        for (place, found) in self.all.iter().enumerate() {
            let wanted = match place.checked_sub(GUARD) {
                Some(inside) if inside < front.len() => front[inside],
                _ => T::at(place),
            };
            if *found != wanted {
                return Err(format!("element {} of {}: {found:?}, not {wanted:?}", place as i64 - GUARD as i64, self.size));
            }
        }
        Ok(())
    }
}
