//! Inputs to compare on: all short ones over an alphabet, and seeded random ones.

/// The same seed gives the same inputs (splitmix64).
pub struct Random(u64);

impl Random {
    pub fn new(seed: u64) -> Random {
        Random(seed)
    }

    pub fn word(&mut self) -> u64 {
        self.0 = self.0.wrapping_add(0x9e37_79b9_7f4a_7c15);
        let mut mixed = self.0;
        mixed = (mixed ^ (mixed >> 30)).wrapping_mul(0xbf58_476d_1ce4_e5b9);
        mixed = (mixed ^ (mixed >> 27)).wrapping_mul(0x94d0_49bb_1331_11eb);
        mixed ^ (mixed >> 31)
    }

    pub fn below(&mut self, bound: usize) -> usize {
        (self.word() % bound as u64) as usize
    }

    pub fn one<'a, T>(&mut self, of: &'a [T]) -> &'a T {
        &of[self.below(of.len())]
    }

    /// Pieces of a list one after the other.
    pub fn pieces(&mut self, of: &[&[u8]], count: usize) -> Vec<u8> {
        (0..count).flat_map(|_| self.one(of).to_vec()).collect()
    }
}

/// Calls with every byte string of up to that many letters, the short ones first.
pub fn all(alphabet: &[u8], most: usize, mut call: impl FnMut(&[u8]) -> Result<(), String>) -> Result<usize, String> {
    let mut count = 0;
    for size in 0..=most {
        let mut places = vec![0; size];
        loop {
            let bytes: Vec<u8> = places.iter().map(|&place| alphabet[place]).collect();
            call(&bytes)?;
            count += 1;
            let Some(at) = places.iter().rposition(|&place| place + 1 < alphabet.len()) else { break };
            places[at] += 1;
            places[at + 1..].fill(0);
        }
    }
    Ok(count)
}

/// A copy with some of its bytes changed, dropped, doubled or cut off.
pub fn damaged(random: &mut Random, whole: &[u8], letters: &[u8]) -> Vec<u8> {
    let mut bytes = whole.to_vec();
    for _ in 0..=random.below(3) {
        if bytes.is_empty() {
            break;
        }
        let at = random.below(bytes.len());
        match random.below(5) {
            0 => bytes[at] = *random.one(letters),
            1 => drop(bytes.remove(at)),
            2 => bytes.insert(at, *random.one(letters)),
            3 => bytes.truncate(at),
            _ => bytes[at] = random.word() as u8,
        }
    }
    bytes
}

/// The smallest input found by leaving out pieces of one that differs, as long as it still does.
pub fn smallest(bytes: &[u8], differs: impl Fn(&[u8]) -> bool) -> Vec<u8> {
    let mut best = bytes.to_vec();
    let mut size = best.len() / 2;
    while 0 < size {
        let mut at = 0;
        while at + size <= best.len() {
            let mut shorter = best.clone();
            shorter.drain(at..at + size);
            if differs(&shorter) {
                best = shorter;
            } else {
                at += size;
            }
        }
        size /= 2;
    }
    while let Some(shorter) = two_less(&best, &differs) {
        best = shorter;
    }
    best
}

/// The input without two of its bytes, such as a pair of brackets, where it still differs.
fn two_less(bytes: &[u8], differs: impl Fn(&[u8]) -> bool) -> Option<Vec<u8>> {
    if 256 < bytes.len() {
        return None;
    }
    (0..bytes.len()).flat_map(|first| (first + 1..bytes.len()).map(move |second| (first, second))).find_map(|(first, second)| {
        let mut shorter = bytes.to_vec();
        shorter.remove(second);
        shorter.remove(first);
        differs(&shorter).then_some(shorter)
    })
}
