//! Memory lent to the product between guards, so that every change is seen.

const GUARD: usize = 8;

pub struct Lent<T> {
    before: Vec<T>,
    memory: Vec<T>,
    lent: usize,
}

impl<T: Copy + PartialEq> Lent<T> {
    pub fn new(most: usize, pattern: impl Fn(usize) -> T) -> Lent<T> {
        let before: Vec<T> = (0..most + 2 * GUARD).map(pattern).collect();
        let memory = before.clone();
        Lent {
            before,
            memory,
            lent: 0,
        }
    }

    /// So many elements, with the pattern in them and around them.
    pub fn lend(&mut self, length: usize) -> &mut [T] {
        self.lent = length;
        let whole = length + 2 * GUARD;
        self.memory[..whole].copy_from_slice(&self.before[..whole]);
        &mut self.memory[GUARD..GUARD + length]
    }

    /// Whether the lent part begins with these elements and all else is as it was.
    pub fn holds_only(&self, written: &[T]) -> bool {
        let end = GUARD + written.len();
        let whole = self.lent + 2 * GUARD;
        written.len() <= self.lent
            && self.memory[..GUARD] == self.before[..GUARD]
            && self.memory[GUARD..end] == *written
            && self.memory[end..whole] == self.before[end..whole]
    }
}

#[test]
fn every_change_of_lent_memory_is_seen() {
    let mut lent = Lent::new(6, |n| n as u64 + 100);
    for changed in 0..6 + 2 * GUARD {
        lent.lend(6)[..2].copy_from_slice(&[1, 2]);
        assert!(lent.holds_only(&[1, 2]));
        assert!(!lent.holds_only(&[1]) && !lent.holds_only(&[1, 3]));
        lent.memory[changed] += 1_000;
        assert!(!lent.holds_only(&[1, 2]));
    }
}
