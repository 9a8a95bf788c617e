//! Memory that is lent with more of it on either side.

use std::fmt::Debug;

use reference::random::Random;

/// How many bytes, or numbers, stand on either side of what is lent.
const GUARD: usize = 64;

/// Memory inside more of it, as it was made and as it is.
pub struct Lent<T> {
    made: Vec<T>,
    now: Vec<T>,
}

impl Lent<u8> {
    /// Made bytes, so that no two buffers come alike.
    pub fn bytes(random: &mut Random, count: usize) -> Lent<u8> {
        let length = count + 2 * GUARD;
        let words = (0..length.div_ceil(8)).flat_map(|_| random.next_number().to_le_bytes());
        Lent::new(words.take(length).collect())
    }
}

impl Lent<u64> {
    /// Made numbers.
    pub fn numbers(random: &mut Random, count: usize) -> Lent<u64> {
        Lent::new((0..count + 2 * GUARD).map(|_| random.next_number()).collect())
    }
}

impl<T: Copy + Debug + PartialEq> Lent<T> {
    fn new(made: Vec<T>) -> Lent<T> {
        Lent { now: made.clone(), made }
    }

    /// Where what is lent begins.
    pub fn pointer(&mut self) -> *mut T {
        let end = self.now.len() - GUARD;
        self.now[GUARD..end].as_mut_ptr()
    }

    /// What was lent, before and after; what is around it must be as it was.
    pub fn taken_back(self) -> (Vec<T>, Vec<T>) {
        let Lent { made, now } = self;
        let end = made.len() - GUARD;
        assert_eq!(now[..GUARD], made[..GUARD], "before what is lent");
        assert_eq!(now[end..], made[end..], "behind what is lent");
        (made[GUARD..end].to_vec(), now[GUARD..end].to_vec())
    }
}
