//! The seeded generator: a case is drawn again from its seed, function and number.

use crate::Key;

/// A splitmix64 row of draws.
pub struct Chance(u64);

impl Chance {
    /// The draws of a seed.
    pub fn new(seed: u64) -> Self {
        Self(seed)
    }

    /// The draws of one case, apart from those of every other function and number.
    pub fn of_case(seed: u64, function: &str, number: u64) -> Self {
        let mut chance = Self(seed);
        for part in function.bytes().map(u64::from).chain([number]) {
            chance.0 ^= part;
            chance.0 = chance.draw();
        }
        chance
    }

    /// Any number of 64 bits.
    pub fn draw(&mut self) -> u64 {
        self.0 = self.0.wrapping_add(0x9E37_79B9_7F4A_7C15);
        let mut mixed = self.0;
        mixed = (mixed ^ (mixed >> 30)).wrapping_mul(0xBF58_476D_1CE4_E5B9);
        mixed = (mixed ^ (mixed >> 27)).wrapping_mul(0x94D0_49BB_1331_11EB);
        mixed ^ (mixed >> 31)
    }

    /// A number below `bound`.
    pub fn below(&mut self, bound: usize) -> usize {
        (self.draw() % bound as u64) as usize
    }

    /// True once in `times` draws.
    pub fn one_in(&mut self, times: usize) -> bool {
        self.below(times) == 0
    }

    /// One of the items.
    pub fn pick<T: Clone>(&mut self, items: &[T]) -> T {
        items[self.below(items.len())].clone()
    }

    /// One of the items, to be changed.
    pub fn one_of<'a, T>(&mut self, items: &'a mut [T]) -> &'a mut T {
        &mut items[self.below(items.len())]
    }

    /// The items in any order.
    pub fn shuffle<T>(&mut self, items: &mut [T]) {
        for left in (1..items.len()).rev() {
            items.swap(left, self.below(left + 1));
        }
    }

    /// A row of bytes.
    pub fn bytes(&mut self, len: usize) -> Vec<u8> {
        (0..len).map(|_| self.draw() as u8).collect()
    }

    /// A key.
    pub fn key(&mut self) -> Key {
        std::array::from_fn(|_| self.draw() as u8)
    }

    /// A key that differs from the given one in one byte, at any of its places.
    pub fn near(&mut self, key: &Key) -> Key {
        let place = self.below(key.len());
        self.differing_at(key, place)
    }

    /// A key that differs from the given one in the byte at `place`.
    pub fn differing_at(&mut self, key: &Key, place: usize) -> Key {
        let mut near = *key;
        near[place] ^= 1 + self.below(255) as u8;
        near
    }

    /// A number at or beside the ends of its range or a power of two.
    pub fn edge(&mut self) -> u64 {
        let power = 1u64 << self.below(64);
        self.pick(&[0, 1, power - 1, power, u64::MAX - 1, u64::MAX])
    }

    /// An edge as often as any number.
    pub fn edge_or_any(&mut self) -> u64 {
        match self.one_in(2) {
            true => self.edge(),
            false => self.draw(),
        }
    }

    /// The number, the one below it or the one above.
    pub fn around(&mut self, number: u64) -> u64 {
        self.pick(&[number.saturating_sub(1), number, number.saturating_add(1)])
    }
}

#[cfg(test)]
mod tests {
    use super::Chance;

    #[test]
    fn a_case_is_drawn_again() {
        let first = |seed, function, number| Chance::of_case(seed, function, number).draw();
        assert_eq!(first(1, "judge", 2), first(1, "judge", 2));
        assert_ne!(first(1, "judge", 2), first(2, "judge", 2));
        assert_ne!(first(1, "judge", 2), first(1, "create", 2));
        assert_ne!(first(1, "judge", 2), first(1, "judge", 3));
    }

    #[test]
    fn near_misses_differ_in_one_byte_at_every_place() {
        let mut chance = Chance::new(1);
        let key = chance.key();
        let mut seen = [false; 32];
        for _ in 0..1000 {
            let near = chance.near(&key);
            let places: Vec<_> = (0..32).filter(|&at| near[at] != key[at]).collect();
            assert_eq!(places.len(), 1);
            seen[places[0]] = true;
        }
        assert_eq!(seen, [true; 32]);
    }
}
