//! A random generator that gives the same numbers for the same seed (SplitMix64).

/// The generator.
pub struct Random(u64);

impl Random {
    /// The generator with this seed.
    pub const fn with_seed(seed: u64) -> Self {
        Random(seed)
    }

    fn number(&mut self) -> u64 {
        self.0 = self.0.wrapping_add(0x9E37_79B9_7F4A_7C15);
        let mut mixed = self.0;
        mixed = (mixed ^ (mixed >> 30)).wrapping_mul(0xBF58_476D_1CE4_E5B9);
        mixed = (mixed ^ (mixed >> 27)).wrapping_mul(0x94D0_49BB_1331_11EB);
        mixed ^ (mixed >> 31)
    }

    /// A number below `end`, which is not 0.
    pub fn below(&mut self, end: usize) -> usize {
        (self.number() % end as u64) as usize
    }

    /// Yes in so many cases of a hundred.
    pub fn percent(&mut self, cases: u8) -> bool {
        self.below(100) < usize::from(cases)
    }

    /// Puts the items into another order.
    pub fn shuffle<T>(&mut self, items: &mut [T]) {
        for last in (1..items.len()).rev() {
            items.swap(last, self.below(last + 1));
        }
    }
}

#[cfg(test)]
mod tests {
    use super::*;

    #[test]
    fn shuffled_items_are_the_same_items() {
        let mut items: Vec<usize> = (0..100).collect();
        Random::with_seed(1).shuffle(&mut items);
        assert!(!items.is_sorted());
        items.sort();
        assert!(items.into_iter().eq(0..100));
    }

    #[test]
    fn percent_has_its_ends() {
        let mut random = Random::with_seed(1);
        assert!((0..1000).all(|_| !random.percent(0)));
        assert!((0..1000).all(|_| random.percent(100)));
    }
}
