//! A small generator of random numbers: splitmix64.

pub struct Rng(u64);

impl Rng {
    pub fn new(seed: u64) -> Rng {
        Rng(seed)
    }

    fn draw(&mut self) -> u64 {
        self.0 = self.0.wrapping_add(0x9e37_79b9_7f4a_7c15);
        let mut mixed = self.0;
        mixed = (mixed ^ (mixed >> 30)).wrapping_mul(0xbf58_476d_1ce4_e5b9);
        mixed = (mixed ^ (mixed >> 27)).wrapping_mul(0x94d0_49bb_1331_11eb);
        mixed ^ (mixed >> 31)
    }

    /// A number below `bound`; 0 if there is none.
    pub fn below(&mut self, bound: usize) -> usize {
        (self.draw() % bound.max(1) as u64) as usize
    }

    /// True in about that many of a hundred draws.
    pub fn chance(&mut self, percent: usize) -> bool {
        self.below(100) < percent
    }

    pub fn pick<T: Clone>(&mut self, items: &[T]) -> T {
        items[self.below(items.len())].clone()
    }

    /// One of the usual items, or, now and then, one of the odd ones.
    pub fn mostly<T: Clone>(&mut self, percent: usize, usual: &[T], odd: &[T]) -> T {
        match self.chance(percent) {
            true => self.pick(usual),
            false => self.pick(odd),
        }
    }

    pub fn shuffle<T>(&mut self, items: &mut [T]) {
        for last in (1..items.len()).rev() {
            items.swap(last, self.below(last + 1));
        }
    }

    /// The same ASCII letters, now and then in another case.
    pub fn any_case(&mut self, text: &str) -> String {
        match self.below(10) {
            0 => text.to_ascii_lowercase(),
            1 => text.to_ascii_uppercase(),
            2 => text
                .chars()
                .map(|letter| match self.chance(50) {
                    true => letter.to_ascii_lowercase(),
                    false => letter.to_ascii_uppercase(),
                })
                .collect(),
            _ => text.to_string(),
        }
    }
}
