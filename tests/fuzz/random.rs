//! Random numbers from a seed: splitmix64.

pub struct Random(u64);

impl Random {
    pub fn new(seed: u64, number: u64) -> Random {
        let mut random = Random(seed.wrapping_mul(0x2545_f491_4f6c_dd1d) ^ number.wrapping_mul(0x9e37_79b9_7f4a_7c15));
        random.next();
        random
    }

    fn next(&mut self) -> u64 {
        self.0 = self.0.wrapping_add(0x9e37_79b9_7f4a_7c15);
        let mut mixed = self.0;
        mixed = (mixed ^ (mixed >> 30)).wrapping_mul(0xbf58_476d_1ce4_e5b9);
        mixed = (mixed ^ (mixed >> 27)).wrapping_mul(0x94d0_49bb_1331_11eb);
        mixed ^ (mixed >> 31)
    }

    /// From 0 to `most`.
    pub fn to(&mut self, most: u64) -> u64 {
        if most == u64::MAX {
            self.next()
        } else {
            self.next() % (most + 1)
        }
    }

    pub fn from_to(&mut self, least: u64, most: u64) -> u64 {
        least + self.to(most - least)
    }

    /// Below `end`, which is not 0.
    pub fn place(&mut self, end: usize) -> usize {
        self.to(end as u64 - 1) as usize
    }

    /// True once in `n` times.
    pub fn once_in(&mut self, n: u64) -> bool {
        self.to(n - 1) == 0
    }

    pub fn of<'a, T>(&mut self, items: &'a [T]) -> &'a T {
        &items[self.place(items.len())]
    }

    /// `count` different numbers from `least` to `most`.
    pub fn sample(&mut self, count: usize, least: u64, most: u64) -> Vec<u64> {
        let mut taken = Vec::new();
        while taken.len() < count {
            let number = self.from_to(least, most);
            if !taken.contains(&number) {
                taken.push(number);
            }
        }
        taken
    }
}
