//! A small deterministic source of random numbers (splitmix64).

const STEP: u64 = 0x9e37_79b9_7f4a_7c15;

#[derive(Clone, Debug)]
pub struct Random {
    state: u64,
}

impl Random {
    /// The numbers of file `index` do not depend on the files before it.
    pub fn new(seed: u64, index: usize) -> Random {
        let mut random = Random { state: seed };
        random.state = random.draw().wrapping_add((index as u64).wrapping_mul(STEP));
        random.state = random.draw();
        random
    }

    pub fn draw(&mut self) -> u64 {
        self.state = self.state.wrapping_add(STEP);
        let mut mixed = self.state;
        mixed = (mixed ^ (mixed >> 30)).wrapping_mul(0xbf58_476d_1ce4_e5b9);
        mixed = (mixed ^ (mixed >> 27)).wrapping_mul(0x94d0_49bb_1331_11eb);
        mixed ^ (mixed >> 31)
    }

    /// From 0 to `bound` - 1; `bound` is not 0.
    pub fn below(&mut self, bound: usize) -> usize {
        (self.draw() % bound as u64) as usize
    }

    /// From `low` to `high`, both included.
    pub fn between(&mut self, low: usize, high: usize) -> usize {
        low + self.below(high - low + 1)
    }

    pub fn chance(&mut self, percent: usize) -> bool {
        self.below(100) < percent
    }

    pub fn pick<T: Copy>(&mut self, list: &[T]) -> T {
        list[self.below(list.len())]
    }

    /// The place of one of the weights, each as often as it says; not all are 0.
    pub fn weighted(&mut self, weights: &[usize]) -> usize {
        let mut left = self.below(weights.iter().sum());
        for (place, weight) in weights.iter().enumerate() {
            if left < *weight {
                return place;
            }
            left -= weight;
        }
        unreachable!("the number drawn is below the sum of the weights")
    }

    /// One of the things, each as often as its weight says; not all weights are 0.
    pub fn pick_weighted<T: Copy>(&mut self, things: &[(T, usize)]) -> T {
        let weights: Vec<usize> = things.iter().map(|(_, weight)| *weight).collect();
        things[self.weighted(&weights)].0
    }

    pub fn u8(&mut self) -> u8 {
        self.draw() as u8
    }

    pub fn u16(&mut self) -> u16 {
        self.draw() as u16
    }

    pub fn u32(&mut self) -> u32 {
        self.draw() as u32
    }

    /// A word with the ends of the range more often than chance would have them.
    pub fn word(&mut self) -> u32 {
        match self.below(8) {
            0 => 0,
            1 => self.pick(&[1, 2, 63, 64, 65, 0x7fff_ffff, 0x8000_0000, u32::MAX - 1, u32::MAX]),
            2..=4 => self.below(20) as u32,
            _ => self.u32(),
        }
    }

    pub fn bytes(&mut self, count: usize) -> Vec<u8> {
        (0..count).map(|_| self.u8()).collect()
    }

    pub fn shuffle<T>(&mut self, list: &mut [T]) {
        for last in (1..list.len()).rev() {
            list.swap(last, self.below(last + 1));
        }
    }
}
