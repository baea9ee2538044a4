// Draws that are the same on every machine. Every task has its own, from the run's seed, the work and its number, so that any
// task can be run again alone and threads change nothing.
pub enum Draws {
    // SplitMix64
    Split(u64),
    // Knuth's 64-bit linear congruential generator: the samples that the work `oracles` writes were drawn with it
    Knuth(u64),
}

const STEP: u64 = 0x9e37_79b9_7f4a_7c15;

// One number mixed from another; also the rubbish that lent room is filled with.
pub fn mixed(n: u64) -> u64 {
    let n = (n ^ (n >> 30)).wrapping_mul(0xbf58_476d_1ce4_e5b9);
    let n = (n ^ (n >> 27)).wrapping_mul(0x94d0_49bb_1331_11eb);
    n ^ (n >> 31)
}

impl Draws {
    pub fn new(seed: u64, work: u64, task: u64) -> Draws {
        Draws::Split(mixed(mixed(seed.wrapping_add(STEP) ^ mixed(work)) ^ task))
    }

    pub fn word(&mut self) -> u64 {
        match self {
            Draws::Split(state) => {
                *state = state.wrapping_add(STEP);
                mixed(*state)
            }
            Draws::Knuth(state) => {
                let product = state.wrapping_mul(6_364_136_223_846_793_005);
                *state = product.wrapping_add(1_442_695_040_888_963_407);
                *state
            }
        }
    }

    pub fn byte(&mut self) -> u8 {
        self.word() as u8
    }

    // 0 to n - 1
    pub fn below(&mut self, n: usize) -> usize {
        let word = self.word();
        let high = match self {
            Draws::Split(_) => word >> 11,
            Draws::Knuth(_) => word >> 33,
        };
        high as usize % n
    }

    // true once in n times
    pub fn once_in(&mut self, n: usize) -> bool {
        self.below(n) == 0
    }

    pub fn one_of<T: Copy>(&mut self, things: &[T]) -> T {
        things[self.below(things.len())]
    }
}
