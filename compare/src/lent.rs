// Room that is lent: full of rubbish, with more rubbish before and behind it that nobody may touch. The rubbish is a function of
// the place, so that what stayed can be told without a copy.
use crate::draws::{mixed, Draws};

const EDGE: usize = 16;

pub trait Rubbish: Copy + PartialEq + Default {
    fn rubbish(word: u64) -> Self;
}

impl Rubbish for u8 {
    fn rubbish(word: u64) -> u8 {
        (word >> 56) as u8
    }
}

impl Rubbish for u32 {
    fn rubbish(word: u64) -> u32 {
        (word >> 32) as u32
    }
}

impl Rubbish for u64 {
    fn rubbish(word: u64) -> u64 {
        word
    }
}

impl Rubbish for i64 {
    fn rubbish(word: u64) -> i64 {
        word as i64
    }
}

impl Rubbish for usize {
    fn rubbish(word: u64) -> usize {
        word as usize
    }
}

pub struct Room<T> {
    all: Vec<T>,
    seed: u64,
}

impl<T: Rubbish> Room<T> {
    pub fn new(draws: &mut Draws, length: usize) -> Room<T> {
        let seed = draws.word();
        let all = (0..length + 2 * EDGE).map(|i| rubbish(seed, i)).collect();
        Room { all, seed }
    }

    // The same, but what is in it is given.
    pub fn holding(draws: &mut Draws, given: &[T]) -> Room<T> {
        let mut room = Room::new(draws, given.len());
        room.lent().copy_from_slice(given);
        room
    }

    pub fn len(&self) -> usize {
        self.all.len() - 2 * EDGE
    }

    pub fn lent(&mut self) -> &mut [T] {
        let end = self.all.len() - EDGE;
        &mut self.all[EDGE..end]
    }

    pub fn held(&self) -> &[T] {
        &self.all[EDGE..self.all.len() - EDGE]
    }

    // The places beyond the first so many that are not as they were; before and behind the room are places too.
    pub fn changed_after(&self, count: usize) -> Vec<isize> {
        (0..EDGE)
            .chain(EDGE + count..self.all.len())
            .filter(|&i| self.all[i] != rubbish(self.seed, i))
            .map(|i| i as isize - EDGE as isize)
            .collect()
    }

    pub fn stays(&self) -> bool {
        self.changed_after(0).is_empty()
    }

    // Nothing but zeros in the room, and what is before and behind it as it was.
    pub fn is_cleared(&self) -> bool {
        self.held().iter().all(|&entry| entry == T::default())
            && self.changed_after(self.len()).is_empty()
    }
}

fn rubbish<T: Rubbish>(seed: u64, i: usize) -> T {
    T::rubbish(mixed(seed ^ i as u64))
}

// A number behind a pointer.
pub fn number<T: Rubbish>(draws: &mut Draws) -> Room<T> {
    Room::new(draws, 1)
}

// The search's scratch.
pub struct Scratch {
    pub nodes: Room<u32>,
    pub heap: Room<u64>,
    pub keys: Room<u64>,
    pub costs: Room<u8>,
}

impl Scratch {
    pub fn new(draws: &mut Draws, lengths: [usize; 4]) -> Scratch {
        Scratch {
            nodes: Room::new(draws, lengths[0]),
            heap: Room::new(draws, lengths[1]),
            keys: Room::new(draws, lengths[2]),
            costs: Room::new(draws, lengths[3]),
        }
    }

    pub fn is_cleared(&self) -> bool {
        self.nodes.is_cleared()
            && self.heap.is_cleared()
            && self.keys.is_cleared()
            && self.costs.is_cleared()
    }

    pub fn stays(&self) -> bool {
        self.nodes.stays() && self.heap.stays() && self.keys.stays() && self.costs.stays()
    }
}

// The lengths of scratch for exactly so many nodes: one part is just long enough, the others may be longer.
pub fn lengths_for(draws: &mut Draws, capacity: usize) -> [usize; 4] {
    let mut lengths = [3 * capacity, capacity, 2 * capacity, 2 * capacity];
    let tight = draws.below(4);
    for (part, length) in lengths.iter_mut().enumerate() {
        if part != tight {
            *length += draws.one_of(&[0, 0, 1, 2, 7, 1000]);
        }
    }
    lengths
}
