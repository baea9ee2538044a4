// What one run of this program was asked for, beside its works.
use crate::draws::Draws;

pub struct Run {
    pub seed: u64,
    pub threads: usize,
    pub first: usize,
    // how many exchanges a climb tries
    pub steps: usize,
}

impl Run {
    // The draws of a task.
    pub fn draws(&self, work: usize, task: usize) -> Draws {
        Draws::new(self.seed, work as u64, task as u64)
    }
}
