// What the original does not tell: how often its search took a waiting node, how many nodes it made, how deep the deepest
// lies and when it was made, and whether it stopped at the limit. Three of its weights are shadowed by types of ours; the
// original uses them as it uses numbers, and each use is seen here. One search at a time in a thread.
use crate::given;
use std::cell::Cell;
use std::cmp::Ordering;
use std::ops::Mul;

#[derive(Clone, Copy, Default, Debug)]
pub struct Gauge {
    // what the search may do
    budget: usize,
    capacity: usize,
    depth: usize,
    // the depth of the child that was asked about last
    child: usize,
    // what it did
    pub pops: usize,
    pub births: usize,
    pub deepest: usize,
    // the pops when the first node as deep as that was made
    pub deepest_at: usize,
    pub limit: bool,
    pub no_room: bool,
}

// The original's own limit of depth.
pub const DEPTH: usize = given::MAX_DEPTH;

thread_local! {
    static GAUGE: Cell<Gauge> = Cell::default();
}

pub fn start(budget: usize, capacity: usize, depth: usize) {
    GAUGE.set(Gauge {
        budget,
        capacity,
        depth,
        ..Gauge::default()
    });
}

pub fn reading() -> Gauge {
    GAUGE.get()
}

// Stands for MAX_NODES. `expanded >= MAX_NODES` is asked once for each node taken, before it is counted.
pub struct Budget;

pub const MAX_NODES: Budget = Budget;

impl PartialEq<Budget> for usize {
    fn eq(&self, _: &Budget) -> bool {
        unreachable!("the original asks only whether it has reached the limit")
    }
}

impl PartialOrd<Budget> for usize {
    fn partial_cmp(&self, _: &Budget) -> Option<Ordering> {
        unreachable!("the original asks only whether it has reached the limit")
    }

    fn ge(&self, _: &Budget) -> bool {
        let mut gauge = GAUGE.get();
        assert_eq!(*self, gauge.pops);
        // a search that found no room is over; the original knows of no such end and is stopped here
        let over = gauge.no_room || *self >= gauge.budget;
        if over {
            gauge.limit = !gauge.no_room;
        } else {
            gauge.pops += 1;
        }
        GAUGE.set(gauge);
        over
    }
}

// Stands for MAX_DEPTH. Of a node taken `>=` is asked; of a child `>`, before its cost is looked at.
pub struct Depth;

pub const MAX_DEPTH: Depth = Depth;

impl PartialEq<Depth> for usize {
    fn eq(&self, _: &Depth) -> bool {
        unreachable!("the original asks only for more")
    }
}

impl PartialOrd<Depth> for usize {
    fn partial_cmp(&self, _: &Depth) -> Option<Ordering> {
        unreachable!("the original asks only for more")
    }

    fn ge(&self, _: &Depth) -> bool {
        *self >= GAUGE.get().depth
    }

    fn gt(&self, _: &Depth) -> bool {
        let mut gauge = GAUGE.get();
        gauge.child = *self;
        GAUGE.set(gauge);
        *self > gauge.depth
    }
}

// Stands for a weight of the progress score, which the search works out once for the root and once for each child that passed
// the depth and cost tests, right after its birth: so the uses count the nodes.
pub struct Birth;

pub const PROGRESS_LOW_BLOCKED_PENALTY: Birth = Birth;

impl Mul<Birth> for i64 {
    type Output = i64;

    fn mul(self, _: Birth) -> i64 {
        let mut gauge = GAUGE.get();
        gauge.births += 1;
        if gauge.child > gauge.deepest {
            (gauge.deepest, gauge.deepest_at) = (gauge.child, gauge.pops);
        }
        gauge.no_room |= gauge.births > gauge.capacity;
        GAUGE.set(gauge);
        self * given::PROGRESS_LOW_BLOCKED_PENALTY
    }
}
