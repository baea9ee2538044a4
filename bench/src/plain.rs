// The original as it is timed: nothing of it is counted, and all that is not its own is the budget, which it has as a number.
#![allow(dead_code)]

pub mod freecell {
    include!(concat!(env!("OUT_DIR"), "/freecell.rs"));

    // The original's weights, but for the budget; a name brought in by itself goes before the others.
    pub mod weights {
        pub use crate::given::*;
        pub use super::Budget as MAX_NODES;
    }

    use std::cmp::Ordering;
    use std::sync::atomic::{AtomicUsize, Ordering::Relaxed};

    // Stands for MAX_NODES: `expanded >= MAX_NODES` is asked once for each node taken.
    pub struct Budget;

    pub static BUDGET: AtomicUsize = AtomicUsize::new(0);

    impl PartialEq<Budget> for usize {
        fn eq(&self, _: &Budget) -> bool {
            *self == BUDGET.load(Relaxed)
        }
    }

    impl PartialOrd<Budget> for usize {
        fn partial_cmp(&self, _: &Budget) -> Option<Ordering> {
            self.partial_cmp(&BUDGET.load(Relaxed))
        }

        fn ge(&self, _: &Budget) -> bool {
            *self >= BUDGET.load(Relaxed)
        }
    }

    pub mod solver {
        include!(env!("CORBELNIB_SOLVER"));
    }
}

use crate::original;
use freecell::board::{FreeCellBoard, FreeCellMove};
use freecell::solver::FreeCellSolver;
use std::sync::atomic::Ordering::Relaxed;

// A board of the original that is counted, as one of this.
pub fn board(board: &original::freecell::board::FreeCellBoard) -> FreeCellBoard {
    FreeCellBoard::new(
        board.free_cells,
        board.foundation.clone(),
        board.tableau.clone(),
    )
}

// A search; callgrind knows it by its name (instructions.sh).
#[no_mangle]
#[inline(never)]
pub fn bench_theirs(board: &FreeCellBoard, budget: usize) -> Option<Vec<FreeCellMove>> {
    freecell::BUDGET.store(budget, Relaxed);
    FreeCellSolver::new().solve(board, 0.0, false)
}
