// The original, not a character changed, and what it keeps to itself. Its files say `crate::common` and `super::weights`,
// which is why these modules have its names; main.rs brings `common` to the top.
#![allow(dead_code)]

pub mod common {
    include!(concat!(env!("OUT_DIR"), "/common.rs"));
}

pub mod freecell {
    include!(concat!(env!("OUT_DIR"), "/freecell.rs"));

    // The original's weights, but for three that are seen through gauge.rs; a name brought in by itself goes before the others.
    pub mod weights {
        pub use crate::gauge::{MAX_DEPTH, MAX_NODES, PROGRESS_LOW_BLOCKED_PENALTY};
        pub use crate::given::*;
    }

    pub mod solver {
        include!(env!("CORBELNIB_SOLVER"));

        use crate::gauge;

        include!("private.rs");

        // What a search came to: SCOPE.md's number, the pops, the list; how many nodes were made, how deep the deepest
        // lies, and after how many pops it was made.
        #[derive(Clone, Debug)]
        pub struct Judged {
            pub number: u8,
            pub pops: usize,
            pub births: usize,
            pub deepest: usize,
            pub deepest_at: usize,
            pub list: Vec<FreeCellMove>,
        }

        impl Judged {
            // Whether a caller can tell them apart.
            pub fn differs(&self, other: &Judged) -> bool {
                (self.number, self.pops, &self.list) != (other.number, other.pops, &other.list)
            }
        }

        pub fn judge(
            board: &FreeCellBoard,
            budget: usize,
            capacity: usize,
            partial: bool,
        ) -> Judged {
            judge_to(gauge::DEPTH, board, budget, capacity, partial)
        }

        // The same with another limit of depth than the original's.
        pub fn judge_to(
            depth: usize,
            board: &FreeCellBoard,
            budget: usize,
            capacity: usize,
            partial: bool,
        ) -> Judged {
            gauge::start(budget, capacity, depth);
            let moves = FreeCellSolver::new().solve(board, 0.0, partial);
            let gauge = gauge::reading();
            let ends = moves.as_ref().map(|list| ends_won(board, list));
            let number = match (gauge.limit, ends) {
                _ if gauge.no_room => 23,
                (true, Some(true)) => 5,
                (true, Some(false)) => 1,
                (true, None) => 3,
                (false, Some(true)) => 0,
                (false, Some(false)) => 2,
                (false, None) => 4,
            };
            let list = if number == 23 { None } else { moves };
            Judged {
                number,
                pops: gauge.pops,
                births: gauge.births,
                deepest: gauge.deepest,
                deepest_at: gauge.deepest_at,
                list: list.unwrap_or_default(),
            }
        }

        fn ends_won(board: &FreeCellBoard, list: &[FreeCellMove]) -> bool {
            let mut end = board.clone();
            for step in list {
                end = step.apply(&end).expect("the original's list can be played");
            }
            is_win(&end)
        }
    }
}
