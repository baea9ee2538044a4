// The original's scores with one weight changed, to see whether the samples hold every weight. Weights are numbers there and cannot
// be changed; here its solver.rs is a copy in which each is a call (build.rs writes it).
use crate::original::freecell::board;
use std::cell::Cell;

thread_local! {
    static TURN: Cell<(&'static str, i64)> = const { Cell::new(("", 0)) };
}

// From now on the named weight is so much larger; no other is changed.
pub fn turn(name: &'static str, by: i64) {
    TURN.set((name, by));
}

fn turned(name: &str, weight: i64) -> i64 {
    let (which, by) = TURN.get();
    if which == name {
        return weight + by;
    }
    weight
}

#[allow(dead_code, non_snake_case)]
pub mod weights {
    use super::turned;
    include!(concat!(env!("OUT_DIR"), "/weights.rs"));
}

#[allow(dead_code)]
pub mod solver {
    include!(concat!(env!("OUT_DIR"), "/solver.rs"));
    include!("private.rs");
}
