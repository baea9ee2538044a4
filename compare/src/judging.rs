// Judge: answer, pops and list, at given budgets and flags, with room enough, just enough, and one node too few.
use crate::answers::Settings;
use crate::asks::{judged, Difference};
use crate::codes::bytes;
use crate::draws::Draws;
use crate::lent::lengths_for;
use crate::original::freecell::board::FreeCellBoard;
use crate::original::freecell::solver::{self, Judged};
use crate::refusals::LIST;

pub const BUDGETS: [usize; 7] = [0, 1, 2, 10, 100, 1_000, 20_000];

// Any number but 0 is a yes.
fn flag(draws: &mut Draws, partial: bool) -> u8 {
    if partial {
        1 + draws.below(255) as u8
    } else {
        0
    }
}

// Our answer with room for so many nodes, against what the original's search came to.
fn at_capacity(
    draws: &mut Draws,
    board: &FreeCellBoard,
    (budget, partial): (usize, bool),
    capacity: usize,
    theirs: &Judged,
) -> Result<(), Difference> {
    let settings = Settings {
        budget,
        partial: flag(draws, partial),
        lengths: lengths_for(draws, capacity),
        list: LIST + draws.one_of(&[0, 0, 1, 500]),
    };
    judged(draws, &bytes(board), settings, &Ok(theirs.clone()))?;
    Ok(())
}

// With room for all nodes that the original makes, and sometimes more.
pub fn compare(
    draws: &mut Draws,
    board: &FreeCellBoard,
    asked: (usize, bool),
) -> Result<Judged, Difference> {
    let theirs = solver::judge(board, asked.0, usize::MAX, asked.1);
    let capacity = theirs.births.max(1) + draws.one_of(&[0, 0, 1, 64]);
    at_capacity(draws, board, asked, capacity, &theirs)?;
    Ok(theirs)
}

// At the need: the nodes that the original makes. One below it and anywhere below it: 23, after the pops at which the original
// makes the node that finds no room. None where the root is all that is needed.
pub fn at_the_need(
    draws: &mut Draws,
    board: &FreeCellBoard,
    asked: (usize, bool),
) -> Result<Option<usize>, Difference> {
    let full = solver::judge(board, asked.0, usize::MAX, asked.1);
    let need = full.births;
    if need < 2 {
        return Ok(None);
    }
    at_capacity(draws, board, asked, need, &full)?;
    for capacity in [need - 1, 1 + draws.below(need - 1)] {
        let less = solver::judge(board, asked.0, capacity, asked.1);
        assert_eq!(less.number, 23);
        at_capacity(draws, board, asked, capacity, &less)?;
    }
    Ok(Some(need))
}
