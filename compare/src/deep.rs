// Boards on which the original's search comes to its limit of depth, and a climber that finds more of them: random boards never
// come near it.
use crate::boards;
use crate::codes;
use crate::draws::Draws;
use crate::gauge::DEPTH;
use crate::original::freecell::board::FreeCellBoard;
use crate::original::freecell::solver;
use crate::refusals;

const KNOWN: &str = include_str!("../deep-boards.txt");
// how far a search may go to come to its limit of depth
pub const BUDGET: usize = 8_000;
// limits that have to be told from the original's
pub const OTHERS: [usize; 2] = [DEPTH - 1, DEPTH + 1];

pub fn known() -> Vec<FreeCellBoard> {
    let images = KNOWN.lines().filter(|line| !line.starts_with('#'));
    images
        .map(|image| refusals::image(&codes::unhex(image)).expect("an image in deep-boards.txt"))
        .collect()
}

// A budget and a number of nodes at which the original answers otherwise with another limit, a partial list being allowed. Two
// limits part at the first child that is as deep as the higher one: by the list, or else by the room that it needs.
pub fn tells(board: &FreeCellBoard, other: usize) -> Option<(usize, usize)> {
    let higher = other.max(DEPTH);
    let far = solver::judge_to(higher, board, BUDGET, usize::MAX, true);
    if far.deepest < higher {
        return None;
    }
    let budget = far.deepest_at;
    let need = |depth| solver::judge_to(depth, board, budget, usize::MAX, true).births;
    let differs = |&nodes: &usize| {
        let theirs = solver::judge(board, budget, nodes, true);
        theirs.differs(&solver::judge_to(other, board, budget, nodes, true))
    };
    let nodes = [need(higher), need(DEPTH), need(DEPTH) - 1];
    nodes.into_iter().find(differs).map(|nodes| (budget, nodes))
}

// Two cards change places.
fn exchanged(draws: &mut Draws, board: &FreeCellBoard) -> FreeCellBoard {
    let mut columns = board.tableau.clone();
    let places: Vec<(usize, usize)> = (0..8)
        .flat_map(|i| (0..columns[i].len()).map(move |row| (i, row)))
        .collect();
    let ((i, row), (j, other)) = (draws.one_of(&places), draws.one_of(&places));
    let card = columns[i][row];
    columns[i][row] = std::mem::replace(&mut columns[j][other], card);
    FreeCellBoard::new(board.free_cells, board.foundation.clone(), columns)
}

// How deep the original's search would go without its limit.
fn depth(board: &FreeCellBoard) -> usize {
    solver::judge_to(usize::MAX, board, BUDGET, usize::MAX, false).deepest
}

// Cards are exchanged some times, and the deeper board is kept.
fn climbed(draws: &mut Draws, start: FreeCellBoard, steps: usize) -> FreeCellBoard {
    let (mut reached, mut board) = (depth(&start), start);
    for _ in 0..steps {
        let next = exchanged(draws, &board);
        let deeper = depth(&next);
        if deeper >= reached {
            (board, reached) = (next, deeper);
        }
    }
    board
}

// A known board while there is one; then what a climb finds, from a known board or now and then from a deal.
pub fn board(draws: &mut Draws, task: usize, steps: usize) -> FreeCellBoard {
    let known = known();
    if let Some(board) = known.get(task) {
        return board.clone();
    }
    let start = if draws.once_in(4) {
        boards::board(draws, 0)
    } else {
        known[draws.below(known.len())].clone()
    };
    climbed(draws, start, steps)
}
