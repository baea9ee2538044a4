// What the original keeps to itself, asked from within: these lines stand behind its solver.rs (original.rs), and behind the copy
// of it whose weights can be changed (turned.rs).

// In SCOPE.md's order: home, immediate, blocked, imbalance, used, empty, longest.
pub fn features(board: &FreeCellBoard) -> [u64; 7] {
    let f = compute_features(board);
    [
        f.foundation_count as u64,
        f.immediate_foundation_moves as u64,
        f.blocked_low_cards as u64,
        f.foundation_imbalance as u64,
        f.free_cells_used as u64,
        f.empty_tableau as u64,
        f.longest_run as u64,
    ]
}

// The heuristic and the progress score.
pub fn scores(board: &FreeCellBoard) -> (i64, i64) {
    let f = compute_features(board);
    (heuristic_cost(&f), progress_score(&f))
}

pub fn priority(board: &FreeCellBoard, step: &FreeCellMove) -> Option<i64> {
    let after = step.apply(board)?;
    Some(local_priority(step, &compute_features(board), &after))
}

pub fn candidates(board: &FreeCellBoard) -> Vec<FreeCellMove> {
    let found = find_all_moves(board);
    found.into_iter().map(|(step, _)| step).collect()
}

// All that hangs on the weights but a search: the scores, and the candidates in order with their priorities.
pub type Weighed = ((i64, i64), Vec<(FreeCellMove, i64)>);

pub fn weighed(board: &FreeCellBoard) -> Weighed {
    let rated = |step: FreeCellMove| {
        let priority = priority(board, &step).expect("a candidate can be played");
        (step, priority)
    };
    let candidates = candidates(board).into_iter().map(rated).collect();
    (scores(board), candidates)
}

// Whether a card may go home without a second thought.
pub fn is_safe(board: &FreeCellBoard, card: Card) -> bool {
    is_safe_foundation_move(&FreeCellMove::TableauToFoundation { source: 0, card }, board)
}

pub fn first_safe(board: &FreeCellBoard) -> Option<FreeCellMove> {
    first_safe_foundation_move(board)
}

// The safe chain: its length and the board after it.
pub fn chain(board: &FreeCellBoard) -> (usize, FreeCellBoard) {
    match auto_play_safe_chain(board) {
        Some((after, moves)) => (moves.len(), after),
        None => (0, board.clone()),
    }
}
