// Seeded boards of four kinds: deals, the middle of a game by random play, wild placements, endgames.
use crate::codes::pile;
use crate::draws::Draws;
use crate::original::common::card::{Card, Suit};
use crate::original::freecell::board::{FreeCellBoard, FreeCellMove};
use crate::original::freecell::solver::deal;
use crate::refusals::fits;

pub const KINDS: [&str; 4] = ["deals", "mid-game", "wild", "endgames"];

pub fn board(draws: &mut Draws, kind: usize) -> FreeCellBoard {
    match kind % 4 {
        0 => deal(&shuffled(draws)).unwrap(),
        1 => {
            let start = deal(&shuffled(draws)).unwrap();
            let moves = 1 + draws.below(120);
            let weights = draws.one_of(&[[4, 6, 2, 4, 6, 1], [3, 1, 2, 2, 1, 1], [1; 6]]);
            played(draws, start, moves, weights).0
        }
        2 => {
            let most = draws.one_of(&[3, 6, 9, 13]);
            let home = [0; 4].map(|_| draws.below(most + 1));
            placed(draws, home)
        }
        _ => endgame(draws),
    }
}

pub fn shuffled(draws: &mut Draws) -> Vec<Card> {
    let mut deck = Card::standard_deck();
    for i in (1..deck.len()).rev() {
        deck.swap(i, draws.below(i + 1));
    }
    deck
}

pub fn won() -> FreeCellBoard {
    FreeCellBoard::new(
        [None; 4],
        Suit::ALL.map(|s| pile(s, 13)),
        Default::default(),
    )
}

// Few cards out: taken back from a won board move by move, or laid anywhere.
fn endgame(draws: &mut Draws) -> FreeCellBoard {
    if draws.once_in(2) {
        let moves = draws.below(60);
        return played(draws, won(), moves, [3, 1, 2, 2, 1, 6]).0;
    }
    let mut home = [13; 4];
    for _ in 0..draws.below(21) {
        let suit = draws.below(4);
        home[suit] = home[suit].max(1) - 1;
    }
    placed(draws, home)
}

// These many of each suit home, the others in cells and columns without regard to any rule.
fn placed(draws: &mut Draws, home: [usize; 4]) -> FreeCellBoard {
    let mut others = shuffled(draws);
    others.retain(|card| card.value as usize > home[card.suit as usize]);
    let mut cells = [None; 4];
    for cell in cells.iter_mut() {
        if draws.once_in(3) {
            *cell = others.pop();
        }
    }
    // the first columns only, now and then one column before all others
    let columns_used = 1 + draws.below(8).max(draws.below(8));
    let heavy = draws.once_in(4);
    let mut columns: [Vec<Card>; 8] = Default::default();
    for card in others {
        let i = if heavy && draws.once_in(2) {
            0
        } else {
            draws.below(columns_used)
        };
        columns[i].push(card);
    }
    FreeCellBoard::new(cells, Suit::ALL.map(|s| pile(s, home[s as usize])), columns)
}

// The legal moves of each kind, 1 to 6.
pub fn moves_by_kind(board: &FreeCellBoard) -> [Vec<FreeCellMove>; 6] {
    [
        FreeCellMove::find_tableau_to_tableau(board),
        FreeCellMove::find_tableau_to_foundation(board),
        FreeCellMove::find_tableau_to_freecell(board),
        FreeCellMove::find_freecell_to_tableau(board),
        FreeCellMove::find_freecell_to_foundation(board),
        FreeCellMove::find_foundation_to_tableau(board),
    ]
}

// A legal move, its kind drawn by weight among the kinds that have one.
fn drawn(draws: &mut Draws, board: &FreeCellBoard, weights: [usize; 6]) -> Option<FreeCellMove> {
    let kinds = moves_by_kind(board);
    let chance = |kind: usize| {
        if kinds[kind].is_empty() {
            0
        } else {
            weights[kind]
        }
    };
    let sum: usize = (0..6).map(chance).sum();
    if sum == 0 {
        return None;
    }
    let mut place = draws.below(sum);
    let mut kind = 0;
    while place >= chance(kind) {
        place -= chance(kind);
        kind += 1;
    }
    Some(kinds[kind][draws.below(kinds[kind].len())].clone())
}

// Random play: at most so many moves, each with the board after it.
pub fn game(
    draws: &mut Draws,
    start: &FreeCellBoard,
    moves: usize,
    weights: [usize; 6],
) -> Vec<(FreeCellMove, FreeCellBoard)> {
    let mut game: Vec<(FreeCellMove, FreeCellBoard)> = Vec::new();
    while game.len() < moves {
        let board = game.last().map_or(start, |(_, board)| board);
        let Some(step) = drawn(draws, board, weights) else {
            break;
        };
        let after = step.apply(board).unwrap();
        game.push((step, after));
    }
    game
}

// The board at the end of random play, and the moves.
pub fn played(
    draws: &mut Draws,
    start: FreeCellBoard,
    moves: usize,
    weights: [usize; 6],
) -> (FreeCellBoard, Vec<FreeCellMove>) {
    let (made, mut boards): (Vec<_>, Vec<_>) =
        game(draws, &start, moves, weights).into_iter().unzip();
    (boards.pop().unwrap_or(start), made)
}

// The boards of random play after move `at`, and then after every so many.
pub fn stops(
    draws: &mut Draws,
    start: &FreeCellBoard,
    moves: usize,
    weights: [usize; 6],
    (at, every): (usize, usize),
) -> Vec<FreeCellBoard> {
    let boards = game(draws, start, moves, weights).into_iter();
    let numbered = (1..).zip(boards.map(|(_, board)| board));
    numbered
        .filter(|(made, _)| made % every == at % every)
        .map(|(_, board)| board)
        .collect()
}

// A board that nobody dealt: up to `home` cards of a suit home, some in cells, the rest in columns of at most `most` cards.
pub fn made_up(draws: &mut Draws, home: usize, held: usize, most: usize) -> FreeCellBoard {
    let home = [0; 4].map(|_| draws.below(home + 1));
    let mut others = shuffled(draws);
    others.retain(|card| card.value as usize > home[card.suit as usize]);
    let mut cells = [None; 4];
    for cell in cells.iter_mut().take(held) {
        *cell = others.pop();
    }
    let mut columns: [Vec<Card>; 8] = Default::default();
    for card in others {
        let mut i = draws.below(8);
        while columns[i].len() >= most {
            i = (i + 1) % 8;
        }
        columns[i].push(card);
    }
    FreeCellBoard::new(cells, Suit::ALL.map(|s| pile(s, home[s as usize])), columns)
}

// Long runs: the high cards first, nearly each on a column that takes it, or else on an empty one. In one board of three the low
// cards take the cells and then the empty columns, so that few cards may go at a time; else there are empty places.
pub fn in_runs(draws: &mut Draws) -> FreeCellBoard {
    let least = draws.below(13);
    let home = [0; 4].map(|_| least + draws.below(2));
    let mut others = shuffled(draws);
    others.retain(|card| card.value as usize > home[card.suit as usize]);
    others.sort_by_key(|card| 13 - card.value);
    let low = if draws.once_in(3) { 9 } else { 1 };
    let low = others.split_off(others.len().saturating_sub(low));
    let loose = draws.one_of(&[5, 20, 100]);
    let mut columns: [Vec<Card>; 8] = Default::default();
    for card in others {
        let takes = |column: &Vec<Card>| column.last().is_some_and(|&top| fits(card, top));
        let taking = columns.iter().position(takes);
        let empty = columns.iter().position(Vec::is_empty);
        let place = taking.or(empty).filter(|_| !draws.once_in(loose));
        columns[place.unwrap_or_else(|| draws.below(8))].push(card);
    }
    let mut cells = [None; 4];
    for card in low {
        match cells.iter_mut().find(|cell| cell.is_none()) {
            Some(cell) => *cell = Some(card),
            None => {
                let empty = columns.iter().position(Vec::is_empty);
                columns[empty.unwrap_or_else(|| draws.below(8))].push(card);
            }
        }
    }
    FreeCellBoard::new(cells, Suit::ALL.map(|s| pile(s, home[s as usize])), columns)
}

// All 52 cards in one column.
pub fn heaped(draws: &mut Draws) -> FreeCellBoard {
    let mut columns: [Vec<Card>; 8] = Default::default();
    columns[3] = shuffled(draws);
    FreeCellBoard::new([None; 4], Default::default(), columns)
}

// A column over seven cards.
pub fn is_long(board: &FreeCellBoard) -> bool {
    board.tableau.iter().any(|column| column.len() > 7)
}
