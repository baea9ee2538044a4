// The smallest board that still shows a difference: cards go home or come together while it stays.
use crate::asks::Difference;
use crate::original::common::card::{Card, Suit};
use crate::original::freecell::board::FreeCellBoard;
use std::time::{Duration, Instant};

const PATIENCE: Duration = Duration::from_secs(60);

pub fn smallest(
    board: FreeCellBoard,
    found: Difference,
    differs: impl Fn(&FreeCellBoard) -> Option<Difference>,
) -> (FreeCellBoard, Difference) {
    smallest_by(smaller, board, found, differs)
}

// The same with anything of which there are smaller ones. Gives up after some time, since a long search may have to be run for
// each step.
pub fn smallest_by<T>(
    smaller: impl Fn(&T) -> Vec<T>,
    given: T,
    found: Difference,
    differs: impl Fn(&T) -> Option<Difference>,
) -> (T, Difference) {
    let start = Instant::now();
    let (mut given, mut found) = (given, found);
    loop {
        let step = smaller(&given)
            .into_iter()
            .take_while(|_| start.elapsed() < PATIENCE)
            .find_map(|next| differs(&next).map(|difference| (next, difference)));
        match step {
            Some(next) => (given, found) = next,
            None => return (given, found),
        }
    }
}

// A number at which something holds, no larger than a given one at which it holds; the least one if it holds from there on.
pub fn least(given: usize, holds: impl Fn(usize) -> bool) -> usize {
    let (mut below, mut least) = (0, given);
    while below < least {
        let middle = (below + least) / 2;
        if holds(middle) {
            least = middle;
        } else {
            below = middle + 1;
        }
    }
    least
}

// Boards that are smaller: first by a card more at home, then by a cell, then by a column emptied.
fn smaller(board: &FreeCellBoard) -> Vec<FreeCellBoard> {
    let mut boards: Vec<FreeCellBoard> = Suit::ALL
        .iter()
        .filter_map(|&suit| sent_home(board, suit))
        .collect();
    for cell in 0..4 {
        boards.extend((0..8).filter_map(|column| uncelled(board, cell, column)));
    }
    for from in 0..8 {
        boards.extend((0..8).filter_map(|to| joined(board, from, to)));
    }
    boards
}

// The next card of a suit goes home from wherever it lies.
fn sent_home(board: &FreeCellBoard, suit: Suit) -> Option<FreeCellBoard> {
    let value = board.foundation_count(suit) as u8 + 1;
    if value > 13 {
        return None;
    }
    let card = Card::new(suit, value);
    let cells = board
        .free_cells
        .map(|cell| cell.filter(|&held| held != card));
    let mut columns = board.tableau.clone();
    for column in columns.iter_mut() {
        column.retain(|&lying| lying != card);
    }
    Some(FreeCellBoard::new(
        cells,
        board.foundation_plus_card(card),
        columns,
    ))
}

// The card of a cell goes on a column, fitting or not.
fn uncelled(board: &FreeCellBoard, cell: usize, column: usize) -> Option<FreeCellBoard> {
    let card = board.free_cells[cell]?;
    let mut cells = board.free_cells;
    cells[cell] = None;
    let mut columns = board.tableau.clone();
    columns[column].push(card);
    Some(FreeCellBoard::new(cells, board.foundation.clone(), columns))
}

// All of a column goes on another one.
fn joined(board: &FreeCellBoard, from: usize, to: usize) -> Option<FreeCellBoard> {
    if from == to || board.tableau[from].is_empty() || board.tableau[to].is_empty() {
        return None;
    }
    let mut columns = board.tableau.clone();
    let cards = std::mem::take(&mut columns[from]);
    columns[to].extend(cards);
    Some(FreeCellBoard::new(
        board.free_cells,
        board.foundation.clone(),
        columns,
    ))
}
