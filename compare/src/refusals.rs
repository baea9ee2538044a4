// The scope's refusals (docs/SCOPE.md), written from the customer's text alone: what may be asked, and else the number that
// comes first in its order. What is not refused is the original's to answer.
use crate::codes::{self, BOARD, COLUMN, EMPTY};
use crate::numbers;
use crate::original::common::card::{Card, Suit};
use crate::original::freecell::board::{FreeCellBoard, FreeCellMove};
use crate::original::freecell::solver;

pub type Asked<T> = Result<T, u8>;

pub const RECORDS: usize = 4180;
pub const TOKEN: usize = 32;
pub const FEATURES: usize = 7;
pub const RECORD: usize = 5;
pub const LIST: usize = 1000;
// the words of a sheet (figures.rs)
pub const SHEET: usize = 716;
pub const MOST_POPS: usize = 1_000_000;
pub const MOST_NUMBER: usize = 32_000;

// 12 to 15 for a board of 432 bytes; another length is 12.
pub fn board(bytes: &[u8]) -> Asked<FreeCellBoard> {
    if bytes.len() != BOARD {
        return Err(12);
    }
    let mut columns = Vec::new();
    for (i, room) in bytes[16..].chunks(COLUMN).enumerate() {
        let count = bytes[8 + i] as usize;
        if count > COLUMN || room[count..].iter().any(|&unused| unused != 0) {
            return Err(12);
        }
        columns.push(&room[..count]);
    }
    laid_out(&bytes[..4], &bytes[4..8], &columns)
}

// 10 to 15 for an image.
pub fn image(bytes: &[u8]) -> Asked<FreeCellBoard> {
    if bytes.len() < 2 || bytes[0] as usize * 256 + bytes[1] as usize != bytes.len() - 2 {
        return Err(10);
    }
    if bytes.get(2) != Some(&1) {
        return Err(11);
    }
    let body = &bytes[3..];
    if body.len() < 8 {
        return Err(12);
    }
    let mut columns = Vec::new();
    let mut rest = &body[8..];
    for _ in 0..8 {
        let (&count, following) = rest.split_first().ok_or(12)?;
        if following.len() < count as usize {
            return Err(12);
        }
        let (column, others) = following.split_at(count as usize);
        columns.push(column);
        rest = others;
    }
    if !rest.is_empty() {
        return Err(12);
    }
    laid_out(&body[..4], &body[4..8], &columns)
}

// 12 for a foundation count above 13, 13 for a code that is no card's, 14 for a card twice, 15 for a card missing.
fn laid_out(cells: &[u8], home: &[u8], columns: &[&[u8]]) -> Asked<FreeCellBoard> {
    if home.iter().any(|&count| count > 13) {
        return Err(12);
    }
    let held = cells.iter().filter(|&&code| code != EMPTY);
    let lying = columns.iter().flat_map(|column| column.iter());
    let mut seen = all_cards(held.chain(lying))?;
    for suit in Suit::ALL {
        seen.extend(codes::pile(suit, home[suit as usize] as usize));
    }
    if some_twice(&seen) {
        return Err(14);
    }
    if seen.len() < 52 {
        return Err(15);
    }
    let column = |i: usize| {
        columns[i]
            .iter()
            .filter_map(|&code| codes::card(code))
            .collect()
    };
    Ok(FreeCellBoard::new(
        [0, 1, 2, 3].map(|i| codes::card(cells[i])),
        Suit::ALL.map(|suit| codes::pile(suit, home[suit as usize] as usize)),
        [0, 1, 2, 3, 4, 5, 6, 7].map(column),
    ))
}

fn all_cards<'a>(codes: impl Iterator<Item = &'a u8>) -> Asked<Vec<Card>> {
    codes.map(|&code| codes::card(code).ok_or(13)).collect()
}

fn some_twice(cards: &[Card]) -> bool {
    let mut met = [[false; 14]; 4];
    cards.iter().any(|card| {
        let place = &mut met[card.suit as usize][card.value as usize];
        std::mem::replace(place, true)
    })
}

// 16, 13, 14 for a deck.
pub fn deal(deck: &[u8]) -> Asked<FreeCellBoard> {
    if deck.len() != 52 {
        return Err(16);
    }
    let cards = all_cards(deck.iter())?;
    if some_twice(&cards) {
        return Err(14);
    }
    Ok(solver::deal(&cards).expect("52 cards"))
}

// 41 for a number that is no hand's.
pub fn number(number: usize) -> Asked<FreeCellBoard> {
    if number == 0 || number > MOST_NUMBER {
        return Err(41);
    }
    Ok(solver::deal(&numbers::deck(number)).expect("52 cards"))
}

// 21 for room that is too small.
pub fn room<T>(given: T, room: usize, least: usize) -> Asked<T> {
    if room < least {
        return Err(21);
    }
    Ok(given)
}

// 30 for a place that is none of so many.
pub fn place(place: usize, places: usize) -> Asked<usize> {
    if place >= places {
        return Err(30);
    }
    Ok(place)
}

// 30 and 33 to 40 for one move: the move and the board after it. The original tells no number, but it has to play exactly what
// is not refused here.
pub fn step(board: &FreeCellBoard, record: &[u8]) -> Asked<(FreeCellMove, FreeCellBoard)> {
    let said = possible(record).ok_or(30)?;
    let (why, step) = (cause(board, said), named(board, said));
    match (why, step.apply(board)) {
        (Some(number), None) => Err(number),
        (None, Some(after)) => Ok((step, after)),
        (why, _) => panic!("{record:?}: {why:?}, and the original differs"),
    }
}

// What a record says.
#[derive(Clone, Copy)]
struct Said {
    kind: u8,
    from: usize,
    to: usize,
    count: usize,
    card: Card,
}

// None for a record that no board makes good.
fn possible(record: &[u8]) -> Option<Said> {
    let &[kind @ 1..=6, from, to, count, code] = record else {
        return None;
    };
    let card = codes::card(code)?;
    let (from, to, count) = (from as usize, to as usize, count as usize);
    let places = [(8, 8), (8, 4), (8, 4), (4, 8), (4, 4), (4, 8)][kind as usize - 1];
    let goes_home = kind == 2 || kind == 5;
    if from >= places.0 || to >= places.1 || (goes_home && to != card.suit as usize) {
        return None;
    }
    if count == 0 || (kind != 1 && count != 1) {
        return None;
    }
    Some(Said {
        kind,
        from,
        to,
        count,
        card,
    })
}

// The first cause that holds, of those that are left for a possible record.
fn cause(board: &FreeCellBoard, said: Said) -> Option<u8> {
    let between_columns = said.kind == 1;
    if between_columns && said.from == said.to {
        return Some(30);
    }
    let lying = source(board, said);
    if lying.is_empty() {
        return Some(33);
    }
    let Some(deepest) = lying.len().checked_sub(said.count) else {
        return Some(35);
    };
    if lying[deepest] != said.card {
        return Some(34);
    }
    if between_columns && said.count > limit(board, said.to) {
        return Some(36);
    }
    if lying[deepest..].windows(2).any(|two| !fits(two[1], two[0])) {
        return Some(37);
    }
    not_taken(board, said)
}

// The cards at the place that a move takes from, the deepest first.
fn source(board: &FreeCellBoard, said: Said) -> &[Card] {
    match said.kind {
        1..=3 => &board.tableau[said.from],
        4 | 5 => board.free_cells[said.from].as_slice(),
        _ => &board.foundation[said.from],
    }
}

// 38 to 40: the place that a move goes to does not take its card.
fn not_taken(board: &FreeCellBoard, said: Said) -> Option<u8> {
    match said.kind {
        3 => board.free_cells[said.to].is_some().then_some(39),
        2 | 5 => {
            let next = board.foundation[said.to].len() + 1;
            (said.card.value as usize != next).then_some(40)
        }
        _ => {
            let top = board.tableau[said.to].last();
            top.is_some_and(|&top| !fits(said.card, top)).then_some(38)
        }
    }
}

// A card on another one: a value below it, and of the other colour.
pub fn fits(card: Card, on: Card) -> bool {
    let is_red = |card: Card| matches!(card.suit, Suit::Diamond | Suit::Heart);
    card.value + 1 == on.value && is_red(card) != is_red(on)
}

// The most cards that may go to a column; an empty one does not count for itself.
pub fn limit(board: &FreeCellBoard, to: usize) -> usize {
    let cells = board.free_cells.iter().filter(|cell| cell.is_none());
    let others = (0..8).filter(|&column| column != to && board.tableau[column].is_empty());
    (cells.count() + 1) << others.count()
}

// What a record says, for the original. Between columns it is told all cards: those that lie there, but the deepest as the
// record has it.
fn named(board: &FreeCellBoard, said: Said) -> FreeCellMove {
    let Said { from, to, card, .. } = said;
    match said.kind {
        1 => {
            let lying = &board.tableau[from];
            let above = (said.count - 1).min(lying.len());
            let mut cards = vec![card; said.count - above];
            cards.extend(&lying[lying.len() - above..]);
            FreeCellMove::TableauToTableau {
                source: from,
                destination: to,
                cards,
            }
        }
        2 => FreeCellMove::TableauToFoundation { source: from, card },
        3 => FreeCellMove::TableauToFreeCell {
            source: from,
            card,
            cell_index: to,
        },
        4 => FreeCellMove::FreeCellToTableau {
            cell_index: from,
            destination: to,
            card,
        },
        5 => FreeCellMove::FreeCellToFoundation {
            cell_index: from,
            card,
        },
        _ => FreeCellMove::FoundationToTableau {
            suit: Suit::ALL[from],
            destination: to,
            card,
        },
    }
}

// 31 for a list; then the moves one by one: 0 or a move's number, how many were played, and the board then.
pub fn list(bytes: &[u8]) -> Asked<()> {
    if bytes.len() > LIST || bytes.len() % 5 != 0 {
        return Err(31);
    }
    Ok(())
}

pub fn replay(start: &FreeCellBoard, list: &[u8]) -> (u8, usize, FreeCellBoard) {
    let mut board = start.clone();
    for (place, record) in list.chunks(5).enumerate() {
        match step(&board, record) {
            Ok((_, after)) => board = after,
            Err(number) => return (number, place, board),
        }
    }
    (0, list.len() / 5, board)
}

// The nodes that the scratch holds: docs/MEMORY.md.
pub fn capacity(lengths: [usize; 4]) -> usize {
    let [nodes, heap, keys, costs] = lengths;
    let least = (nodes / 3).min(heap).min(keys / 2).min(costs / 2);
    least.min(u32::MAX as usize)
}

// 20, 21, 22 for a search: the capacity.
pub fn search(budget: usize, list: usize, lengths: [usize; 4]) -> Asked<usize> {
    settings(budget, (list, LIST), lengths)
}

// 41 for either end of a run of deals, then 20, 21, 22: the capacity.
pub fn season(
    (first, last): (usize, usize),
    budget: usize,
    sheet: usize,
    lengths: [usize; 4],
) -> Asked<usize> {
    if ![first, last]
        .iter()
        .all(|end| (1..=MOST_NUMBER).contains(end))
    {
        return Err(41);
    }
    settings(budget, (sheet, SHEET), lengths)
}

fn settings(budget: usize, (given, least): (usize, usize), lengths: [usize; 4]) -> Asked<usize> {
    if budget > MOST_POPS {
        return Err(20);
    }
    room((), given, least)?;
    match capacity(lengths) {
        0 => Err(22),
        capacity => Ok(capacity),
    }
}
