// The original's boards and moves in SCOPE.md's bytes, and back.
use crate::original::common::card::{Card, Suit};
use crate::original::freecell::board::{FreeCellBoard, FreeCellMove};

pub const BOARD: usize = 432;
pub const COLUMN: usize = 52;
pub const EMPTY: u8 = 0xff;

// value * 16 + suit, which is not the original's `encode`
pub fn code(card: Card) -> u8 {
    card.value * 16 + card.suit as u8
}

pub fn card(code: u8) -> Option<Card> {
    let value = code / 16;
    let suit = Suit::from_u8(code % 16)?;
    (1..=13).contains(&value).then(|| Card::new(suit, value))
}

pub fn cell_code(cell: Option<Card>) -> u8 {
    cell.map_or(EMPTY, code)
}

// The 52 cards, aces first.
pub fn pack() -> impl Iterator<Item = Card> {
    (1..=13).flat_map(|value| Suit::ALL.map(|suit| Card::new(suit, value)))
}

// 432 bytes: four cells, four foundation counts, eight column counts, 416 codes.
pub fn bytes(board: &FreeCellBoard) -> Vec<u8> {
    let mut bytes = vec![0; BOARD];
    for i in 0..4 {
        bytes[i] = cell_code(board.free_cells[i]);
        bytes[4 + i] = board.foundation[i].len() as u8;
    }
    for (i, column) in board.tableau.iter().enumerate() {
        bytes[8 + i] = column.len() as u8;
        for (row, &card) in column.iter().enumerate() {
            bytes[16 + COLUMN * i + row] = code(card);
        }
    }
    bytes
}

// The ace upward.
pub fn pile(suit: Suit, count: usize) -> Vec<Card> {
    (1..=count)
        .map(|value| Card::new(suit, value as u8))
        .collect()
}

pub fn image(board: &FreeCellBoard) -> Vec<u8> {
    let mut body = vec![1];
    body.extend(board.free_cells.map(cell_code));
    body.extend(board.foundation.iter().map(|pile| pile.len() as u8));
    for column in &board.tableau {
        body.push(column.len() as u8);
        body.extend(column.iter().map(|&card| code(card)));
    }
    counted(&body)
}

// A body with its two-byte count before it.
pub fn counted(body: &[u8]) -> Vec<u8> {
    let mut bytes = (body.len() as u16).to_be_bytes().to_vec();
    bytes.extend(body);
    bytes
}

pub fn record(step: &FreeCellMove) -> [u8; 5] {
    use FreeCellMove::*;
    match step {
        TableauToTableau {
            source,
            destination,
            cards,
        } => [
            1,
            *source as u8,
            *destination as u8,
            cards.len() as u8,
            code(cards[0]),
        ],
        TableauToFoundation { source, card } => [2, *source as u8, card.suit as u8, 1, code(*card)],
        TableauToFreeCell {
            source,
            card,
            cell_index,
        } => [3, *source as u8, *cell_index as u8, 1, code(*card)],
        FreeCellToTableau {
            cell_index,
            destination,
            card,
        } => [4, *cell_index as u8, *destination as u8, 1, code(*card)],
        FreeCellToFoundation { cell_index, card } => {
            [5, *cell_index as u8, card.suit as u8, 1, code(*card)]
        }
        FoundationToTableau {
            suit,
            destination,
            card,
        } => [6, *suit as u8, *destination as u8, 1, code(*card)],
        Deal { .. } => unreachable!("no kind of move"),
    }
}

pub fn records(steps: &[FreeCellMove]) -> Vec<u8> {
    steps.iter().flat_map(record).collect()
}

pub fn hex(bytes: &[u8]) -> String {
    bytes.iter().map(|byte| format!("{byte:02x}")).collect()
}

pub fn unhex(text: &str) -> Vec<u8> {
    let pairs = text.as_bytes().chunks(2);
    pairs
        .map(|pair| u8::from_str_radix(std::str::from_utf8(pair).unwrap(), 16).expect("two digits"))
        .collect()
}

fn name(card: Card) -> String {
    let value = b"?A23456789TJQK"[card.value as usize] as char;
    let suit = b"CDHS"[card.suit as usize] as char;
    format!("{value}{suit}")
}

// A board for a reader: cells, foundations, columns, and the image that `oneboard` reads.
pub fn drawn(board: &FreeCellBoard) -> String {
    let cells = board
        .free_cells
        .map(|cell| cell.map_or("--".to_string(), name));
    let home: Vec<String> = board
        .foundation
        .iter()
        .map(|pile| pile.len().to_string())
        .collect();
    let mut text = format!(
        "  cells {}\n  home C D H S: {}\n",
        cells.join(" "),
        home.join(" ")
    );
    for (i, column) in board.tableau.iter().enumerate() {
        let cards: Vec<String> = column.iter().map(|&card| name(card)).collect();
        text += &format!("  column {i}: {}\n", cards.join(" "));
    }
    text + &format!("  image {}\n", hex(&image(board)))
}
