// Boards and moves for crates/oracle_moves, with what the original makes of them.
//
// Input: items one after the other. A byte 1, a board image, a byte that counts move records, those records, two bytes
// (the higher first) that count the bytes of a list, that list. Or a byte 2, which begins the second list of boards:
// those with a column over seven cards.
// Output, for an image: the runs of the eight columns and the most cards moved into each; for each of the 52 cards, ace
// of clubs first, the columns that take it (column i as 2^i) and 256 if its foundation does; for kinds 2, 5, 6, 1, 4, 3
// the kind, how many moves, their records, and how many bytes of the room stayed; what a damaged board and too little
// room give; for each record 0 or the refusal, and the board (`=` if it is the given one); for the list 0 or the
// refusal, how many moves were played, and the board. For a byte 2 a heading.
//
// The original says only whether a move can be played: the number of a refusal is SCOPE.md's (refusals.rs).
use crate::boards::{self, heaped, is_long, made_up, moves_by_kind, shuffled, stops, won};
use crate::codes::{cell_code, code, counted, hex, image, pack, record, records};
use crate::draws::Draws;
use crate::original::freecell::board::FreeCellBoard;
use crate::original::freecell::solver::deal;
use crate::refusals;
use crate::sheet::Sheet;
use std::collections::BTreeMap;

// The room that the program lends.
const ROOM: usize = 4200;

fn limits(board: &FreeCellBoard) -> String {
    let runs = (0..8).map(|i| board.max_tableau_run_length(i));
    let most = (0..8).map(|i| board.max_movable_cards(i));
    let numbers = runs.chain(most).map(|n| format!("{n} "));
    numbers.collect::<String>() + "\n"
}

fn takers(board: &FreeCellBoard) -> String {
    let mut line = String::new();
    for card in pack() {
        let columns = (0..8).filter(|&i| board.can_add_run_to_tableau(&[card], i));
        let bits: usize = columns.map(|i| 1 << i).sum();
        let home = 256 * board.can_add_to_foundation(card) as usize;
        line += &format!("{} ", bits + home);
    }
    line + "\n"
}

fn generated(board: &FreeCellBoard) -> String {
    let kinds = moves_by_kind(board);
    let mut lines = String::new();
    for kind in [2, 5, 6, 1, 4, 3] {
        let moves = &kinds[kind - 1];
        lines += &format!("{} {} ", kind, moves.len());
        for step in moves {
            lines += &format!("{} ", hex(&record(step)));
        }
        lines += &format!("{}\n", ROOM - 5 * moves.len());
    }
    lines
}

// Cells, foundation counts, columns, and how many bytes of unused room are not zero.
fn board_text(board: &FreeCellBoard) -> String {
    let cells = board.free_cells.map(cell_code);
    let piles = [0, 1, 2, 3].map(|suit| board.foundation[suit].len() as u8);
    let mut columns = String::new();
    for column in &board.tableau {
        let codes: Vec<u8> = column.iter().map(|&card| code(card)).collect();
        columns += &(hex(&codes) + "|");
    }
    format!("{} {} {} 0", hex(&cells), hex(&piles), columns)
}

// The board after moves, or that it is the given one.
fn moved_text(given: &FreeCellBoard, board: &FreeCellBoard) -> String {
    if image(board) == image(given) {
        return "=".to_string();
    }
    board_text(board)
}

// How many moves and lists of each sort are tried.
#[derive(Default)]
struct Tried {
    legal: [usize; 6],
    refused: BTreeMap<u8, usize>,
    lists: usize,
    stopped: usize,
}

impl Tried {
    fn one_move(&mut self, board: &FreeCellBoard, bytes: [u8; 5]) -> String {
        match refusals::step(board, &bytes) {
            Ok((_, after)) => {
                self.legal[bytes[0] as usize - 1] += 1;
                format!("0 {}\n", board_text(&after))
            }
            Err(number) => {
                *self.refused.entry(number).or_default() += 1;
                format!("{number} =\n")
            }
        }
    }

    fn list(&mut self, board: &FreeCellBoard, list: &[u8]) -> String {
        self.lists += 1;
        if let Err(number) = refusals::list(list) {
            return format!("{number} 0 =\n");
        }
        let (number, made, after) = refusals::replay(board, list);
        self.stopped += (number != 0) as usize;
        format!("{number} {made} {}\n", moved_text(board, &after))
    }

    fn item(&mut self, sheet: &mut Sheet, board: &FreeCellBoard, records: &[[u8; 5]], list: &[u8]) {
        sheet.input.push(1);
        sheet.input.extend(image(board));
        sheet.input.push(records.len() as u8);
        sheet.input.extend(records.concat());
        sheet.input.extend(counted(list));
        sheet.output += &limits(board);
        sheet.output += &takers(board);
        sheet.output += &generated(board);
        sheet.output += &format!("13 {} 21 {} 13 = 13 0 =\n", ROOM, refusals::RECORDS - 1);
        for &bytes in records {
            sheet.output += &self.one_move(board, bytes);
        }
        sheet.output += &self.list(board, list);
    }
}

// A legal record of each kind that has one, each of them with one byte changed, and some drawn at random.
fn some_records(draws: &mut Draws, board: &FreeCellBoard) -> Vec<[u8; 5]> {
    let mut found = Vec::new();
    for moves in moves_by_kind(board) {
        if !moves.is_empty() {
            found.push(record(&moves[draws.below(moves.len())]));
        }
    }
    for mut bytes in found.clone() {
        let place = draws.below(5);
        bytes[place] = draws.one_of(&[0, 1, 2, 3, 4, 5, 6, 7, 8, 13, 14, 16, 52, 211, 255]);
        found.push(bytes);
    }
    for _ in 0..3 {
        found.push(any_record(draws));
    }
    // a card on its own column, and the top card of a column where it fits or not
    let source = draws.below(8);
    if let Some(card) = board.top_of_tableau(source) {
        found.push([1, source as u8, source as u8, 1, code(card)]);
        found.push([1, source as u8, draws.below(8) as u8, 1, code(card)]);
        found.push([3, source as u8, draws.below(4) as u8, 1, code(card)]);
    }
    found
}

fn any_record(draws: &mut Draws) -> [u8; 5] {
    let card = (draws.below(13) as u8 + 1) * 16 + draws.below(4) as u8;
    let kind = draws.below(8) as u8;
    let count = if kind == 1 {
        draws.below(4) as u8 + 1
    } else {
        1
    };
    let to = if kind == 2 || kind == 5 {
        card % 16
    } else {
        draws.below(8) as u8
    };
    [kind, draws.below(8) as u8, to, count, card]
}

// A game of so many legal moves, as a list of records.
fn game(draws: &mut Draws, board: &FreeCellBoard, moves: usize) -> Vec<u8> {
    records(&boards::played(draws, board.clone(), moves, [2, 4, 1, 1, 4, 1]).1)
}

// A game, as it is, with one byte changed, cut short, or with nothing in it.
fn some_list(draws: &mut Draws, board: &FreeCellBoard, turn: usize) -> Vec<u8> {
    let moves = draws.below(9) + 1;
    let mut list = game(draws, board, moves);
    match turn % 5 {
        0 if !list.is_empty() => {
            let place = draws.below(list.len());
            list[place] = draws.below(256) as u8;
        }
        1 if !list.is_empty() => {
            let place = draws.below(list.len() / 5) * 5 + 4;
            list[place] = 211;
        }
        2 if turn % 3 == 0 => {
            list.truncate(list.len().saturating_sub(draws.below(4) + 1));
        }
        _ => {}
    }
    list
}

fn boards(draws: &mut Draws) -> Vec<FreeCellBoard> {
    let mut boards = vec![won()];
    for _ in 0..16 {
        let board = deal(&shuffled(draws)).unwrap();
        boards.push(board.clone());
        boards.extend(stops(draws, &board, 60, [6, 20, 4, 3, 20, 1], (0, 15)));
    }
    for turn in 0..8 {
        boards.extend(stops(draws, &won(), 40, [2, 1, 1, 1, 1, 4], (turn, 8)));
        boards.push(made_up(draws, 13, turn % 5, 7));
        boards.push(made_up(draws, 6, 4, 7));
        boards.push(made_up(draws, 10, turn % 5, 52));
        boards.push(made_up(draws, 2, turn % 5, 12));
    }
    boards.push(heaped(draws));
    boards
}

pub fn write() -> std::io::Result<()> {
    let mut draws = Draws::Knuth(2027);
    let (mut sheet, mut tried) = (Sheet::default(), Tried::default());
    let boards = boards(&mut draws);
    sheet.in_two_lists(&boards, 2, |sheet, turn, board| {
        let records = some_records(&mut draws, board);
        let list = some_list(&mut draws, board, turn);
        tried.item(sheet, board, &records, &list);
    });
    // a game of 201 moves: its first 200 are a list, all of them are none
    let board = boards
        .iter()
        .filter(|board| !is_long(board))
        .nth(1)
        .unwrap();
    let long_game = game(&mut draws, board, 201);
    tried.item(&mut sheet, board, &[], &long_game[..refusals::LIST]);
    tried.item(&mut sheet, board, &[], &long_game);
    println!(
        "  legal moves by kind, 1 to 6: {:?}; refused: {:?}; lists: {}; stopped at a bad move: {}",
        tried.legal, tried.refused, tried.lists, tried.stopped
    );
    sheet.write("oracle_moves")
}
