// Boards and decks for crates/oracle_boards, with the plain answers that the original gives about them.
//
// Input: items one after the other. A byte 1, then a board image. Or a byte 2, then a deck of 52 codes.
// Output: a line an item. For an image eight column tops, four cells (255 for none), four foundation counts, all
// that are home, empty cells, empty columns, won (0 or 1). For a deck the eight columns that it is dealt to, each
// code followed by a space and each column by `|`.
use crate::boards::{game, shuffled, won};
use crate::codes::{cell_code, code, image, record};
use crate::draws::Draws;
use crate::original::common::card::{Card, Suit};
use crate::original::freecell::board::FreeCellBoard;
use crate::original::freecell::solver::{self, deal, is_win};
use crate::refusals::MOST_POPS;
use crate::sheet::Sheet;

fn answers(board: &FreeCellBoard) -> String {
    let mut numbers: Vec<usize> = Vec::new();
    numbers.extend((0..8).map(|i| cell_code(board.top_of_tableau(i)) as usize));
    numbers.extend(board.free_cells.map(|cell| cell_code(cell) as usize));
    numbers.extend(Suit::ALL.map(|suit| board.foundation_count(suit)));
    numbers.push(board.total_foundation_count());
    numbers.push(board.empty_free_cells());
    numbers.push(board.empty_tableau_columns());
    numbers.push(is_win(board) as usize);
    let words: Vec<String> = numbers.iter().map(|n| n.to_string()).collect();
    words.join(" ") + "\n"
}

fn columns(board: &FreeCellBoard) -> String {
    let mut line = String::new();
    for column in &board.tableau {
        for &card in column {
            line += &format!("{} ", code(card));
        }
        line += "|";
    }
    line + "\n"
}

// What has been written so far, and which boards and moves it shows.
#[derive(Default)]
struct Boards {
    sheet: Sheet,
    boards: usize,
    kinds: [usize; 6],
    some_column_empty: usize,
    no_cell_empty: usize,
    nearly_won: usize,
    won: usize,
}

impl Boards {
    fn deck(&mut self, deck: &[Card]) {
        self.sheet.input.push(2);
        self.sheet.input.extend(deck.iter().map(|&card| code(card)));
        self.sheet.output += &columns(&deal(deck).unwrap());
    }

    fn board(&mut self, board: &FreeCellBoard) {
        self.sheet.input.push(1);
        self.sheet.input.extend(image(board));
        self.sheet.output += &answers(board);
        self.boards += 1;
        self.some_column_empty += (board.empty_tableau_columns() > 0) as usize;
        self.no_cell_empty += (board.empty_free_cells() == 0) as usize;
        self.nearly_won += (board.total_foundation_count() >= 45 && !is_win(board)) as usize;
        self.won += is_win(board) as usize;
    }

    // Every `every`th board of a game of at most `most` moves.
    fn game(
        &mut self,
        draws: &mut Draws,
        start: &FreeCellBoard,
        weights: [usize; 6],
        (most, every): (usize, usize),
    ) {
        let game = game(draws, start, most, weights);
        for (made, (step, board)) in (1..).zip(&game) {
            self.kinds[record(step)[0] as usize - 1] += 1;
            if made % every == 0 {
                self.board(board);
            }
        }
    }

    // Every second board of a line that wins, and the won board.
    fn line(&mut self, start: &FreeCellBoard) {
        let mut board = start.clone();
        let list = solver::judge(start, MOST_POPS, usize::MAX, false).list;
        for (made, step) in list.iter().enumerate() {
            if made % 2 == 1 {
                self.board(&board);
            }
            board = step.apply(&board).unwrap();
        }
        self.board(&board);
    }
}

pub fn write() -> std::io::Result<()> {
    let mut draws = Draws::Knuth(2026);
    let mut all = Boards::default();
    let mut decks = vec![Card::standard_deck()];
    while decks.len() < 40 {
        decks.push(shuffled(&mut draws));
    }
    for deck in &decks[..20] {
        all.deck(deck);
    }
    let deals: Vec<FreeCellBoard> = decks.iter().map(|deck| deal(deck).unwrap()).collect();
    for board in &deals {
        all.board(board);
    }
    // Weights by kind: column to column, home from a column, to a cell, from a cell, home from a cell, back from home.
    for board in &deals[..20] {
        all.game(&mut draws, board, [1, 1, 1, 1, 1, 1], (60, 12));
        all.game(&mut draws, board, [6, 40, 4, 4, 40, 1], (120, 20));
        all.game(&mut draws, board, [1, 0, 20, 0, 0, 0], (5, 4));
    }
    for _ in 0..8 {
        all.game(&mut draws, &won(), [2, 1, 1, 1, 1, 4], (60, 12));
        all.game(&mut draws, &won(), [1, 1, 4, 1, 1, 4], (20, 3));
    }
    for board in &deals[20..24] {
        all.line(board);
    }
    all.board(&won());
    println!("  boards {}, moves by kind {:?}", all.boards, all.kinds);
    println!(
        "  an empty column: {}; no empty cell: {}; 45 or more home: {}; won: {}",
        all.some_column_empty, all.no_cell_empty, all.nearly_won, all.won
    );
    all.sheet.write("oracle_boards")
}
