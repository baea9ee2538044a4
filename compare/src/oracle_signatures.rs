// Published hashes and boards for crates/oracle_signatures, with the signatures that the original gives them.
//
// Input: items one after the other. A byte 1, then a board image. Or a byte 2, two bytes (the higher first) that count
// octets, then those. Or a byte 3, which begins the second list of boards: those with a column over seven cards.
// Output: a line an item: the board's signature, or FNV-1a of the octets, in sixteen hexadecimal digits; or a heading.
use crate::boards::{heaped, made_up, shuffled, stops, won};
use crate::codes::{counted, image, unhex};
use crate::draws::Draws;
use crate::original::freecell::board::FreeCellBoard;
use crate::original::freecell::solver::deal;
use crate::sheet::Sheet;

const VECTORS: &str = include_str!("../fnv-vectors.txt");

fn vector(sheet: &mut Sheet, line: &str) {
    let (hash, octets) = line.split_once(' ').unwrap();
    sheet.input.push(2);
    sheet.input.extend(counted(&unhex(octets)));
    sheet.output += &format!("{hash}\n");
}

// The same cards with cells and columns in another order.
fn turned(board: &FreeCellBoard) -> FreeCellBoard {
    let mut cells = board.free_cells;
    cells.reverse();
    let mut columns = board.tableau.clone();
    columns.rotate_left(3);
    FreeCellBoard::new(cells, board.foundation.clone(), columns)
}

fn boards(draws: &mut Draws) -> Vec<FreeCellBoard> {
    let mut boards = vec![won()];
    for _ in 0..40 {
        let board = deal(&shuffled(draws)).unwrap();
        boards.push(board.clone());
        boards.extend(stops(draws, &board, 40, [2, 20, 6, 3, 20, 1], (0, 9)));
    }
    for turn in 0..32 {
        boards.push(made_up(draws, 13, turn % 5, 7));
        boards.push(made_up(draws, 6, 4, 7));
    }
    for turn in 0..12 {
        boards.push(made_up(draws, 3, turn % 5, 52));
        boards.extend(stops(draws, &won(), 36, [2, 1, 1, 1, 1, 4], (0, 12)));
    }
    boards.push(heaped(draws));
    let others: Vec<FreeCellBoard> = boards.iter().step_by(9).map(turned).collect();
    boards.extend(others);
    boards
}

pub fn write() -> std::io::Result<()> {
    let mut sheet = Sheet::default();
    for line in VECTORS.lines().filter(|line| !line.starts_with('#')) {
        vector(&mut sheet, line);
    }
    let boards = boards(&mut Draws::Knuth(2028));
    sheet.in_two_lists(&boards, 3, |sheet, _, board| {
        sheet.input.push(1);
        sheet.input.extend(image(board));
        sheet.output += &format!("{:016x}\n", board.signature);
    });
    let count = |test: fn(&FreeCellBoard) -> bool| boards.iter().filter(|b| test(b)).count();
    println!(
        "  an empty column: {}; no empty cell: {}",
        count(|board| board.empty_tableau_columns() > 0),
        count(|board| board.empty_free_cells() == 0)
    );
    sheet.write("oracle_signatures")
}
