// Boards with bytes put that make them none, once and twice over, for the gate's programs in C; and how such a board is told to them.
use crate::codes::{self, BOARD, COLUMN, EMPTY};
use crate::original::freecell::board::FreeCellBoard;
use crate::refusals;

// A place of a board, and the byte put there.
pub type Put = (usize, u8);

// so much room such a program has for a board; and what is added to the function if the board stands there itself
const ROOM: usize = BOARD + 8;
const ITSELF: u8 = 128;

// So many bytes of a board with bytes put.
pub fn board(board: &FreeCellBoard, puts: &[Put], given: usize) -> Vec<u8> {
    let mut bytes = codes::bytes(board);
    bytes.resize(ROOM, 0);
    puts.iter().for_each(|&(place, byte)| bytes[place] = byte);
    bytes.truncate(given);
    bytes
}

// An image and the byte put; or, where more than one is, the board itself.
pub struct Told {
    pub itself: u8,
    pub put: Put,
    pub bytes: Vec<u8>,
}

pub fn told(whole: &FreeCellBoard, puts: &[Put], given: usize) -> Told {
    let none = (usize::from(u16::MAX), 0);
    let image = |put: Put| Told {
        itself: 0,
        put,
        bytes: codes::image(whole),
    };
    match puts {
        [] => image(none),
        [put] => image(*put),
        _ => Told {
            itself: ITSELF,
            put: none,
            bytes: board(whole, puts, given),
        },
    }
}

// The first cell with a card, and the room of the first column that has two.
fn places(board: &FreeCellBoard) -> (usize, usize) {
    let cell = board.free_cells.iter().position(Option::is_some);
    let column = board.tableau.iter().position(|column| column.len() > 1);
    (
        cell.expect("a card in a cell"),
        16 + COLUMN * column.expect("two cards in a column"),
    )
}

// A code that is no card's, 13.
pub fn no_card(board: &FreeCellBoard) -> Put {
    (places(board).1, 0x14)
}

// A card of a column that lies a second time in it, or one of a cell that does: 14.
fn twice_in_column(board: &FreeCellBoard) -> Put {
    let (_, card) = places(board);
    (card + 1, codes::bytes(board)[card])
}

fn twice_there(board: &FreeCellBoard) -> Put {
    let (cell, card) = places(board);
    (card + 1, codes::cell_code(board.free_cells[cell]))
}

// A card missing from its cell, 15.
pub fn missing(board: &FreeCellBoard) -> Put {
    (places(board).0, EMPTY)
}

// 12 by a foundation, a column's count and unused room; 13, 14, 15. (14 is by a card that takes the place of another.)
pub fn once(board: &FreeCellBoard) -> [Put; 6] {
    let [home, count, unused] = SHAPES;
    [
        home,
        count,
        unused,
        no_card(board),
        twice_in_column(board),
        missing(board),
    ]
}

const SHAPES: [Put; 3] = [(4, 14), (8, 53), (16 + 51, 16)];

// Two things at once, of which the first gives the number: 12 in each way before 13, 12 before 14 and before 15, 13 before 14, 13 before
// 15 (both by a byte of its own), 14 before 15.
pub fn twice(board: &FreeCellBoard) -> [[Put; 2]; 8] {
    let [home, count, unused] = SHAPES;
    let (no_card, twice, missing) = (no_card(board), twice_there(board), missing(board));
    let both = [
        (12, [home, no_card]),
        (12, [count, no_card]),
        (12, [unused, no_card]),
        (12, [home, twice]),
        (12, [home, missing]),
        (13, [no_card, twice]),
        (13, [no_card, missing]),
        (14, [twice_in_column(board), missing]),
    ];
    both.map(|(number, puts)| {
        let refused = |puts: &[Put]| refusals::board(&self::board(board, puts, BOARD)).err();
        assert_eq!(refused(&puts), Some(number));
        assert_eq!(refused(&puts[..1]), Some(number));
        assert!(refused(&puts[1..]) > Some(number));
        puts
    })
}
