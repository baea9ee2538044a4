// Boards with moves on them whose numbers were worked out by hand, so that refusals.rs itself is held to something: every
// number for every kind of move that can be given it, and where more than one cause holds the first.
use crate::codes::pile;
use crate::original::common::card::{Card, Suit};
use crate::original::freecell::board::FreeCellBoard;
use crate::refusals;

// A record, and the number that it gives.
type Given = (u8, &'static [u8]);

pub struct Example {
    pub board: FreeCellBoard,
    // another board, and the move that leads from it to this one
    pub before: FreeCellBoard,
    pub first: [u8; 5],
    pub given: &'static [Given],
}

// The numbers of refused moves, in their order, each with the kinds that can be given it (0 and 7 are none).
pub const NUMBERS: [(u8, &[u8]); 9] = [
    (30, &[0, 1, 2, 3, 4, 5, 6, 7]),
    (33, &[1, 2, 3, 4, 5, 6]),
    (35, &[1]),
    (34, &[1, 2, 3, 4, 5, 6]),
    (36, &[1]),
    (37, &[1]),
    (38, &[1, 4, 6]),
    (39, &[3]),
    (40, &[2, 5]),
];

const ON_M: [Given; 29] = [
    (36, &[1, 0, 1, 5, 211]),
    (36, &[1, 0, 1, 4, 194]),
    (0, &[1, 0, 1, 3, 179]),
    // before 36
    (35, &[1, 0, 1, 6, 211]),
    (34, &[1, 0, 1, 5, 16]),
    (37, &[1, 7, 1, 3, 178]),
    // before 38; before 37
    (37, &[1, 7, 0, 3, 178]),
    (34, &[1, 7, 0, 3, 179]),
    (38, &[1, 0, 2, 1, 147]),
    (34, &[1, 0, 2, 1, 146]),
    (33, &[2, 1, 3, 1, 147]),
    // before 40
    (34, &[2, 2, 3, 1, 211]),
    (40, &[2, 2, 3, 1, 195]),
    (0, &[2, 0, 3, 1, 147]),
    // before 39
    (33, &[3, 1, 0, 1, 147]),
    (34, &[3, 0, 0, 1, 195]),
    (39, &[3, 0, 0, 1, 147]),
    (0, &[3, 0, 2, 1, 147]),
    // before 38
    (33, &[4, 2, 0, 1, 146]),
    (34, &[4, 0, 0, 1, 145]),
    (38, &[4, 0, 0, 1, 146]),
    (0, &[4, 0, 1, 1, 146]),
    (33, &[5, 2, 2, 1, 146]),
    // before 40
    (34, &[5, 0, 1, 1, 209]),
    (0, &[5, 0, 2, 1, 146]),
    // before 38
    (34, &[6, 0, 0, 1, 131]),
    (38, &[6, 0, 0, 1, 128]),
    (0, &[6, 1, 0, 1, 129]),
    (0, &[6, 0, 1, 1, 128]),
];

const ON_S: [Given; 36] = [
    (30, &[1, 0, 1, 1]),
    (30, &[1, 0, 1, 1, 211, 0]),
    (30, &[0, 0, 1, 1, 211]),
    (30, &[7, 0, 1, 1, 211]),
    (30, &[1, 8, 0, 1, 211]),
    (30, &[1, 0, 8, 1, 211]),
    (30, &[1, 0, 1, 0, 211]),
    (30, &[1, 0, 1, 1, 212]),
    (30, &[1, 0, 1, 1, 0]),
    (30, &[1, 0, 0, 1, 211]),
    // a column to itself: before 33, 35, 34
    (30, &[1, 1, 1, 1, 211]),
    (30, &[1, 0, 0, 2, 16]),
    (33, &[1, 1, 0, 1, 211]),
    // before 34
    (35, &[1, 0, 1, 2, 16]),
    (35, &[1, 0, 1, 255, 211]),
    (34, &[1, 0, 1, 1, 16]),
    (0, &[1, 0, 1, 1, 211]),
    (30, &[2, 0, 2, 1, 211]),
    (30, &[2, 0, 3, 2, 211]),
    (33, &[2, 1, 3, 1, 211]),
    (34, &[2, 0, 3, 1, 195]),
    (0, &[2, 0, 3, 1, 211]),
    (30, &[3, 0, 4, 1, 211]),
    (33, &[3, 1, 0, 1, 211]),
    (34, &[3, 0, 0, 1, 195]),
    (0, &[3, 0, 3, 1, 211]),
    (30, &[4, 4, 0, 1, 211]),
    (33, &[4, 0, 0, 1, 211]),
    (30, &[5, 0, 2, 1, 211]),
    (33, &[5, 0, 3, 1, 211]),
    (30, &[6, 4, 1, 1, 211]),
    (34, &[6, 0, 1, 1, 211]),
    (38, &[6, 3, 0, 1, 195]),
    (38, &[6, 2, 0, 1, 210]),
    (0, &[6, 0, 1, 1, 208]),
    (0, &[6, 3, 1, 1, 195]),
];

const ON_L: [Given; 14] = [
    // alone; before 37; before 38
    (36, &[1, 0, 1, 2, 162]),
    (36, &[1, 2, 3, 2, 178]),
    (36, &[1, 0, 3, 2, 162]),
    (35, &[1, 0, 1, 3, 162]),
    (34, &[1, 0, 1, 2, 178]),
    (38, &[1, 1, 3, 1, 176]),
    (0, &[1, 1, 4, 1, 176]),
    (40, &[2, 0, 0, 1, 144]),
    (0, &[2, 7, 0, 1, 16]),
    (39, &[3, 0, 3, 1, 144]),
    (38, &[4, 0, 0, 1, 32]),
    (40, &[5, 2, 0, 1, 208]),
    // nothing of the suit is home: before 34, before 38
    (33, &[6, 0, 4, 1, 176]),
    (33, &[6, 0, 4, 1, 16]),
];

// Cards by their names, as 'KS QH'; `-` is none.
fn cards(names: &str) -> Vec<Option<Card>> {
    let card = |name: &[u8]| {
        let value = b"-A23456789TJQK".iter().position(|&c| c == name[0])? as u8;
        let suit = b"CDHS".iter().position(|c| Some(c) == name.get(1))?;
        Some(Card::new(Suit::ALL[suit], value))
    };
    let names = names.split_whitespace();
    names.map(|name| card(name.as_bytes())).collect()
}

pub fn laid(home: [usize; 4], cells: &str, columns: [&str; 8]) -> FreeCellBoard {
    let cells = cards(cells).try_into().expect("four cells");
    let columns = columns.map(|column| cards(column).into_iter().flatten().collect());
    let home = Suit::ALL.map(|suit| pile(suit, home[suit as usize]));
    FreeCellBoard::new(cells, home, columns)
}

// SCOPE.md's board S: one king is left, in column 0.
pub fn s() -> FreeCellBoard {
    laid(
        [13, 13, 13, 12],
        "- - - -",
        ["KS", "", "", "", "", "", "", ""],
    )
}

fn on_s() -> Example {
    Example {
        board: s(),
        before: laid([13, 13, 13, 12], "KS - - -", [""; 8]),
        first: [4, 0, 0, 1, 211],
        given: &ON_S,
    }
}

// The first of the examples' boards.
pub fn m() -> FreeCellBoard {
    on_m().board
}

// Two cells and a column are empty: three cards may go to that column, six to another.
fn on_m() -> Example {
    let with = |first, second| {
        let others = ["KH QS", "KC QD", "KD QC", "JD TC", "JC TD", "JH TS 9C"];
        let [c2, c3, c4, c5, c6, c7] = others;
        laid([8; 4], "9H 9D - -", [first, second, c2, c3, c4, c5, c6, c7])
    };
    Example {
        board: with("KS QH JS TH 9S", ""),
        before: with("KS QH JS", "TH 9S"),
        first: [1, 1, 0, 2, 162],
        given: &ON_M,
    }
}

// Nothing is empty, so that one card may go at a time; no club is home.
fn on_l() -> Example {
    let with = |cells, fourth| {
        let [c0, c1, c2, c3] = ["TH 9C", "JC", "JH 4C", "QC"];
        let [c5, c6, c7] = ["TC", "5C 6C", "7C 8C AC"];
        laid([0, 13, 9, 13], cells, [c0, c1, c2, c3, fourth, c5, c6, c7])
    };
    Example {
        board: with("2C 3C KC KH", "QH"),
        before: with("2C 3C KC -", "QH KH"),
        first: [3, 4, 3, 1, 210],
        given: &ON_L,
    }
}

// The number of a record on a board, by the rules of refusals.rs.
pub fn number(board: &FreeCellBoard, record: &[u8]) -> u8 {
    refusals::step(board, record).err().unwrap_or(0)
}

// They all are as they were worked out, or this ends here.
pub fn examples() -> [Example; 3] {
    let examples = [on_m(), on_s(), on_l()];
    for example in &examples {
        let (_, reached) = refusals::step(&example.before, &example.first).expect("a good move");
        assert_eq!(reached, example.board);
        for &(given, record) in example.given {
            assert_eq!(number(&example.board, record), given, "{record:?}");
        }
    }
    examples
}
