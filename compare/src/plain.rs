// Everything but judge, on one board.
use crate::asks::{self, Told};
use crate::boards::{moves_by_kind, played, shuffled};
use crate::codes::{bytes, code, image, record, records, BOARD};
use crate::damage::damage_board;
use crate::draws::Draws;
use crate::original::freecell::board::FreeCellBoard;
use crate::original::freecell::solver::first_safe;
use crate::refusals::{FEATURES, RECORD, RECORDS, TOKEN};

// Room that is just enough, or more.
pub fn enough(draws: &mut Draws, least: usize) -> usize {
    least + draws.one_of(&[0, 0, 1, 100])
}

pub fn compare(draws: &mut Draws, board: &FreeCellBoard) -> Told {
    let bytes = bytes(board);
    asks::examine(&bytes)?;
    taken_in(draws, board)?;
    scored(draws, &bytes)?;
    listed(draws, &bytes)?;
    questions(draws, &bytes)?;
    questions_refused(draws, &bytes)?;
    safe_moves(draws, board)?;
    every_move(draws, board, &bytes)?;
    lists(draws, board, &bytes)
}

fn taken_in(draws: &mut Draws, board: &FreeCellBoard) -> Told {
    let length = enough(draws, BOARD);
    asks::read(draws, &image(board), length)?;
    let deck: Vec<u8> = shuffled(draws).into_iter().map(code).collect();
    asks::deal(draws, &deck, length)
}

fn scored(draws: &mut Draws, bytes: &[u8]) -> Told {
    asks::signature(draws, bytes)?;
    asks::scores(draws, bytes)?;
    let length = enough(draws, FEATURES);
    asks::features(draws, bytes, length)?;
    let length = enough(draws, TOKEN);
    asks::token(draws, bytes, length)
}

fn listed(draws: &mut Draws, bytes: &[u8]) -> Told {
    for kind in 1..=6 {
        let length = enough(draws, RECORDS);
        asks::moves(draws, bytes, kind, length)?;
    }
    let length = enough(draws, RECORDS);
    asks::candidates(draws, bytes, length)?;
    let length = enough(draws, BOARD);
    asks::chain(draws, bytes, length)
}

// What a table asks of a board: at every place and at some that are none (two of them end as a place does, for who looks at 8
// or 32 bits only), and the first safe move with too little room, just enough and more.
fn questions(draws: &mut Draws, bytes: &[u8]) -> Told {
    let place = draws.below(4);
    let none = [256 + place, (1 << 32) + place, usize::MAX];
    for place in (0..=8).chain(none) {
        asks::top(draws, bytes, place)?;
        asks::cell(draws, bytes, place)?;
        asks::home(draws, bytes, place)?;
        asks::most(draws, bytes, place)?;
    }
    for length in [0, RECORD - 1, RECORD, RECORD + 1] {
        asks::safe(draws, bytes, length)?;
    }
    asks::won(draws, bytes)
}

// The same of a byte less, a byte more, and a damaged board.
fn questions_refused(draws: &mut Draws, bytes: &[u8]) -> Told {
    let (less, more) = (bytes[..BOARD - 1].to_vec(), [bytes, &[0]].concat());
    let mut damaged = bytes.to_vec();
    damage_board(draws, &mut damaged);
    for wrong in [less, more, damaged] {
        questions(draws, &wrong).map_err(|found| found.on(&[&wrong]))?;
    }
    Ok(0)
}

// The chain move by move, to its last board, which may be won.
fn safe_moves(draws: &mut Draws, board: &FreeCellBoard) -> Told {
    let mut board = board.clone();
    while let Some(step) = first_safe(&board) {
        board = step.apply(&board).expect("a safe move can be played");
        let bytes = bytes(&board);
        asks::safe(draws, &bytes, RECORD).map_err(|found| found.on(&[&bytes]))?;
        asks::won(draws, &bytes).map_err(|found| found.on(&[&bytes]))?;
    }
    Ok(0)
}

// Each legal move, with its priority: so each candidate's too.
fn every_move(draws: &mut Draws, board: &FreeCellBoard, bytes: &[u8]) -> Told {
    for step in moves_by_kind(board).iter().flatten() {
        let record = record(step);
        asks::play(draws, bytes, &record, BOARD)?;
        asks::priority(draws, bytes, &record)?;
    }
    Ok(0)
}

// A list by random play; and again with one byte of it changed.
fn lists(draws: &mut Draws, board: &FreeCellBoard, bytes: &[u8]) -> Told {
    let moves = draws.one_of(&[0, 1, 5, 20, 60, 200]);
    let (_, steps) = played(draws, board.clone(), moves, [3, 3, 2, 3, 3, 1]);
    let mut list = records(&steps);
    let length = enough(draws, BOARD);
    asks::replay(draws, bytes, &list, length)?;
    if !list.is_empty() {
        let place = draws.below(list.len());
        list[place] = draws.byte();
        asks::replay(draws, bytes, &list, length)?;
    }
    Ok(0)
}
