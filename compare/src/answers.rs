// What has to come back from each call, with any input at all, by SCOPE.md and the original: what is handed back, or the
// number of a refusal.
use crate::codes::{bytes, cell_code, records, BOARD};
use crate::figures::{self, Given};
use crate::original::common::card::Suit;
use crate::original::freecell::board::{FreeCellBoard, FreeCellMove};
use crate::original::freecell::solver::{self, Judged};
use crate::refusals::{self, Asked, FEATURES, RECORD, RECORDS, TOKEN};

// Bytes, and the number that is told with them.
pub type Counted = Asked<(Vec<u8>, usize)>;

pub fn read(image: &[u8], length: usize) -> Asked<Vec<u8>> {
    refusals::image(image).and_then(|board| refusals::room(bytes(&board), length, BOARD))
}

pub fn deal(deck: &[u8], length: usize) -> Asked<Vec<u8>> {
    refusals::deal(deck).and_then(|board| refusals::room(bytes(&board), length, BOARD))
}

pub fn number(number: usize, length: usize) -> Asked<Vec<u8>> {
    refusals::number(number).and_then(|board| refusals::room(bytes(&board), length, BOARD))
}

pub fn play(board: &[u8], record: &[u8], length: usize) -> Asked<Vec<u8>> {
    refusals::board(board)
        .and_then(|board| refusals::step(&board, record))
        .and_then(|(_, after)| refusals::room(bytes(&after), length, BOARD))
}

// The number, and what is handed back: a move's refusal hands back its place and a board, as 0 does.
pub fn replay(board: &[u8], list: &[u8], length: usize) -> (u8, Counted) {
    let asked = refusals::board(board)
        .and_then(|board| refusals::list(list).map(|()| board))
        .and_then(|board| refusals::room(board, length, BOARD))
        .map(|board| refusals::replay(&board, list));
    match asked {
        Ok((told, count, after)) => (told, Ok((bytes(&after), count))),
        Err(told) => (told, Err(told)),
    }
}

type Listing = fn(&FreeCellBoard) -> Vec<FreeCellMove>;

// The records of some moves of a board and how many they are, in room of some length.
fn listing(board: Asked<FreeCellBoard>, moves: Listing, length: usize) -> Counted {
    let board = refusals::room(board?, length, RECORDS)?;
    let steps = moves(&board);
    Ok((records(&steps), steps.len()))
}

pub fn moves(board: &[u8], kind: u8, length: usize) -> Counted {
    let finds: [Listing; 6] = [
        FreeCellMove::find_tableau_to_tableau,
        FreeCellMove::find_tableau_to_foundation,
        FreeCellMove::find_tableau_to_freecell,
        FreeCellMove::find_freecell_to_tableau,
        FreeCellMove::find_freecell_to_foundation,
        FreeCellMove::find_foundation_to_tableau,
    ];
    refusals::board(board).and_then(|board| {
        let find = finds.get((kind as usize).wrapping_sub(1)).ok_or(30)?;
        listing(Ok(board), *find, length)
    })
}

pub fn candidates(board: &[u8], length: usize) -> Counted {
    listing(refusals::board(board), solver::candidates, length)
}

pub fn priority(board: &[u8], record: &[u8]) -> Asked<i64> {
    let board = refusals::board(board)?;
    let (step, _) = refusals::step(&board, record)?;
    Ok(solver::priority(&board, &step).expect("a move that is allowed"))
}

pub fn chain(board: &[u8], length: usize) -> Counted {
    let board = refusals::board(board)?;
    let (moves, after) = solver::chain(&board);
    refusals::room((bytes(&after), moves), length, BOARD)
}

// The record of the first safe move and 1, or nothing and 0.
pub fn safe(board: &[u8], length: usize) -> Counted {
    let board = refusals::board(board)?;
    let steps = Vec::from_iter(solver::first_safe(&board));
    refusals::room((records(&steps), steps.len()), length, RECORD)
}

pub fn top(board: &[u8], column: usize) -> Asked<u8> {
    let board = refusals::board(board)?;
    let column = refusals::place(column, 8)?;
    Ok(cell_code(board.top_of_tableau(column)))
}

pub fn cell(board: &[u8], cell: usize) -> Asked<u8> {
    let board = refusals::board(board)?;
    let cell = refusals::place(cell, 4)?;
    Ok(cell_code(board.free_cells[cell]))
}

pub fn home(board: &[u8], suit: usize) -> Asked<usize> {
    let board = refusals::board(board)?;
    let suit = Suit::ALL[refusals::place(suit, 4)?];
    Ok(board.foundation_count(suit))
}

pub fn most(board: &[u8], column: usize) -> Asked<usize> {
    let board = refusals::board(board)?;
    let column = refusals::place(column, 8)?;
    Ok(board.max_movable_cards(column))
}

pub fn won(board: &[u8]) -> Asked<u8> {
    refusals::board(board).map(|board| solver::is_win(&board) as u8)
}

pub fn features(board: &[u8], length: usize) -> Asked<Vec<u64>> {
    let board = refusals::board(board)?;
    refusals::room(solver::features(&board).to_vec(), length, FEATURES)
}

// The heuristic and the progress score.
pub fn scores(board: &[u8]) -> Asked<(i64, i64)> {
    refusals::board(board).map(|board| solver::scores(&board))
}

pub fn signature(board: &[u8]) -> Asked<u64> {
    refusals::board(board).map(|board| board.signature)
}

pub fn token(board: &[u8], length: usize) -> Counted {
    let board = refusals::board(board)?;
    let text = solver::progress_token(&board).into_bytes();
    let count = text.len();
    refusals::room((text, count), length, TOKEN)
}

// A search: how far, with which flag, with how much scratch and room for the list.
#[derive(Clone, Copy, Debug)]
pub struct Settings {
    pub budget: usize,
    pub partial: u8,
    pub lengths: [usize; 4],
    pub list: usize,
}

pub fn judge(board: &[u8], settings: Settings) -> Asked<Judged> {
    let board = refusals::board(board)?;
    let capacity = refusals::search(settings.budget, settings.list, settings.lengths)?;
    let partial = settings.partial != 0;
    Ok(solver::judge(&board, settings.budget, capacity, partial))
}

// A run of deals judged: its ends, how far and with which flag, with how much scratch and room for the sheet.
#[derive(Clone, Copy, Debug)]
pub struct Season {
    pub ends: (usize, usize),
    pub budget: usize,
    pub partial: u8,
    pub lengths: [usize; 4],
    pub sheet: usize,
}

impl Season {
    // The settings that its sheet tells.
    pub fn settings(&self) -> figures::Settings {
        figures::Settings {
            budget: self.budget as u64,
            capacity: refusals::capacity(self.lengths) as u64,
            flag: (self.partial != 0) as u64,
        }
    }
}

// What each deal of a run gave.
pub fn season(season: &Season) -> Asked<Vec<Given>> {
    let Season { ends, budget, .. } = *season;
    let capacity = refusals::season(ends, budget, season.sheet, season.lengths)?;
    let given = |deal: usize| {
        let judged = solver::judge(
            &refusals::number(deal)?,
            budget,
            capacity,
            season.partial != 0,
        );
        Ok(Given {
            deal,
            answer: judged.number,
            pops: judged.pops as u64,
            moves: judged.list.len(),
        })
    };
    (ends.0..=ends.1).map(given).collect()
}
