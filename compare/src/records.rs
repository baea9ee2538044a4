// Every record that a board can be asked about, good and bad: one move, its priority, and some of them within a list.
use crate::asks::{self, Difference};
use crate::boards::{self, moves_by_kind, played};
use crate::codes::{bytes, cell_code, code, record, records, BOARD};
use crate::draws::Draws;
use crate::original::freecell::board::FreeCellBoard;
use crate::plain::enough;
use crate::refusals;
use crate::worked::{self, number};
use std::collections::{BTreeMap, BTreeSet};

// How many lists begin a board, and how many records of a sort go on with each.
const LISTS: usize = 2;
const OF_A_SORT: usize = 3;

// What a record is said to be (its kind, or that it is not of five bytes), and the number that it gives.
type Sort = (String, u8);
pub type Counts = BTreeMap<Sort, usize>;

// First the boards of the worked examples.
pub fn board(draws: &mut Draws, task: usize) -> FreeCellBoard {
    let examples = worked::examples().into_iter();
    let mut known = examples.map(|example| example.board);
    known
        .nth(task)
        .unwrap_or_else(|| boards::board(draws, task))
}

// The codes of what can be taken from any place.
fn tops(board: &FreeCellBoard) -> BTreeSet<u8> {
    let piles = board.tableau.iter().chain(&board.foundation);
    let lying = piles.filter_map(|pile| pile.last().copied());
    let held = board.free_cells.into_iter().flatten();
    lying.chain(held).map(code).collect()
}

// These, the card that lies so deep in a column, those beside it, and codes that are no card's.
fn codes(board: &FreeCellBoard, tops: &BTreeSet<u8>, from: u8, count: u8) -> BTreeSet<u8> {
    let mut codes = tops.clone();
    if let Some(column) = board.tableau.get(from as usize) {
        let deepest = column.len().saturating_sub(count as usize);
        let beside = deepest.saturating_sub(1)..column.len().min(deepest + 2);
        codes.extend(column[beside].iter().map(|&card| code(card)));
    }
    codes.extend([0, cell_code(None)]);
    codes
}

fn all(board: &FreeCellBoard) -> Vec<Vec<u8>> {
    let (tops, mut all) = (tops(board), Vec::new());
    for kind in 0..=7 {
        let most = if kind == 1 { 14 } else { 2 };
        for (from, count) in (0..=8).flat_map(|from| (0..=most).map(move |count| (from, count))) {
            for &code in &codes(board, &tops, from, count) {
                all.extend((0..=8).map(|to| vec![kind, from, to, count, code]));
            }
        }
    }
    for moves in moves_by_kind(board) {
        if let Some(step) = moves.first() {
            let record = record(step);
            all.extend([record[..4].to_vec(), [&record[..], &[0]].concat()]);
        }
    }
    all
}

fn sorted(board: &FreeCellBoard) -> BTreeMap<Sort, Vec<Vec<u8>>> {
    let mut sorted: BTreeMap<Sort, Vec<Vec<u8>>> = BTreeMap::new();
    for record in all(board) {
        let said = match record.len() {
            5 => format!("kind {}", record[0]),
            _ => "not five bytes".to_string(),
        };
        let sort = (said, number(board, &record));
        sorted.entry(sort).or_default().push(record);
    }
    sorted
}

// How many of each sort there were, if all is as it has to be.
pub fn compare(draws: &mut Draws, board: &FreeCellBoard) -> Result<Counts, Difference> {
    let (bytes, mut counts) = (bytes(board), Counts::new());
    for (sort, alike) in sorted(board) {
        for record in &alike {
            asks::play(draws, &bytes, record, BOARD).map_err(|found| found.on(&[record]))?;
            asks::priority(draws, &bytes, record).map_err(|found| found.on(&[record]))?;
        }
        counts.insert(sort, alike.len());
    }
    for _ in 0..LISTS {
        in_lists(draws, board, &mut counts)?;
    }
    Ok(counts)
}

// A few good moves, and then records of every sort on the board that they lead to.
fn in_lists(
    draws: &mut Draws,
    board: &FreeCellBoard,
    counts: &mut Counts,
) -> Result<(), Difference> {
    let moves = draws.below(5);
    let (before, steps) = played(draws, board.clone(), moves, [3, 3, 2, 3, 3, 1]);
    let start = records(&steps);
    for ((_, number), alike) in sorted(&before) {
        for _ in 0..OF_A_SORT {
            let record = &alike[draws.below(alike.len())];
            if record.len() == 5 {
                in_list(draws, (board, &start), (&before, record))?;
                *counts.entry(("in lists".to_string(), number)).or_default() += 1;
            }
        }
    }
    Ok(())
}

// A record behind the moves that lead to its board, and a good move behind it: that one is played only if the record is.
fn in_list(
    draws: &mut Draws,
    (board, start): (&FreeCellBoard, &[u8]),
    (before, record): (&FreeCellBoard, &[u8]),
) -> Result<(), Difference> {
    let played = refusals::step(before, record);
    let last = played.as_ref().map_or(before, |(_, after)| after);
    let good = moves_by_kind(last).concat();
    let mut list = [start, record].concat();
    if !good.is_empty() {
        list.extend(records(&[good[draws.below(good.len())].clone()]));
    }
    if let Err(number) = played {
        let stopped = (number, start.len() / 5, before.clone());
        assert_eq!(refusals::replay(board, &list), stopped);
    }
    let (board, before) = (bytes(board), bytes(before));
    let length = enough(draws, BOARD);
    for length in [length, BOARD - 1] {
        asks::replay(draws, &board, &list, length).map_err(|found| found.on(&[&list]))?;
    }
    // too little room comes before a move's number in a list, but after it in one move
    let told = asks::play(draws, &before, record, BOARD - 1);
    told.map_err(|found| found.on(&[&before, record]))?;
    Ok(())
}
