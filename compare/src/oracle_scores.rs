// Boards for crates/oracle_scores, with the features, scores, safe play and candidates of the original.
//
// Input: items one after the other. A byte 1, then a board image. Or a byte 3, which begins the second list of boards:
// those with a column over seven cards.
// Output, for an image: the seven features, the heuristic, the progress score; for each of three rooms the token, or 21, and
// how many bytes of the room stayed; a digit 1 for each of the 52 cards, ace of clubs first, that is safe; the record of the first
// safe move or `-`; the moves of the safe chain and the signature of the board after it; the number of candidates and how many
// bytes of their room stayed; then each candidate in order, its record and its priority. For a byte 3 a heading.
use crate::boards::{made_up, moves_by_kind, shuffled, stops, won};
use crate::codes::{hex, image, pack, record};
use crate::draws::Draws;
use crate::original::freecell::board::{FreeCellBoard, FreeCellMove};
use crate::original::freecell::solver::{self, deal, Weighed};
use crate::refusals::TOKEN;
use crate::sheet::Sheet;
use crate::turned;

// The room that the program lends.
const TOKEN_ROOMS: [usize; 3] = [40, 32, 31];
const CANDIDATE_ROOM: usize = 4190;

fn token_text(token: &str, room: usize) -> String {
    if room < TOKEN {
        return format!("21 {room}\n");
    }
    format!("{} {}\n", token, room - token.len())
}

fn candidates_text(candidates: &[(FreeCellMove, i64)]) -> String {
    let stayed = CANDIDATE_ROOM - candidates.len() * 5;
    let mut text = format!("{} {}\n", candidates.len(), stayed);
    for (step, priority) in candidates {
        text += &format!("{} {}\n", hex(&record(step)), priority);
    }
    text
}

fn answers(board: &FreeCellBoard) -> String {
    let ((heuristic, progress), candidates) = solver::weighed(board);
    let mut text = String::new();
    for n in solver::features(board) {
        text += &format!("{n} ");
    }
    text += &format!("{heuristic} {progress}\n");
    let token = solver::progress_token(board);
    text.extend(TOKEN_ROOMS.map(|room| token_text(&token, room)));
    text.extend(pack().map(|card| (solver::is_safe(board, card) as u8).to_string()));
    let first = solver::first_safe(board);
    let first = first.map_or("-".to_string(), |step| hex(&record(&step)));
    let (moves, after) = solver::chain(board);
    text += &format!("\n{first}\n{moves} {:016x}\n", after.signature);
    text + &candidates_text(&candidates)
}

fn is_rollback(step: &FreeCellMove) -> bool {
    matches!(step, FreeCellMove::FoundationToTableau { .. })
}

fn is_unsafe_home(board: &FreeCellBoard, step: &FreeCellMove) -> bool {
    match step {
        FreeCellMove::TableauToFoundation { card, .. }
        | FreeCellMove::FreeCellToFoundation { card, .. } => !solver::is_safe(board, *card),
        _ => false,
    }
}

// What some boards have to show.
const SHOWN: [&str; 6] = [
    "40 or more home",
    "a safe chain",
    "a rollback kept",
    "a rollback pruned",
    "a tie",
    "an unsafe move home",
];

fn shows(board: &FreeCellBoard) -> [bool; 6] {
    let (_, candidates) = solver::weighed(board);
    let kept = candidates.iter().filter(|(step, _)| is_rollback(step));
    let kept = kept.count();
    let found = FreeCellMove::find_foundation_to_tableau(board).len();
    [
        board.total_foundation_count() >= 40,
        solver::first_safe(board).is_some(),
        0 < kept,
        kept < found,
        candidates.windows(2).any(|two| two[0].1 == two[1].1),
        candidates
            .iter()
            .any(|(step, _)| is_unsafe_home(board, step)),
    ]
}

// A made-up board with so many cards home, and one more that can go there but is not safe.
fn unsafe_at(draws: &mut Draws, home: usize, held: usize) -> FreeCellBoard {
    loop {
        let board = made_up(draws, 13, held, 7);
        let moves = moves_by_kind(&board).concat();
        if board.total_foundation_count() == home
            && moves.iter().any(|step| is_unsafe_home(&board, step))
        {
            return board;
        }
    }
}

fn boards(draws: &mut Draws) -> Vec<FreeCellBoard> {
    let mut boards = vec![won()];
    for turn in 0..44 {
        let board = deal(&shuffled(draws)).unwrap();
        boards.push(board.clone());
        let weights = if turn % 2 == 0 {
            [6, 40, 4, 4, 40, 1]
        } else {
            [2, 8, 6, 3, 8, 1]
        };
        boards.extend(stops(draws, &board, 60, weights, (0, 12)));
    }
    for turn in 0..16 {
        boards.extend(stops(draws, &won(), 48, [3, 1, 2, 2, 1, 3], (turn, 8)));
        boards.push(made_up(draws, 13, turn % 5, 7));
        boards.push(made_up(draws, 7, 4, 7));
        boards.push(made_up(draws, 4, turn % 5, 52));
    }
    for home in [39, 40] {
        boards.extend((0..4).map(|held| unsafe_at(draws, home, held)));
    }
    boards
}

// Weights that no score and no list of candidates shows.
const ELSEWHERE: [&str; 3] = ["MAX_NODES", "MAX_DEPTH", "PRIORITY_BASE_DEAL"];

// On how many boards something else is written with one weight so much larger.
fn shown_by(name: &'static str, by: i64, given: &[(&FreeCellBoard, Weighed)]) -> usize {
    turned::turn(name, by);
    let shown = given
        .iter()
        .filter(|(board, weighed)| turned::solver::weighed(board) != *weighed);
    shown.count()
}

// Every weight is held: one less of it shows on some board, and so does one more.
fn hold_weights(boards: &[FreeCellBoard]) {
    let given: Vec<(&FreeCellBoard, Weighed)> = boards
        .iter()
        .map(|board| (board, solver::weighed(board)))
        .collect();
    assert_eq!(shown_by("", 0, &given), 0);
    let names = turned::weights::NAMES;
    for name in names.into_iter().filter(|name| !ELSEWHERE.contains(name)) {
        let [less, more] = [-1, 1].map(|by| shown_by(name, by, &given));
        println!("  {name}: one less shows on {less} boards, one more on {more}");
        assert!(0 < less && 0 < more, "{name} is not held");
    }
    assert_eq!(names.len(), 29 + ELSEWHERE.len());
}

pub fn write() -> std::io::Result<()> {
    let boards = boards(&mut Draws::Knuth(2029));
    for (i, what) in SHOWN.iter().enumerate() {
        let shown = boards.iter().filter(|board| shows(board)[i]).count();
        println!("  boards with {what}: {shown}");
        assert!(20 <= shown);
    }
    hold_weights(&boards);
    let mut sheet = Sheet::default();
    sheet.in_two_lists(&boards, 3, |sheet, _, board| {
        sheet.input.push(1);
        sheet.input.extend(image(board));
        sheet.output += &answers(board);
    });
    sheet.write("oracle_scores")
}
