// Boards for crates/texts, with the text that `oneboard` prints of them, by the original: deals, boards near the end, boards that
// nobody dealt. The first 17 inputs there and their texts are made by hand from SCOPE.md and stay; what follows them is written
// anew.
//
// Input: a two-byte count, the higher byte first, and an image, again and again. Output: the text, and a line of two dashes.
use crate::boards::{is_long, made_up, shuffled, stops, won};
use crate::codes::{counted, image, record};
use crate::draws::Draws;
use crate::original::freecell::board::FreeCellBoard;
use crate::original::freecell::solver::{self, deal, progress_token, Judged};
use crate::sheet::Sheet;

const BY_HAND: usize = 17;

// What is made by hand.
fn by_hand() -> std::io::Result<Sheet> {
    let mut sheet = Sheet::of("texts")?;
    let mut end = 0;
    for _ in 0..BY_HAND {
        end += 2 + sheet.input[end] as usize * 256 + sheet.input[end + 1] as usize;
    }
    assert!(end <= sheet.input.len());
    sheet.input.truncate(end);
    let texts = sheet.output.split_inclusive("--\n");
    sheet.output = texts.take(BY_HAND).collect();
    Ok(sheet)
}

// What `oneboard` prints.
fn text(board: &FreeCellBoard, judged: &Judged) -> String {
    let mut text = format!("{}\n", progress_token(board));
    text += &format!("{} {} {}\n", judged.number, judged.pops, judged.list.len());
    for step in &judged.list {
        let words: Vec<String> = record(step).iter().map(|n| n.to_string()).collect();
        text += &format!("{}\n", words.join(" "));
    }
    text
}

fn boards(draws: &mut Draws) -> Vec<FreeCellBoard> {
    let mut boards = Vec::new();
    for _ in 0..20 {
        boards.push(deal(&shuffled(draws)).unwrap());
    }
    for turn in 0..30 {
        boards.extend(stops(draws, &won(), 40, [3, 1, 2, 2, 1, 3], (turn, 20)));
        boards.push(made_up(draws, 13, turn % 5, 7));
    }
    boards.retain(|board| !is_long(board));
    boards
}

pub fn write() -> std::io::Result<()> {
    let mut sheet = by_hand()?;
    let mut numbers = [0; 24];
    for board in boards(&mut Draws::Knuth(2031)) {
        // budget and nodes are `oneboard`'s
        let judged = solver::judge(&board, 100, 64, false);
        numbers[judged.number as usize] += 1;
        sheet.input.extend(counted(&image(&board)));
        sheet.output += &(text(&board, &judged) + "--\n");
    }
    println!(
        "  won {}, limit {}, exhausted {}, no room {}",
        numbers[0], numbers[3], numbers[4], numbers[23]
    );
    sheet.write("texts")
}
