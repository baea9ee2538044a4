// Solutions of another program, fc-solve of Debian's package freecell-solver-bin, which writes them in the same two characters: read
// by our library, replayed to a won board, and written back to the same text.
use crate::codes::{self, BOARD};
use crate::draws::Draws;
use crate::listings;
use crate::original::freecell::board::FreeCellBoard;
use crate::ours;
use crate::papers::{self, TEXT};
use crate::refusals::{self, LIST};
use crate::work::Report;
use crate::{asks, boards};
use std::io::{Result, Write};
use std::process::{Command, Stdio};

const SOLVER: &str = "fc-solve";
const ASKED: [&str; 6] = ["-p", "-t", "-snx", "-m", "-l", "gi"];

// What fc-solve prints of a hand, whose listing is that of numbers.rs too.
fn printed(number: usize) -> Result<String> {
    let listing = listings::listing(number)?;
    listings::agreed(number, &listing)?;
    let mut solver = Command::new(SOLVER)
        .args(ASKED)
        .stdin(Stdio::piped())
        .stdout(Stdio::piped())
        .stderr(Stdio::null())
        .spawn()?;
    let mut input = solver.stdin.take().expect("a pipe");
    input.write_all(listing.as_bytes())?;
    drop(input);
    let came = solver.wait_with_output()?;
    Ok(String::from_utf8_lossy(&came.stdout).into_owned())
}

// The moves stand between a line of signs and a sentence that the game can be solved.
fn words(printed: &str) -> Vec<&str> {
    let lines = printed.lines().skip_while(|line| !line.starts_with("-="));
    let moves = lines.skip(1).take_while(|line| !line.starts_with("This "));
    moves.flat_map(str::split_whitespace).collect()
}

// A word of fc-solve's as ours on the same board. Into an empty column it writes `v` and the count where more than one card goes,
// and nothing for one card; we write them where fewer go than could, and nothing for the most.
fn ours(board: &FreeCellBoard, word: &str) -> String {
    let (pair, count) = word.split_once('v').unwrap_or((word, "1"));
    let column = |c: u8| (b'1'..=b'8').contains(&c).then(|| usize::from(c - b'1'));
    let &[from, to] = pair.as_bytes() else {
        return word.to_string();
    };
    let (Some(from), Some(to)) = (column(from), column(to)) else {
        return word.to_string();
    };
    let count = usize::from_str_radix(count, 16).expect("a count");
    if !board.tableau[to].is_empty() || count == papers::most(board, from, to) {
        return pair.to_string();
    }
    format!("{pair}v{count:x}")
}

// The text in our words, the records that they mean, and the board at the end.
fn converted(start: &FreeCellBoard, words: &[&str]) -> (String, Vec<u8>, FreeCellBoard) {
    let (mut text, mut list, mut board) = (Vec::new(), Vec::new(), start.clone());
    for word in words {
        let word = ours(&board, word);
        let read = papers::read(&codes::bytes(&board), word.as_bytes(), LIST);
        let (record, _) = read.unwrap_or_else(|why| panic!("{word} gives {why:?}"));
        (_, board) = refusals::step(&board, &record).expect("what was read can be played");
        text.push(word);
        list.extend(record);
    }
    (text.join(" "), list, board)
}

// What was met, and how often.
type Met = Vec<(&'static str, usize)>;

pub fn compare(draws: &mut Draws, number: usize) -> std::result::Result<Met, Report> {
    let printed = printed(number).map_err(|why| format!("{SOLVER}: {why}"))?;
    let theirs = words(&printed);
    if theirs.is_empty() || theirs.len() > LIST / 5 {
        return Err(format!("hand {number}: no solution\n{printed}"));
    }
    let start = refusals::number(number).expect("a hand");
    let (text, list, end) = converted(&start, &theirs);
    let told = |what: &str| format!("hand {number}: {what}\n  {text}");
    if end != boards::won() {
        return Err(told("the solution does not end on a won board"));
    }
    let bytes = codes::bytes(&start);
    read_and_written(&bytes, text.as_bytes(), &list).map_err(|what| told(what))?;
    // and once more with every place that is lent
    let asked = asks::read_line(draws, &bytes, text.as_bytes(), LIST)
        .and_then(|_| asks::write_line(draws, &bytes, &list, TEXT));
    asked.map_err(|found| told(&format!("{found:?}")))?;
    let counts = |text: &str| text.matches('v').count();
    Ok(vec![
        ("hands", 1),
        ("moves", theirs.len()),
        (
            "texts as theirs, letter for letter",
            usize::from(text == theirs.join(" ")),
        ),
        ("counts of ours", counts(&text)),
        ("counts of theirs", counts(&theirs.concat())),
    ])
}

// Through our library alone: the text read, what was read replayed and won, and written.
fn read_and_written(
    board: &[u8],
    text: &[u8],
    list: &[u8],
) -> std::result::Result<(), &'static str> {
    let (mut read, mut written) = ([0; LIST], [0; TEXT]);
    let (mut count, mut after) = (0, [0; BOARD]);
    let came = ours::read_line(board, text, &mut read, &mut count);
    let read = &read[..list.len()];
    if (came, count, read) != (0, list.len() / 5, list) {
        return Err("read to other records");
    }
    let came = ours::replay(board, read, &mut after, &mut count);
    if came != 0 || after[..] != codes::bytes(&boards::won()) {
        return Err("not won by the records read");
    }
    let came = ours::write_line(board, read, &mut written, &mut count);
    if came != 0 || &written[..count] != text {
        return Err("written back to another text");
    }
    Ok(())
}
