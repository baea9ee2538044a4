// Lines on paper: a second reader and writer, written from the customer's words alone (SCOPE.md, request (iv)), and not the
// library's. What can be written is a set of words here, and the place of a wrong character is where no word goes on.
use crate::codes::code;
use crate::original::common::card::Card;
use crate::original::freecell::board::FreeCellBoard;
use crate::refusals::{self, fits, limit, Asked, LIST};
use std::collections::HashSet;
use std::sync::LazyLock;

// The room that a text takes, however short it is.
pub const TEXT: usize = 999;

const COLUMNS: &[u8; 8] = b"12345678";
const CELLS: &[u8; 4] = b"abcd";
const HOME: u8 = b'h';
const DIGITS: &[u8; 16] = b"0123456789abcdef";

// A number, and the place that is told with it if one is.
pub type Refused = (u8, Option<usize>);
// The bytes that are handed back, and how many moves or characters they are.
pub type Paper = Result<(Vec<u8>, usize), Refused>;

fn without_place(number: u8) -> Refused {
    (number, None)
}

#[derive(Clone, Copy)]
enum Place {
    Column(usize),
    Cell(usize),
    Home,
}

// A move as it is written.
#[derive(Clone, Copy)]
struct Word {
    from: Place,
    to: Place,
    count: Option<usize>,
}

fn place(character: u8) -> Option<Place> {
    let among = |all: &[u8]| all.iter().position(|&c| c == character);
    let column = among(COLUMNS).map(Place::Column);
    let home = (character == HOME).then_some(Place::Home);
    column.or(among(CELLS).map(Place::Cell)).or(home)
}

fn word(text: &[u8]) -> Option<Word> {
    let (&from, rest) = text.split_first()?;
    let (&to, rest) = rest.split_first()?;
    let (from, to) = (place(from)?, place(to)?);
    let count = match rest {
        [] => None,
        [b'v', digit] => Some(DIGITS.iter().position(|c| c == digit)?),
        _ => return None,
    };
    let known = match (from, to) {
        (Place::Column(_), Place::Column(_)) => true,
        (Place::Column(_), _) | (Place::Cell(_), Place::Column(_) | Place::Home) => count.is_none(),
        _ => false,
    };
    known.then_some(Word { from, to, count })
}

// The count that a word has.
pub fn counted(text: &[u8]) -> Option<u8> {
    word(text)?.count.map(|count| count as u8)
}

// Every word, whether or not a board has such a move.
pub fn words() -> Vec<Vec<u8>> {
    let characters = || [&COLUMNS[..], CELLS, &[HOME]].concat();
    let pairs = characters().into_iter().flat_map(|from| {
        let pair = move |to| vec![from, to];
        characters().into_iter().map(pair).collect::<Vec<_>>()
    });
    let with_count = |pair: &[u8]| DIGITS.map(|digit| [pair, b"v", &[digit]].concat());
    let all = pairs.flat_map(|pair| [&with_count(&pair)[..], &[pair]].concat());
    all.filter(|text| word(text).is_some()).collect()
}

static BEGINNINGS: LazyLock<HashSet<Vec<u8>>> = LazyLock::new(|| {
    let words = words().into_iter();
    let beginnings = |word: Vec<u8>| (0..=word.len()).map(move |n| word[..n].to_vec());
    words.flat_map(beginnings).collect()
});

// The words of a text, one space between two; or the place of the first character with which no line goes on, the length if
// one does but the text ends within a word.
fn words_in(text: &[u8]) -> Result<Vec<Word>, usize> {
    let (mut words, mut start) = (Vec::new(), 0);
    if text.is_empty() {
        return Ok(words);
    }
    for piece in text.split(|&character| character == b' ') {
        let goes_on = |&n: &usize| BEGINNINGS.contains(&piece[..n]);
        let right = (1..=piece.len()).take_while(goes_on).count();
        match word(piece) {
            Some(word) => words.push(word),
            None => return Err(start + right),
        }
        start += piece.len() + 1;
    }
    Ok(words)
}

// How many cards lie as a run on top of a column.
fn run(column: &[Card]) -> usize {
    let pairs = column.windows(2).rev();
    let laid = pairs.take_while(|two| fits(two[1], two[0])).count();
    laid + usize::from(!column.is_empty())
}

// The most cards that go from a column into an empty one.
pub fn most(board: &FreeCellBoard, from: usize, to: usize) -> usize {
    limit(board, to).min(run(&board.tableau[from]))
}

// How many cards are meant between two columns: 30, 33, 30, 38.
fn count(board: &FreeCellBoard, from: usize, to: usize, said: Option<usize>) -> Asked<usize> {
    if from == to {
        return Err(30);
    }
    let column = &board.tableau[from];
    if column.is_empty() {
        return Err(33);
    }
    match (board.tableau[to].last(), said) {
        (None, None) => Ok(most(board, from, to)),
        (None, Some(said)) if said == 0 || said >= most(board, from, to) => Err(30),
        (None, Some(said)) => Ok(said),
        (Some(_), Some(_)) => Err(30),
        (Some(&top), None) => {
            let fitting = |&n: &usize| fits(column[column.len() - n], top);
            (1..=run(column)).find(fitting).ok_or(38)
        }
    }
}

// The record that a word means on a board; whether the move is allowed is not asked here.
fn meant(board: &FreeCellBoard, word: Word) -> Asked<[u8; 5]> {
    use Place::*;
    let top = |from: usize| board.tableau[from].last().copied().ok_or(33);
    let held = |from: usize| board.free_cells[from].ok_or(33);
    let (kind, from, to, count, card) = match (word.from, word.to) {
        (Column(from), Column(to)) => {
            let (count, column) = (count(board, from, to, word.count)?, &board.tableau[from]);
            (1, from, to, count, column[column.len() - count])
        }
        (Column(from), Cell(to)) => (3, from, to, 1, top(from)?),
        (Column(from), Home) => (2, from, top(from)?.suit as usize, 1, top(from)?),
        (Cell(from), Column(to)) => (4, from, to, 1, held(from)?),
        (Cell(from), _) => (5, from, held(from)?.suit as usize, 1, held(from)?),
        (Home, _) => unreachable!("no word"),
    };
    Ok([kind, from as u8, to as u8, count as u8, code(card)])
}

// 12 to 15, 21, 42, 31, and then the moves one by one.
pub fn read(board: &[u8], text: &[u8], length: usize) -> Paper {
    let mut board = refusals::board(board).map_err(without_place)?;
    refusals::room((), length, LIST).map_err(without_place)?;
    let words = words_in(text).map_err(|place| (42, Some(place)))?;
    if words.len() > LIST / 5 {
        return Err(without_place(31));
    }
    let mut list = Vec::new();
    for (place, &word) in words.iter().enumerate() {
        let at_place = |number| (number, Some(place));
        let record = meant(&board, word).map_err(at_place)?;
        (_, board) = refusals::step(&board, &record).map_err(at_place)?;
        list.extend(record);
    }
    Ok((list, words.len()))
}

// A move that can be played on a board, and written.
fn written(board: &FreeCellBoard, record: &[u8]) -> Vec<u8> {
    let &[kind, from, to, count, _] = record else {
        unreachable!("five bytes")
    };
    let (from, to) = (from as usize, to as usize);
    let source = if kind < 4 { COLUMNS[from] } else { CELLS[from] };
    let goal = match kind {
        1 | 4 => COLUMNS[to],
        3 => CELLS[to],
        _ => HOME,
    };
    let mut word = vec![source, goal];
    let into_empty = kind == 1 && board.tableau[to].is_empty();
    if into_empty && (count as usize) < most(board, from, to) {
        word.extend([b'v', DIGITS[count as usize]]);
    }
    word
}

// 12 to 15, 31, the first bad move, 43, 21; and then the moves one by one.
pub fn write(board: &[u8], list: &[u8], length: usize) -> Paper {
    let mut board = refusals::board(board).map_err(without_place)?;
    refusals::list(list).map_err(without_place)?;
    let (number, place, _) = refusals::replay(&board, list);
    if number != 0 {
        return Err((number, Some(place)));
    }
    if let Some(place) = list.chunks(5).position(|record| record[0] == 6) {
        return Err((43, Some(place)));
    }
    refusals::room((), length, TEXT).map_err(without_place)?;
    let mut words = Vec::new();
    for record in list.chunks(5) {
        words.push(written(&board, record));
        (_, board) = refusals::step(&board, record).map_err(without_place)?;
    }
    let text = words.join(&b' ');
    let length = text.len();
    Ok((text, length))
}
