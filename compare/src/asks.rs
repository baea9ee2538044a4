// Each question to our library, with any input at all: whether what has to come back does: the number, and everything lent,
// byte for byte.
use crate::answers::{self, Season, Settings};
use crate::codes::{hex, records};
use crate::draws::Draws;
use crate::figures;
use crate::lent::{self, Room, Rubbish, Scratch};
use crate::original::freecell::solver::Judged;
use crate::ours;
use crate::papers::{self, Paper};
use crate::refusals::{self, Asked};
use std::fmt::Debug;

#[derive(Debug)]
pub struct Difference {
    pub what: String,
    pub ours: String,
    pub theirs: String,
}

impl Difference {
    // With the bytes that were given.
    pub fn on(mut self, given: &[&[u8]]) -> Difference {
        for bytes in given {
            self.what += &format!("\n  given  {}", hex(bytes));
        }
        self
    }
}

// The number that came, or where it differs.
pub type Told = Result<u8, Difference>;
type Same = Result<(), Difference>;

fn same<T: PartialEq + Debug>(what: &str, ours: T, theirs: T) -> Same {
    if ours == theirs {
        return Ok(());
    }
    Err(Difference {
        what: what.to_string(),
        ours: format!("{ours:?}"),
        theirs: format!("{theirs:?}"),
    })
}

fn number_of<T>(asked: &Asked<T>) -> u8 {
    asked.as_ref().err().copied().unwrap_or(0)
}

// What is given stands at the start of the room, and all else is as it was.
fn left<T: Rubbish + Debug>(what: &str, room: &Room<T>, given: &[T]) -> Same {
    let start = &room.held()[..given.len().min(room.len())];
    same(what, start, given)?;
    let changed = room.changed_after(given.len());
    same(
        &format!("{what}, places changed beyond it"),
        &changed[..],
        &[],
    )
}

// The number, and the room: what was asked for is given, or else nothing.
fn told<T: Rubbish + Debug>(what: &str, came: u8, asked: &Asked<Vec<T>>, room: &Room<T>) -> Told {
    same(what, came, number_of(asked))?;
    left(what, room, asked.as_deref().unwrap_or_default())?;
    Ok(came)
}

// The same with a number behind a pointer.
fn counted<T: Rubbish + Debug, N: Rubbish + Debug>(
    what: &str,
    came: u8,
    asked: &Asked<(Vec<T>, N)>,
    room: &Room<T>,
    count: &Room<N>,
) -> Told {
    same(what, came, number_of(asked))?;
    let (given, number) = match asked {
        Ok((given, number)) => (&given[..], vec![*number]),
        Err(_) => (&[][..], vec![]),
    };
    left(&format!("{what}, the number told"), count, &number)?;
    left(what, room, given)?;
    Ok(came)
}

// The same where a refusal may tell a place by that number.
fn placed(what: &str, came: u8, asked: &Paper, room: &Room<u8>, count: &Room<usize>) -> Told {
    let (number, given, told) = match asked {
        Ok((given, count)) => (0, &given[..], Some(*count)),
        Err((number, place)) => (*number, &[][..], *place),
    };
    same(what, came, number)?;
    left(&format!("{what}, the number told"), count, told.as_slice())?;
    left(what, room, given)?;
    Ok(came)
}

pub fn examine(board: &[u8]) -> Told {
    let came = ours::examine(board);
    same("examine", came, number_of(&refusals::board(board)))?;
    Ok(came)
}

pub fn read(draws: &mut Draws, image: &[u8], length: usize) -> Told {
    let mut room = Room::new(draws, length);
    let came = ours::read(image, room.lent());
    told("read", came, &answers::read(image, length), &room)
}

pub fn deal(draws: &mut Draws, deck: &[u8], length: usize) -> Told {
    let mut room = Room::new(draws, length);
    let came = ours::deal(deck, room.lent());
    told("deal", came, &answers::deal(deck, length), &room)
}

pub fn number(draws: &mut Draws, number: usize, length: usize) -> Told {
    let mut room = Room::new(draws, length);
    let came = ours::number(number, room.lent());
    let what = format!("number {number}");
    told(&what, came, &answers::number(number, length), &room)
}

pub fn play(draws: &mut Draws, board: &[u8], record: &[u8], length: usize) -> Told {
    let mut room = Room::new(draws, length);
    let came = ours::play(board, record, room.lent());
    told("move", came, &answers::play(board, record, length), &room)
}

pub fn replay(draws: &mut Draws, board: &[u8], list: &[u8], length: usize) -> Told {
    let mut room = Room::new(draws, length);
    let mut played = lent::number(draws);
    let came = ours::replay(board, list, room.lent(), &mut played.lent()[0]);
    let (told, given) = answers::replay(board, list, length);
    same("replay", came, told)?;
    counted("replay", number_of(&given), &given, &room, &played)?;
    Ok(came)
}

pub fn moves(draws: &mut Draws, board: &[u8], kind: u8, length: usize) -> Told {
    let mut room = Room::new(draws, length);
    let mut count = lent::number(draws);
    let came = ours::moves(board, kind, room.lent(), &mut count.lent()[0]);
    let asked = answers::moves(board, kind, length);
    let what = format!("moves of kind {kind}");
    counted(&what, came, &asked, &room, &count)
}

pub fn candidates(draws: &mut Draws, board: &[u8], length: usize) -> Told {
    let mut room = Room::new(draws, length);
    let mut count = lent::number(draws);
    let came = ours::candidates(board, room.lent(), &mut count.lent()[0]);
    let asked = answers::candidates(board, length);
    counted("candidates", came, &asked, &room, &count)
}

pub fn priority(draws: &mut Draws, board: &[u8], record: &[u8]) -> Told {
    let asked = answers::priority(board, record).map(|priority| vec![priority]);
    let mut priority = lent::number(draws);
    let came = ours::priority(board, record, &mut priority.lent()[0]);
    told("priority", came, &asked, &priority)
}

pub fn chain(draws: &mut Draws, board: &[u8], length: usize) -> Told {
    let mut room = Room::new(draws, length);
    let mut count = lent::number(draws);
    let came = ours::chain(board, room.lent(), &mut count.lent()[0]);
    let asked = answers::chain(board, length);
    counted("chain", came, &asked, &room, &count)
}

pub fn safe(draws: &mut Draws, board: &[u8], length: usize) -> Told {
    let mut room = Room::new(draws, length);
    let mut count = lent::number(draws);
    let came = ours::safe(board, room.lent(), &mut count.lent()[0]);
    let asked = answers::safe(board, length);
    let what = format!("safe with room of {length}");
    counted(&what, came, &asked, &room, &count)
}

pub fn top(draws: &mut Draws, board: &[u8], column: usize) -> Told {
    let asked = answers::top(board, column).map(|code| vec![code]);
    let mut code = lent::number(draws);
    let came = ours::top(board, column, &mut code.lent()[0]);
    told(&format!("top of column {column}"), came, &asked, &code)
}

pub fn cell(draws: &mut Draws, board: &[u8], cell: usize) -> Told {
    let asked = answers::cell(board, cell).map(|code| vec![code]);
    let mut code = lent::number(draws);
    let came = ours::cell(board, cell, &mut code.lent()[0]);
    told(&format!("cell {cell}"), came, &asked, &code)
}

pub fn home(draws: &mut Draws, board: &[u8], suit: usize) -> Told {
    let asked = answers::home(board, suit).map(|count| vec![count]);
    let mut count = lent::number(draws);
    let came = ours::home(board, suit, &mut count.lent()[0]);
    told(&format!("home of suit {suit}"), came, &asked, &count)
}

pub fn most(draws: &mut Draws, board: &[u8], column: usize) -> Told {
    let asked = answers::most(board, column).map(|count| vec![count]);
    let mut count = lent::number(draws);
    let came = ours::most(board, column, &mut count.lent()[0]);
    told(&format!("most to column {column}"), came, &asked, &count)
}

pub fn won(draws: &mut Draws, board: &[u8]) -> Told {
    let asked = answers::won(board).map(|won| vec![won]);
    let mut won = lent::number(draws);
    let came = ours::won(board, &mut won.lent()[0]);
    told("won", came, &asked, &won)
}

pub fn features(draws: &mut Draws, board: &[u8], length: usize) -> Told {
    let mut room = Room::new(draws, length);
    let came = ours::features(board, room.lent());
    told("features", came, &answers::features(board, length), &room)
}

pub fn scores(draws: &mut Draws, board: &[u8]) -> Told {
    let asked = answers::scores(board).map(|(heuristic, progress)| (vec![heuristic], progress));
    let (mut heuristic, mut progress) = (lent::number(draws), lent::number(draws));
    let came = ours::scores(board, &mut heuristic.lent()[0], &mut progress.lent()[0]);
    counted("scores", came, &asked, &heuristic, &progress)
}

pub fn signature(draws: &mut Draws, board: &[u8]) -> Told {
    let asked = answers::signature(board).map(|signature| vec![signature]);
    let mut signature = lent::number(draws);
    let came = ours::signature(board, &mut signature.lent()[0]);
    told("signature", came, &asked, &signature)
}

pub fn token(draws: &mut Draws, board: &[u8], length: usize) -> Told {
    let mut room = Room::new(draws, length);
    let mut count = lent::number(draws);
    let came = ours::token(board, room.lent(), &mut count.lent()[0]);
    let asked = answers::token(board, length);
    counted("token", came, &asked, &room, &count)
}

pub fn read_line(draws: &mut Draws, board: &[u8], text: &[u8], length: usize) -> Told {
    let mut list = Room::new(draws, length);
    let mut count = lent::number(draws);
    let came = ours::read_line(board, text, list.lent(), &mut count.lent()[0]);
    let asked = papers::read(board, text, length);
    let what = format!("read_line of '{}'", text.escape_ascii());
    placed(&what, came, &asked, &list, &count)
}

pub fn write_line(draws: &mut Draws, board: &[u8], list: &[u8], length: usize) -> Told {
    let mut text = Room::new(draws, length);
    let mut count = lent::number(draws);
    let came = ours::write_line(board, list, text.lent(), &mut count.lent()[0]);
    let asked = papers::write(board, list, length);
    placed("write_line", came, &asked, &text, &count)
}

pub fn capacity(lengths: [usize; 4]) -> Told {
    let [nodes, heap, keys, costs] = lengths;
    let came = ours::capacity(nodes, heap, keys, costs);
    same("capacity", came, refusals::capacity(lengths))?;
    Ok(0)
}

pub fn judge(draws: &mut Draws, board: &[u8], settings: Settings) -> Told {
    judged(draws, board, settings, &answers::judge(board, settings))
}

// Whether our judge comes to what is known already.
pub fn judged(draws: &mut Draws, board: &[u8], settings: Settings, asked: &Asked<Judged>) -> Told {
    let mut scratch = Scratch::new(draws, settings.lengths);
    let mut list = Room::new(draws, settings.list);
    let (mut pops, mut moves) = (lent::number(draws), lent::number(draws));
    let came = ours::judge(
        board,
        settings.budget,
        settings.partial,
        &mut scratch,
        list.lent(),
        &mut pops.lent()[0],
        &mut moves.lent()[0],
    );
    match asked {
        Ok(theirs) => {
            same("judge", came, theirs.number)?;
            left("judge, pops", &pops, &[theirs.pops])?;
            left("judge, number of moves", &moves, &[theirs.list.len()])?;
            left("judge, list", &list, &records(&theirs.list))?;
            same("judge, scratch all zero", scratch.is_cleared(), true)?;
        }
        Err(number) => {
            same("judge", came, *number)?;
            left("judge, pops", &pops, &[])?;
            left("judge, number of moves", &moves, &[])?;
            left("judge, list", &list, &[])?;
            same("judge, scratch stays", scratch.stays(), true)?;
        }
    }
    Ok(came)
}

// A sheet for a reader: the words that are not 0, each with its place.
pub fn shown(words: &[u64]) -> String {
    let told = words.iter().enumerate().filter(|(_, &word)| word != 0);
    let told: Vec<String> = told.map(|(at, word)| format!("{at}:{word}")).collect();
    format!("{} words, {}", words.len(), told.join(" "))
}

// The words that differ, each with its place.
fn same_words(what: &str, ours: &[u64], theirs: &[u64]) -> Same {
    same(&format!("{what}, its length"), ours.len(), theirs.len())?;
    let differ = |&(at, _): &(usize, &u64)| ours[at] != theirs[at];
    let places = |words: &[u64]| {
        let told = ours.iter().enumerate().filter(differ);
        told.map(|(at, _)| (at, words[at])).collect::<Vec<_>>()
    };
    same(
        &format!("{what}, places and words"),
        places(ours),
        places(theirs),
    )
}

// Whether our season comes to what is known already: a sheet or a refusal.
pub fn season(draws: &mut Draws, season: &Season, asked: &Asked<Vec<u64>>) -> Told {
    let mut scratch = Scratch::new(draws, season.lengths);
    let mut sheet = Room::new(draws, season.sheet);
    let Season {
        ends,
        budget,
        partial,
        ..
    } = *season;
    let came = ours::season(ends, budget, partial, &mut scratch, sheet.lent());
    same("season", came, number_of(asked))?;
    match asked {
        Ok(words) => {
            same_words("season, sheet", &sheet.held()[..words.len()], words)?;
            left("season, sheet", &sheet, words)?;
            same("season, scratch all zero", scratch.is_cleared(), true)?;
        }
        Err(_) => {
            left("season, sheet", &sheet, &[])?;
            same("season, scratch stays", scratch.stays(), true)?;
        }
    }
    Ok(came)
}

pub fn add(draws: &mut Draws, into: &[u64], other: &[u64]) -> Told {
    let (mut sum, added) = (Room::holding(draws, into), Room::holding(draws, other));
    let came = ours::add(sum.lent(), added.held());
    let asked = figures::add(into, other);
    same("add", came, number_of(&asked))?;
    for (what, room, holds) in [
        ("add, first sheet", &sum, asked.as_deref().unwrap_or(into)),
        ("add, second sheet", &added, other),
    ] {
        same_words(what, room.held(), holds)?;
        same(
            &format!("{what}, places changed around it"),
            &room.changed_after(room.len())[..],
            &[],
        )?;
    }
    Ok(came)
}
