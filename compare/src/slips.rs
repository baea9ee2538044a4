// Lists written and read back, and lists and texts that are damaged: what the work `papers` asks of the library, each held
// against the second reader and writer (papers.rs).
use crate::asks::{self, Difference, Told};
use crate::boards::{self, played};
use crate::codes::{self, records};
use crate::damage;
use crate::draws::Draws;
use crate::jotted;
use crate::original::freecell::board::FreeCellBoard;
use crate::papers::{self, TEXT};
use crate::records::Counts;
use crate::refusals::LIST;
use crate::worked;
use std::sync::LazyLock;

// Boards are the four kinds of boards.rs, and such as have long runs and empty columns.
pub const KINDS: usize = boards::KINDS.len() + 1;
// On every so many boards each word there is stands alone.
const EVERY_WORD: usize = 100;
// Characters that mean something somewhere, or nearly.
const CHARACTERS: &[u8] = b" 12345678abcdhv0ef  12ah9gABHV\t\n\r\0,-x\xff";

static WORDS: LazyLock<Vec<Vec<u8>>> = LazyLock::new(papers::words);

fn board(draws: &mut Draws, task: usize) -> FreeCellBoard {
    match task % KINDS {
        kind if kind < boards::KINDS.len() => boards::board(draws, kind),
        _ => boards::in_runs(draws),
    }
}

// Random play; moves from foundations, which cannot be written, are in one list of four.
fn list(draws: &mut Draws, board: &FreeCellBoard) -> Vec<u8> {
    let moves = draws.one_of(&[0, 1, 5, 20, 60, 200, 200, 201]);
    let weights = [
        [3, 3, 2, 3, 3, 0],
        [8, 1, 1, 2, 1, 0],
        [1, 0, 2, 3, 0, 0],
        [3, 3, 2, 3, 3, 1],
    ];
    let weights = draws.one_of(&weights);
    records(&played(draws, board.clone(), moves, weights).1)
}

// What is asked, counted by the number that comes.
struct Asking<'a> {
    draws: &'a mut Draws,
    counts: Counts,
}

impl Asking<'_> {
    fn count(&mut self, what: &str, told: Told) -> Result<u8, Difference> {
        let number = told?;
        *self.counts.entry((what.to_string(), number)).or_default() += 1;
        Ok(number)
    }

    fn read(&mut self, what: &str, board: &[u8], text: &[u8], room: usize) -> Told {
        let told = asks::read_line(self.draws, board, text, room);
        self.count(what, told.map_err(|found| found.on(&[board, text])))
    }

    fn write(&mut self, what: &str, board: &[u8], list: &[u8], room: usize) -> Told {
        let told = asks::write_line(self.draws, board, list, room);
        self.count(what, told.map_err(|found| found.on(&[board, list])))
    }

    fn room(&mut self, least: usize) -> usize {
        let lengths = [least, least, least, least + 1, least + 100, least - 1, 0];
        self.draws.one_of(&lengths)
    }

    // A list is written; its text, if it has one, is read back to the list, and written again. Answers the text.
    fn there_and_back(&mut self, board: &[u8], list: &[u8]) -> Result<Vec<u8>, Difference> {
        self.write("lists written", board, list, TEXT)?;
        let room = self.room(TEXT);
        self.write("lists written, any room", board, list, room)?;
        let Ok((text, _)) = papers::write(board, list, TEXT) else {
            return Ok(Vec::new());
        };
        self.read("read back", board, &text, LIST)?;
        let room = self.room(LIST);
        self.read("read back, any room", board, &text, room)?;
        let back = papers::read(board, &text, LIST);
        assert_eq!(
            back,
            Ok((list.to_vec(), list.len() / 5)),
            "the second reader"
        );
        for count in text.split(|&c| c == b' ').filter_map(papers::counted) {
            let counts = ("counts written".to_string(), count);
            *self.counts.entry(counts).or_default() += 1;
        }
        Ok(text)
    }

    // Both functions, with anything.
    fn damaged(&mut self, board: &[u8], list: Vec<u8>, text: Vec<u8>) -> Result<(), Difference> {
        let list = damage::damaged_list(self.draws, list);
        let text = damaged(self.draws, text);
        let (rooms, another) = (
            [self.room(LIST), self.room(TEXT)],
            damage::board(self.draws),
        );
        self.read("damaged texts", board, &text, LIST)?;
        self.write("damaged lists", board, &list, TEXT)?;
        self.read("damaged texts on any board", &another, &text, rooms[0])?;
        self.write("damaged lists on any board", &another, &list, rooms[1])?;
        Ok(())
    }

    fn every_word(&mut self, board: &[u8]) -> Result<(), Difference> {
        for word in WORDS.iter() {
            self.read("each word alone", board, word, LIST)?;
        }
        Ok(())
    }

    // Each byte at each place, instead of what stands there and before it; the text cut there; what stands there left out, and
    // twice.
    fn every_byte(&mut self, board: &[u8], text: &[u8]) -> Result<(), Difference> {
        for place in 0..=text.len() {
            let (before, after) = text.split_at(place);
            let beyond = after.get(1..).unwrap_or_default();
            for byte in 0..=255 {
                let put = [before, &[byte], beyond].concat();
                self.read("every byte at every place", board, &put, LIST)?;
                let more = [before, &[byte], after].concat();
                self.read("every byte before every place", board, &more, LIST)?;
            }
            self.read("cut at every place", board, before, LIST)?;
            self.read(
                "every byte left out",
                board,
                &[before, beyond].concat(),
                LIST,
            )?;
            let twice = [before, &after[..after.len().min(1)], after].concat();
            self.read("every byte twice", board, &twice, LIST)?;
        }
        Ok(())
    }

    // What has its answer written out.
    fn written_out(&mut self) -> Result<(), Difference> {
        for (board, text) in jotted::texts() {
            for room in [LIST - 1, LIST, LIST + 1] {
                self.read("texts written out", &codes::bytes(&board), &text, room)?;
            }
        }
        for text in jotted::longest() {
            let board = codes::bytes(&worked::s());
            self.read("texts written out", &board, &text, LIST)?;
            self.write("lists written out", &board, &text, TEXT)?;
        }
        for (board, list) in jotted::lists() {
            for room in [TEXT - 1, TEXT, TEXT + 1] {
                self.write("lists written out", &codes::bytes(&board), &list, room)?;
            }
        }
        Ok(())
    }
}

// A task: a list, and damaged ones. The first tasks have more: what has its answer written out, and every byte at every
// place of a few texts.
pub fn compare(draws: &mut Draws, task: usize) -> Result<Counts, Difference> {
    let board = board(draws, task);
    let list = list(draws, &board);
    let bytes = codes::bytes(&board);
    let mut asking = Asking {
        draws,
        counts: Counts::new(),
    };
    if task == 0 {
        asking.written_out()?;
    }
    if let Some((board, text)) = jotted::lines().get(task) {
        asking.every_byte(&codes::bytes(board), text)?;
    }
    if task % EVERY_WORD < KINDS {
        asking.every_word(&bytes)?;
    }
    let text = asking.there_and_back(&bytes, &list)?;
    asking.damaged(&bytes, list, text)?;
    Ok(asking.counts)
}

// A text, with words or characters of it changed, or one of drawn words.
fn damaged(draws: &mut Draws, mut text: Vec<u8>) -> Vec<u8> {
    let times = draws.one_of(&[1, 1, 1, 2, 3]);
    match draws.below(8) {
        0 => {
            let words = (0..1 + draws.below(4)).map(|_| some_word(draws));
            words.collect::<Vec<_>>().join(&b' ')
        }
        1 | 2 => with_words(draws, &text, times),
        3 => lengthened(draws, &text),
        _ => {
            for _ in 0..times {
                damage_text(draws, &mut text);
            }
            text
        }
    }
}

fn some_word(draws: &mut Draws) -> Vec<u8> {
    let place = draws.below(WORDS.len());
    if draws.once_in(2) {
        return WORDS[place].clone();
    }
    // most words have a count
    let pair = [
        draws.one_of(b"12345678abcd"),
        draws.one_of(b"12345678abcdhhhh"),
    ];
    pair.to_vec()
}

// Words put in, left out, twice, changed for others, changed with each other, or with a count behind them.
fn with_words(draws: &mut Draws, text: &[u8], times: usize) -> Vec<u8> {
    let mut words: Vec<Vec<u8>> = text.split(|&c| c == b' ').map(<[u8]>::to_vec).collect();
    for _ in 0..times {
        let place = draws.below(words.len());
        let other = draws.below(words.len());
        match draws.below(7) {
            0 => words.insert(place, some_word(draws)),
            1 if words.len() > 1 => drop(words.remove(place)),
            2 => words.insert(place, words[place].clone()),
            3 => words.swap(place, other),
            4 | 5 => {
                words[place].truncate(2);
                words[place].extend([b'v', draws.one_of(b"0123456789abcdef")]);
            }
            _ => words[place] = some_word(draws),
        }
    }
    words.join(&b' ')
}

// The words of a text again and again, up to 200 or a few more or less, and perhaps one character changed.
fn lengthened(draws: &mut Draws, text: &[u8]) -> Vec<u8> {
    let words: Vec<&[u8]> = text.split(|&c| c == b' ').collect();
    let count = draws.one_of(&[199, 200, 201, 202, 260]);
    let all: Vec<&[u8]> = words.iter().copied().cycle().take(count).collect();
    let mut text = all.join(&b' ');
    if draws.once_in(2) {
        damage_text(draws, &mut text);
    }
    text
}

// One character changed, put in, left out, twice; or the text cut.
fn damage_text(draws: &mut Draws, text: &mut Vec<u8>) {
    let place = draws.below(text.len() + 1);
    let drawn = draws.byte();
    let character = if draws.once_in(4) {
        drawn
    } else {
        draws.one_of(CHARACTERS)
    };
    match draws.below(11) {
        0 => text.truncate(place),
        1 => text.insert(place, character),
        2 => text.insert(0, b' '),
        3 => text.push(b' '),
        4 => text.push(character),
        _ if place == text.len() => {}
        5 => drop(text.remove(place)),
        6 => text.insert(place, text[place]),
        7 => text[place] = text[place].to_ascii_uppercase(),
        8 => text.swap(0, place),
        _ => text[place] = character,
    }
}
