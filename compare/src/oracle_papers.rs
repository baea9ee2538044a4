// Lines on paper that the gate holds ours to: input and expected output of the program tests/oracle_papers.c, which says
// how they are laid out. What is expected is the second reader's and writer's (papers.rs).
use crate::boards::{self, played};
use crate::broken::{self, Put};
use crate::codes::{self, records, BOARD};
use crate::draws::Draws;
use crate::jotted;
use crate::original::freecell::board::FreeCellBoard;
use crate::papers::{self, Paper, TEXT};
use crate::refusals::LIST;
use crate::run::Run;
use crate::sheet::Sheet;
use crate::worked;
use std::collections::BTreeMap;

// what lent memory holds before a call, and how much of it the program has
const MARK: u8 = 165;
const ROOM: usize = 1_010;
// what the number told is before a call
const STOOD: usize = 7;

#[derive(Clone)]
struct Call {
    reads: bool,
    room: usize,
    board: FreeCellBoard,
    // so many bytes of the board are given, with bytes put
    given: usize,
    puts: Vec<Put>,
    bytes: Vec<u8>,
}

fn reading(board: &FreeCellBoard, text: &[u8]) -> Call {
    Call {
        reads: true,
        room: LIST,
        board: board.clone(),
        given: BOARD,
        puts: Vec::new(),
        bytes: text.to_vec(),
    }
}

fn writing(board: &FreeCellBoard, list: &[u8]) -> Call {
    Call {
        reads: false,
        room: TEXT,
        ..reading(board, list)
    }
}

impl Call {
    fn room(mut self, room: usize) -> Call {
        self.room = room;
        self
    }

    fn with(&self, puts: &[Put]) -> Call {
        Call {
            puts: puts.to_vec(),
            ..self.clone()
        }
    }

    fn board(&self) -> Vec<u8> {
        broken::board(&self.board, &self.puts, self.given)
    }

    fn input(&self) -> Vec<u8> {
        let pair = |n: usize| u16::try_from(n).unwrap().to_be_bytes();
        let told = broken::told(&self.board, &self.puts, self.given);
        let mut input = pair(self.bytes.len() + told.bytes.len()).to_vec();
        input.push(if self.reads { 1 } else { 2 } + told.itself);
        for number in [self.room, self.given, told.put.0] {
            input.extend(pair(number));
        }
        input.push(told.put.1);
        input.extend(pair(self.bytes.len()));
        input.extend(&self.bytes);
        input.extend(told.bytes);
        input
    }

    fn answer(&self) -> Paper {
        let asked = if self.reads {
            papers::read
        } else {
            papers::write
        };
        asked(&self.board(), &self.bytes, self.room)
    }

    fn line(&self) -> String {
        let (number, told, bytes) = match self.answer() {
            Ok((bytes, count)) => (0, count, bytes),
            Err((number, place)) => (number, place.unwrap_or(STOOD), Vec::new()),
        };
        let name = if self.reads { "read" } else { "write" };
        let shown = match number {
            0 if self.reads => bytes.iter().map(|byte| format!("{byte} ")).collect(),
            0 => bytes.escape_ascii().to_string() + " ",
            _ => String::new(),
        };
        let mut room = bytes;
        room.resize(ROOM, MARK);
        format!("{name} {number} {told} {shown}{}\n", sum(&room))
    }
}

// Each byte and its place counts.
fn sum(room: &[u8]) -> u64 {
    room.iter()
        .fold(1, |sum, &byte| sum % 4_294_967_291 * 257 + u64::from(byte))
}

// Boards that are none: 12 in five ways, 13, 14, 15.
fn damaged(call: &Call) -> Vec<Call> {
    let short = [BOARD - 1, BOARD + 1].map(|given| Call {
        given,
        ..call.clone()
    });
    let put = broken::once(&call.board).map(|put| call.with(&[put]));
    [&short[..], &put].concat()
}

// A board of runs with cards in a cell, a list with counts on it, and each refusal of a board before those of room and text.
fn counted(draws: &mut Draws) -> Vec<Call> {
    loop {
        let board = boards::in_runs(draws);
        let list = records(&played(draws, board.clone(), 40, [8, 1, 1, 2, 1, 0]).1);
        let text = papers::write(&codes::bytes(&board), &list, TEXT);
        let text = text.map_or(Vec::new(), |(text, _)| text);
        let two = board.tableau.iter().any(|column| column.len() > 1);
        let counts = text.iter().filter(|&&c| c == b'v').count();
        if counts < 8 || !two || board.free_cells[0].is_none() {
            continue;
        }
        let good = [reading(&board, &text), writing(&board, &list)];
        return [
            &good[..],
            &all_wrong(&board)
                .iter()
                .flat_map(damaged)
                .collect::<Vec<_>>(),
        ]
        .concat();
    }
}

// Calls with everything wrong but the board.
fn all_wrong(board: &FreeCellBoard) -> [Call; 2] {
    [
        reading(board, b"x").room(LIST - 1),
        writing(board, &[0; 4]).room(TEXT - 1),
    ]
}

// Boards that are none for two reasons; and 31 before the first move is looked at.
fn orders(calls: &[Call]) -> Vec<Call> {
    let damaged = calls.iter().find(|call| !call.puts.is_empty());
    let board = &damaged.expect("a damaged board").board;
    let twice = |call: &Call| broken::twice(board).map(|puts| call.with(&puts));
    let mut orders: Vec<Call> = all_wrong(board).iter().flat_map(twice).collect();
    orders.push(writing(board, &[7, 0, 0, 1, 16, 0]));
    orders
}

// Lists with a move of every number behind a good one; a move from a foundation there is 43 if it is allowed.
fn refused_moves() -> Vec<Call> {
    let mut calls = Vec::new();
    for example in worked::examples() {
        for (_, record) in example.given.iter().filter(|given| given.1.len() == 5) {
            let list = [&example.first, *record].concat();
            calls.push(writing(&example.before, &list));
        }
    }
    calls
}

fn all_calls(run: &Run) -> Vec<Call> {
    let mut calls = Vec::new();
    for (board, text) in jotted::texts() {
        calls.push(reading(&board, &text));
    }
    for (board, list) in jotted::lists() {
        calls.extend([TEXT, TEXT + 1, TEXT - 1].map(|room| writing(&board, &list).room(room)));
    }
    for (board, text) in jotted::lines() {
        let (list, _) = papers::read(&codes::bytes(board), text, LIST).expect("a line");
        calls.extend([LIST, LIST + 1, LIST - 1].map(|room| reading(board, text).room(room)));
        calls.extend([TEXT, TEXT - 1].map(|room| writing(board, &list).room(room)));
        calls.push(reading(board, b"x").room(LIST - 1));
    }
    calls.extend(counted(&mut run.draws(12, 0)));
    calls.extend(refused_moves());
    calls.extend(orders(&calls));
    calls
}

// Every number that each of the two can give comes.
const NUMBERS: [(bool, &[u8]); 2] = [
    (
        true,
        &[0, 12, 13, 14, 15, 21, 30, 31, 33, 36, 38, 39, 40, 42],
    ),
    (
        false,
        &[
            0, 12, 13, 14, 15, 21, 30, 31, 33, 34, 35, 36, 37, 38, 39, 40, 43,
        ],
    ),
];

pub fn write(run: &Run) -> std::io::Result<()> {
    let calls = all_calls(run);
    let mut met: BTreeMap<bool, BTreeMap<u8, usize>> = BTreeMap::new();
    let mut sheet = Sheet::default();
    for call in &calls {
        let number = call.answer().err().map_or(0, |refused| refused.0);
        *met.entry(call.reads)
            .or_default()
            .entry(number)
            .or_default() += 1;
        sheet.input.extend(call.input());
        sheet.output += &call.line();
    }
    println!("  {} calls", calls.len());
    for (reads, numbers) in NUMBERS {
        let met = &met[&reads];
        println!("  {}: {met:?}", if reads { "read" } else { "write" });
        assert!(met.keys().eq(numbers), "{numbers:?}");
    }
    sheet.write_in_c("oracle_papers")
}
