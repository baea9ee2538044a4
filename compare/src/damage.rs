// Damaged inputs: boards, images, decks, records, lists, numbers, places and room, one or more of them wrong, to every function.
// What must come is told by refusals.rs; what is not refused after all is compared as any other input.
use crate::answers::Settings;
use crate::asks::{self, Told};
use crate::boards::{self, played, shuffled};
use crate::codes::{self, counted, image, records, BOARD, COLUMN, EMPTY};
use crate::draws::Draws;
use crate::original::common::card::{Card, Suit};
use crate::refusals::{self, FEATURES, LIST, MOST_NUMBER, MOST_POPS, RECORD, RECORDS, TOKEN};

pub const FUNCTIONS: [&str; 22] = [
    "examine",
    "read",
    "deal",
    "number",
    "move",
    "replay",
    "moves",
    "candidates",
    "priority",
    "chain",
    "safe",
    "top",
    "cell",
    "home",
    "most",
    "won",
    "features",
    "scores",
    "signature",
    "token",
    "capacity",
    "judge",
];

// One input to one function.
pub fn compare(draws: &mut Draws, function: usize) -> Told {
    match FUNCTIONS[function] {
        "read" => {
            let (image, length) = (damaged_image(draws), room(draws, BOARD));
            asks::read(draws, &image, length).map_err(|found| found.on(&[&image]))
        }
        "deal" => {
            let (deck, length) = (deck(draws), room(draws, BOARD));
            asks::deal(draws, &deck, length).map_err(|found| found.on(&[&deck]))
        }
        "number" => {
            let (number, length) = (number(draws), room(draws, BOARD));
            asks::number(draws, number, length)
        }
        "capacity" => asks::capacity(lengths(draws, 1 << 33)),
        "move" | "replay" | "priority" => by_moves(draws, FUNCTIONS[function]),
        name => {
            let board = board(draws);
            by_board(draws, name, &board).map_err(|found| found.on(&[&board]))
        }
    }
}

// The functions that take a board, and some of them room.
fn by_board(draws: &mut Draws, name: &str, board: &[u8]) -> Told {
    let kind = draws.one_of(&[0, 1, 2, 3, 4, 5, 6, 7, 255]);
    let records = room(draws, RECORDS);
    let after = room(draws, BOARD);
    let record = room(draws, RECORD);
    let features = room(draws, FEATURES);
    let text = room(draws, TOKEN);
    match name {
        "examine" => asks::examine(board),
        "moves" => asks::moves(draws, board, kind, records),
        "candidates" => asks::candidates(draws, board, records),
        "chain" => asks::chain(draws, board, after),
        "safe" => asks::safe(draws, board, record),
        "won" => asks::won(draws, board),
        "features" => asks::features(draws, board, features),
        "scores" => asks::scores(draws, board),
        "signature" => asks::signature(draws, board),
        "token" => asks::token(draws, board, text),
        "judge" => judge(draws, board),
        _ => by_place(draws, name, board),
    }
}

// The functions that take a board and a place on it.
fn by_place(draws: &mut Draws, name: &str, board: &[u8]) -> Told {
    let place = place(draws);
    match name {
        "top" => asks::top(draws, board, place),
        "cell" => asks::cell(draws, board, place),
        "home" => asks::home(draws, board, place),
        _ => asks::most(draws, board, place),
    }
}

// The functions that take a board and moves, which fit the board unless one of them is damaged.
fn by_moves(draws: &mut Draws, name: &str) -> Told {
    let board = board(draws);
    let list = list(draws, &board);
    let record = record(draws, &list);
    let list = damaged_list(draws, list);
    let length = room(draws, BOARD);
    let told = match name {
        "move" => asks::play(draws, &board, &record, length),
        "priority" => asks::priority(draws, &board, &record),
        _ => asks::replay(draws, &board, &list, length),
    };
    told.map_err(|found| found.on(&[&board, &record, &list]))
}

// Small budgets, so that what is not refused ends soon, and budgets above the most.
fn judge(draws: &mut Draws, board: &[u8]) -> Told {
    let beyond = MOST_POPS + 1 + draws.word() as usize / 2;
    let settings = Settings {
        budget: draws.one_of(&[0, 1, 2, 7, 30, MOST_POPS + 1, usize::MAX, beyond]),
        partial: draws.one_of(&[0, 1, 2, 255]),
        lengths: lengths(draws, 40),
        list: room(draws, LIST),
    };
    asks::judge(draws, board, settings)
}

// Lengths of the four parts of the scratch, for up to so many nodes; sometimes less than for one node.
fn lengths(draws: &mut Draws, most: usize) -> [usize; 4] {
    let nodes = draws.below(most);
    let mut lengths = [3 * nodes, nodes, 2 * nodes, 2 * nodes];
    for length in lengths.iter_mut() {
        *length = match draws.below(6) {
            0 => draws.below(4),
            1 => draws.below(3 * most),
            _ => *length,
        };
    }
    lengths
}

// Room for what needs so much: enough, or too little.
fn room(draws: &mut Draws, least: usize) -> usize {
    match draws.below(6) {
        0 => least - 1,
        1 => draws.below(least),
        2 => 0,
        3 => least + 1 + draws.below(100),
        _ => least,
    }
}

// A board's bytes, in two of three cases damaged once or more.
pub fn board(draws: &mut Draws) -> Vec<u8> {
    let kind = draws.below(4);
    let mut bytes = codes::bytes(&boards::board(draws, kind));
    if draws.once_in(3) {
        return bytes;
    }
    if draws.once_in(20) {
        let length = draws.below(900);
        return rubbish(draws, length);
    }
    for _ in 0..draws.one_of(&[1, 1, 1, 2, 3]) {
        damage_board(draws, &mut bytes);
    }
    if draws.once_in(8) {
        let length = draws.one_of(&[0, 1, 15, 16, 17, BOARD - 1, BOARD + 1, 2 * BOARD]);
        bytes.resize(length, 0);
    }
    bytes
}

fn rubbish(draws: &mut Draws, length: usize) -> Vec<u8> {
    (0..length).map(|_| draws.byte()).collect()
}

// One damage that keeps the length.
pub fn damage_board(draws: &mut Draws, bytes: &mut [u8]) {
    let cell = draws.below(4);
    let column = draws.below(8);
    let row = draws.below((bytes[8 + column] as usize).clamp(1, COLUMN));
    let place = 16 + COLUMN * column + row;
    match draws.below(12) {
        0 => bytes[4 + cell] = draws.byte(),
        1 => bytes[4 + cell] = bytes[4 + cell].wrapping_add(1),
        2 => bytes[4 + cell] = bytes[4 + cell].wrapping_sub(1),
        3 => bytes[8 + column] = draws.byte(),
        4 => bytes[8 + column] = bytes[8 + column].wrapping_add(1),
        5 => bytes[8 + column] = bytes[8 + column].wrapping_sub(1),
        6 => bytes[16 + draws.below(416)] = draws.byte(),
        7 => bytes[cell] = draws.one_of(&[0, EMPTY, 0x1f, 0xe0, 0x14, some_code(row)]),
        8 => bytes[place] = draws.one_of(&[0, EMPTY, 0x10, 0xd3, 0xe0, 0x14, 0x0f]),
        9 => bytes[place] = draws.byte(),
        // a card lost: the last of a column, properly taken away
        10 if bytes[8 + column] > 0 && bytes[8 + column] as usize <= COLUMN => {
            bytes[8 + column] -= 1;
            bytes[16 + COLUMN * column + bytes[8 + column] as usize] = 0;
        }
        _ => {
            let other = draws.below(bytes.len());
            bytes[other] = draws.byte();
        }
    }
}

// Some card's code.
fn some_code(n: usize) -> u8 {
    codes::code(Card::new(Suit::ALL[n % 4], 1 + (n % 13) as u8))
}

fn damaged_image(draws: &mut Draws) -> Vec<u8> {
    let kind = draws.below(4);
    let mut bytes = image(&boards::board(draws, kind));
    for _ in 0..draws.one_of(&[0, 1, 1, 1, 2]) {
        damage_image(draws, &mut bytes);
    }
    if draws.once_in(20) {
        let length = draws.below(100);
        bytes = rubbish(draws, length);
    }
    bytes
}

// One damage; in most cases the count still fits, so that more than 10 is tried.
fn damage_image(draws: &mut Draws, bytes: &mut Vec<u8>) {
    if bytes.len() < 3 {
        return;
    }
    let mut body = bytes.split_off(2);
    let place = draws.below(body.len());
    match draws.below(9) {
        0 => body[0] = draws.one_of(&[0, 2, 255]),
        1 => body.truncate(place),
        2 => body.insert(place, draws.byte()),
        3 => drop(body.remove(place)),
        // with 65,536 bytes more the count's two bytes are the same
        4 => {
            let more = draws.one_of(&[1, 2, 40, 300, 1000, 65_536]);
            body.extend(rubbish(draws, more));
        }
        5 => body[place] = draws.one_of(&[0, 1, 13, 14, 0x10, 0xd3, EMPTY]),
        6 if body.len() > 9 => body[5 + draws.below(4)] = draws.below(20) as u8,
        _ => body[place] = draws.byte(),
    }
    if draws.once_in(6) {
        bytes[draws.below(2)] = draws.byte();
        bytes.extend(body);
        bytes.truncate(draws.one_of(&[0, 1, 2, 1000, 1000]));
    } else {
        *bytes = counted(&body);
    }
}

fn deck(draws: &mut Draws) -> Vec<u8> {
    let mut deck: Vec<u8> = shuffled(draws).into_iter().map(codes::code).collect();
    for _ in 0..draws.below(3) {
        let (place, other) = (draws.below(52), draws.below(52));
        deck[place] = if draws.once_in(2) {
            deck[other]
        } else {
            draws.byte()
        };
    }
    if draws.once_in(4) {
        let length = draws.one_of(&[0, 1, 51, 53, 104]);
        deck.resize(length, 0x10);
    }
    deck
}

// A number, in two of three cases no hand's.
fn number(draws: &mut Draws) -> usize {
    let number = 1 + draws.below(MOST_NUMBER);
    if draws.once_in(3) {
        return number;
    }
    no_number(draws, number)
}

// Numbers that are no hand's: some of them end as a hand's does, for who looks at 31 or 32 bits only.
pub fn no_number(draws: &mut Draws, number: usize) -> usize {
    match draws.below(7) {
        0 => 0,
        1 => MOST_NUMBER + 1,
        2 => MOST_NUMBER + number,
        3 => (1 << 31) + number,
        4 => (1 << 32) + number,
        5 => usize::MAX,
        _ => draws.word() as usize,
    }
}

// A place of eight or of four, or one that is none: some end as a place does, for who looks at 8 or 32 bits only.
fn place(draws: &mut Draws) -> usize {
    let place = draws.below(8);
    match draws.below(9) {
        0 => 4,
        1 => 8,
        2 => 256 + place,
        3 => (1 << 32) + place,
        4 => usize::MAX,
        5 => draws.word() as usize,
        _ => place,
    }
}

// A list of moves that can be played, if the board can be.
fn list(draws: &mut Draws, bytes: &[u8]) -> Vec<u8> {
    let Ok(board) = refusals::board(bytes) else {
        let length = 5 * draws.below(10);
        return rubbish(draws, length);
    };
    let moves = draws.one_of(&[1, 3, 10, 40, 200]);
    records(&played(draws, board, moves, [3, 2, 2, 2, 2, 1]).1)
}

pub fn damaged_list(draws: &mut Draws, mut list: Vec<u8>) -> Vec<u8> {
    for _ in 0..draws.below(3) {
        if !list.is_empty() {
            let place = draws.below(list.len());
            list[place] = damaged_byte(draws, list[place]);
        }
    }
    match draws.below(8) {
        0 => list.resize(draws.one_of(&[LIST, LIST + 1, LIST + 5, 2 * LIST]), 1),
        1 => list.push(draws.byte()),
        2 => drop(list.pop()),
        _ => {}
    }
    list
}

// The first record of a list, damaged or not.
fn record(draws: &mut Draws, list: &[u8]) -> Vec<u8> {
    let mut record = list.get(..5).map_or(vec![1, 0, 1, 1, 0x10], <[u8]>::to_vec);
    for _ in 0..draws.one_of(&[0, 1, 1, 1, 2]) {
        let place = draws.below(5);
        record[place] = damaged_byte(draws, record[place]);
    }
    if draws.once_in(8) {
        let length = draws.one_of(&[0, 1, 4, 6, 10]);
        record.resize(length, 1);
    }
    record
}

fn damaged_byte(draws: &mut Draws, byte: u8) -> u8 {
    match draws.below(5) {
        0 => draws.byte(),
        1 => byte.wrapping_add(1),
        2 => byte.wrapping_sub(1),
        3 => byte.wrapping_add(16),
        _ => draws.below(9) as u8,
    }
}
