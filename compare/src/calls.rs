// Calls of every function for C, with answers and refusals, that the gate holds ours to without the original: input and
// expected output of the program tests/oracle_calls.c, which says how they are laid out.
use crate::answers::{self, Settings};
use crate::boards::{self, moves_by_kind, played};
use crate::broken::{self, Put};
use crate::codes::{self, BOARD, EMPTY};
use crate::draws::Draws;
use crate::original::common::card::{Card, Suit};
use crate::original::freecell::board::FreeCellBoard;
use crate::original::freecell::solver;
use crate::refusals::{
    self, Asked, FEATURES, LIST, MOST_NUMBER, MOST_POPS, RECORD, RECORDS, TOKEN,
};
use crate::run::Run;
use crate::sheet::Sheet;
use crate::worked;
use std::collections::{BTreeMap, BTreeSet};

const NAMES: [&str; 22] = [
    "examine",
    "read",
    "deal",
    "move",
    "replay",
    "chain",
    "moves",
    "candidates",
    "token",
    "priority",
    "scores",
    "signature",
    "features",
    "capacity",
    "judge",
    "number",
    "top",
    "cell",
    "home",
    "most",
    "won",
    "safe",
];
// what lent memory holds before a call, and how much of each the program has
const MARK: u8 = 165;
const ROOM: usize = 4_200;
const FEATURES_ROOM: usize = 9;
const SCRATCH: [usize; 4] = [8, 3, 6, 6];

// A function, how much room it is lent, so many bytes of a board with bytes put, and what else it is given.
#[derive(Clone)]
struct Call {
    function: &'static str,
    room: usize,
    board: FreeCellBoard,
    given: usize,
    puts: Vec<Put>,
    kind: u8,
    bytes: Vec<u8>,
}

// The least room that a function takes.
fn least(function: &str) -> usize {
    match function {
        "read" | "deal" | "number" | "move" | "replay" | "chain" => BOARD,
        "moves" | "candidates" => RECORDS,
        "token" => TOKEN,
        "features" => FEATURES,
        "judge" => LIST,
        "safe" => RECORD,
        _ => 0,
    }
}

fn call(function: &'static str, board: &FreeCellBoard) -> Call {
    Call {
        function,
        room: least(function),
        board: board.clone(),
        given: BOARD,
        puts: Vec::new(),
        kind: 0,
        bytes: Vec::new(),
    }
}

// Each byte and its place counts.
fn sum(room: &[u8]) -> u64 {
    room.iter()
        .fold(1, |sum, &byte| sum % 4_294_967_291 * 257 + u64::from(byte))
}

// Numbers, with a space after each.
fn numbers<T: ToString>(all: impl IntoIterator<Item = T>) -> String {
    all.into_iter().map(|n| n.to_string() + " ").collect()
}

// What stands in lent room at last: what is given at its start, and else what stood there.
fn over<T: Copy>(given: &[T], mark: T, length: usize) -> Vec<T> {
    let mut room = given.to_vec();
    room.resize(length, mark);
    room
}

// The number that comes, and a number told, or what stood in its place.
fn told<T: ToString>(asked: &Asked<T>, stood: T) -> String {
    let number = asked.as_ref().err().copied().unwrap_or(0);
    numbers([number]) + &numbers([asked.as_ref().unwrap_or(&stood)].map(T::to_string))
}

impl Call {
    fn board(&self) -> Vec<u8> {
        broken::board(&self.board, &self.puts, self.given)
    }

    // The function's number in input and output.
    fn number(&self) -> u8 {
        let place = NAMES.iter().position(|&name| name == self.function);
        1 + place.expect("a function") as u8
    }

    fn input(&self) -> Vec<u8> {
        let pair = |n: usize| u16::try_from(n).unwrap().to_be_bytes();
        let told = broken::told(&self.board, &self.puts, self.given);
        let mut input = pair(self.bytes.len() + told.bytes.len()).to_vec();
        input.push(self.number() + told.itself);
        for number in [self.room, self.given, told.put.0] {
            input.extend(pair(number));
        }
        input.extend([told.put.1, self.kind]);
        input.extend(pair(self.bytes.len()));
        input.extend(&self.bytes);
        input.extend(told.bytes);
        input
    }

    // The numbers that the program writes, and the bytes that stand at the start of the room.
    fn answer(&self) -> (String, Vec<u8>) {
        let (board, bytes, room) = (&self.board()[..], &self.bytes[..], self.room);
        let handed = |asked: Asked<Vec<u8>>| {
            let number = asked.as_ref().err().copied().unwrap_or(0);
            (numbers([number]), asked.unwrap_or_default())
        };
        let counted = |asked: answers::Counted| {
            let numbers = told(&asked.as_ref().map(|given| given.1).map_err(|&n| n), 7);
            (numbers, asked.map(|given| given.0).unwrap_or_default())
        };
        match self.function {
            "examine" => handed(refusals::board(board).map(|_| Vec::new())),
            "read" => handed(answers::read(bytes, room)),
            "deal" => handed(answers::deal(bytes, room)),
            "number" => handed(answers::number(joined(&bytes[..8]), room)),
            "move" => handed(answers::play(board, bytes, room)),
            "replay" => {
                let (number, given) = answers::replay(board, bytes, room);
                let (text, after) = counted(given);
                let count = text.split_once(' ').unwrap().1;
                (numbers([number]) + count, after)
            }
            "chain" => counted(answers::chain(board, room)),
            "moves" => counted(answers::moves(board, self.kind, room)),
            "candidates" => counted(answers::candidates(board, room)),
            "token" => counted(answers::token(board, room)),
            "priority" => (told(&answers::priority(board, bytes), -7), Vec::new()),
            "scores" => {
                let asked = answers::scores(board);
                let heuristic = told(&asked.map(|scores| scores.0), -7);
                let progress = asked.map_or(-8, |scores| scores.1);
                (heuristic + &numbers([progress]), Vec::new())
            }
            "signature" => (told(&answers::signature(board), 7), Vec::new()),
            "top" => (told(&answers::top(board, joined(bytes)), 7), Vec::new()),
            "cell" => (told(&answers::cell(board, joined(bytes)), 7), Vec::new()),
            "home" => (told(&answers::home(board, joined(bytes)), 7), Vec::new()),
            "most" => (told(&answers::most(board, joined(bytes)), 7), Vec::new()),
            "won" => (told(&answers::won(board), 7), Vec::new()),
            "safe" => counted(answers::safe(board, room)),
            "features" => {
                let asked = answers::features(board, room);
                let number = asked.as_ref().err().copied().unwrap_or(0);
                let held = over(&asked.unwrap_or_default(), 7, FEATURES_ROOM);
                (numbers([number]) + &numbers(held), Vec::new())
            }
            "capacity" => {
                let scale = if self.kind == 0 { 1 } else { 65_536 };
                let lengths = [0, 3, 6, 9].map(|at| scale * joined(&bytes[at..at + 3]));
                (numbers([refusals::capacity(lengths)]), Vec::new())
            }
            _ => self.judged(board),
        }
    }

    // Answers, and 23, clear the scratch that is lent; refusals leave it.
    fn judged(&self, board: &[u8]) -> (String, Vec<u8>) {
        let lengths = [3, 4, 5, 6].map(|at| usize::from(self.bytes[at]));
        let asked = answers::judge(
            board,
            Settings {
                budget: joined(&self.bytes[..3]),
                partial: self.kind,
                lengths,
                list: self.room,
            },
        );
        let (text, list, cleared) = match asked {
            Ok(judged) => {
                let told = [judged.number as usize, judged.pops, judged.list.len()];
                (numbers(told), codes::records(&judged.list), lengths)
            }
            Err(number) => (numbers([number, 7, 8]), Vec::new(), [0; 4]),
        };
        let part = |i: usize| over(&vec![0; cleared[i]], 7, SCRATCH[i]);
        let words = [part(0), part(1), part(2)].concat();
        let costs = sum(&over(&vec![0; cleared[3]], MARK, SCRATCH[3]));
        (text + &numbers(words) + &numbers([costs]), list)
    }

    fn line(&self) -> String {
        let (numbers_told, written) = self.answer();
        let sum = sum(&over(&written, MARK, ROOM));
        format!("{} {numbers_told}{sum} \n", self.number())
    }

    fn room(mut self, room: usize) -> Call {
        self.room = room;
        self
    }

    fn kind(mut self, kind: u8) -> Call {
        self.kind = kind;
        self
    }

    fn bytes(mut self, bytes: &[u8]) -> Call {
        self.bytes = bytes.to_vec();
        self
    }

    fn puts(mut self, puts: &[Put]) -> Call {
        self.puts = puts.to_vec();
        self
    }
}

// Bytes as a number.
fn joined(bytes: &[u8]) -> usize {
    bytes.iter().fold(0, |n, &b| n * 256 + usize::from(b))
}

// With room that is just enough, more, and one too little.
fn in_rooms(call: Call) -> Vec<Call> {
    let least = least(call.function);
    [least, least + 2, least - 1]
        .map(|room| call.clone().room(room))
        .to_vec()
}

fn piles(home: [usize; 4]) -> [Vec<Card>; 4] {
    Suit::ALL.map(|suit| codes::pile(suit, home[suit as usize]))
}

// SCOPE.md's boards S and T; a won one; a deal; the middle of a game and an endgame on which there are moves of every kind.
fn on_boards(draws: &mut Draws) -> Vec<FreeCellBoard> {
    let clubs = codes::pile(Suit::Club, 13);
    let mut others = Card::standard_deck();
    others.retain(|card| card.suit != Suit::Club || card.value == 1);
    let under = |i: usize| others[5 * i..5 * i + 5].to_vec();
    let columns = [0, 1, 2, 3, 4, 5, 6, 7].map(|i| [under(i), vec![clubs[1 + i]]].concat());
    let cells = [9, 10, 11, 12].map(|i| Some(clubs[i]));
    let t = FreeCellBoard::new(cells, piles([0; 4]), columns);
    let mut boards = vec![worked::s(), t, boards::won(), boards::board(draws, 0)];
    boards.extend([1, 3].map(|kind| lively(draws, kind)));
    boards
}

// A board of a kind, with two cards in cells or more and moves of every kind.
fn lively(draws: &mut Draws, kind: usize) -> FreeCellBoard {
    loop {
        let board = boards::board(draws, kind);
        let held = board.free_cells.iter().flatten().count();
        if held >= 2 && moves_by_kind(&board).iter().all(|moves| !moves.is_empty()) {
            return board;
        }
    }
}

// What takes a board and nothing else.
fn plain(board: &FreeCellBoard) -> Vec<Call> {
    let read = call("read", board).bytes(&codes::image(board));
    let mut calls = in_rooms(read);
    for function in ["examine", "scores", "signature"] {
        calls.push(call(function, board));
    }
    for function in ["chain", "candidates", "token", "features"] {
        calls.extend(in_rooms(call(function, board)));
    }
    for kind in 0..=7 {
        calls.push(call("moves", board).kind(kind));
    }
    calls.extend(in_rooms(call("moves", board).kind(3)));
    calls.push(call("moves", board).kind(7).room(0));
    calls
}

// A move of each kind; one that is not allowed; records of four and six bytes.
fn moved(board: &FreeCellBoard) -> Vec<Call> {
    let moves = moves_by_kind(board);
    let firsts = moves.iter().filter_map(|moves| moves.first());
    let mut records: Vec<Vec<u8>> = firsts.map(|step| codes::record(step).to_vec()).collect();
    records.extend([vec![1, 0, 0, 1, 16], vec![7, 0, 0, 1, 16]]);
    let first = records[0].clone();
    records.extend([first[..4].to_vec(), [&first[..], &[0]].concat()]);
    let mut calls = Vec::new();
    for record in &records {
        calls.push(call("move", board).bytes(record));
        calls.push(call("priority", board).bytes(record));
    }
    calls.extend(in_rooms(call("move", board).bytes(&first)));
    calls
}

// A list by random play, the same with a bad move in it, and lists that are none.
fn replayed(draws: &mut Draws, board: &FreeCellBoard) -> Vec<Call> {
    let (_, steps) = played(draws, board.clone(), 12, [3, 3, 2, 3, 3, 1]);
    let list = codes::records(&steps);
    let mut calls = in_rooms(call("replay", board).bytes(&list));
    let mut bad = list.clone();
    bad[27] = 0;
    let lists = [&bad[..], &list[..58], &[]];
    calls.extend(lists.map(|list| call("replay", board).bytes(list)));
    calls.push(call("replay", board).bytes(&bad).room(BOARD - 1));
    calls
}

// Lists of 200 moves and of 201, which is one too many whatever they are.
fn long_lists(draws: &mut Draws, board: &FreeCellBoard) -> Vec<Call> {
    let (_, steps) = played(draws, board.clone(), 201, [1, 0, 2, 3, 0, 0]);
    let list = codes::records(&steps);
    assert_eq!(list.len(), LIST + 5);
    [LIST, LIST + 5]
        .map(|length| call("replay", board).bytes(&list[..length]))
        .to_vec()
}

// A call of each of some functions that takes a board, with nothing wrong.
fn whole<'a>(
    board: &'a FreeCellBoard,
    functions: &'a [&'static str],
) -> impl Iterator<Item = Call> + 'a {
    let record = codes::record(moves_by_kind(board).iter().flatten().next().unwrap());
    let taking = |&&function: &&&str| !["read", "deal", "number", "capacity"].contains(&function);
    functions.iter().filter(taking).map(move |function| {
        let given: &[u8] = match *function {
            "move" | "priority" | "replay" => &record,
            "judge" => &[0, 0, 2, 6, 2, 4, 4],
            "top" | "cell" | "home" | "most" => &[0; 8],
            _ => &[],
        };
        call(function, board).bytes(given).kind(1)
    })
}

// Each with boards that are none: 12 in five ways, 13, 14, 15.
fn damaged(board: &FreeCellBoard, functions: &[&'static str]) -> Vec<Call> {
    let mut calls = Vec::new();
    for whole in whole(board, functions) {
        for given in [BOARD - 1, BOARD + 1] {
            calls.push(Call {
                given,
                ..whole.clone()
            });
        }
        calls.extend(broken::once(board).map(|put| whole.clone().puts(&[put])));
    }
    calls
}

// Images that are none: 10 to 15.
fn images(board: &FreeCellBoard) -> Vec<Call> {
    let image = codes::image(board);
    let changed = |place: usize, byte: u8| {
        let mut image = image.clone();
        image[place] = byte;
        image
    };
    let body = |bytes: &[u8]| codes::counted(bytes);
    let cell = 3 + board.free_cells.iter().position(Option::is_some).unwrap();
    let images = [
        vec![],
        vec![0],
        changed(1, 0),
        vec![0, 0],
        changed(2, 2),
        body(&image[2..10]),
        body(&image[2..image.len() - 1]),
        body(&[&image[2..], &[0]].concat()),
        changed(7, 14),
        changed(cell, 0),
        changed(cell, image[12]),
        changed(cell, EMPTY),
    ];
    images
        .iter()
        .map(|image| call("read", board).bytes(image))
        .collect()
}

// Decks, and what is none: 16, 13, 14.
fn decks(draws: &mut Draws, board: &FreeCellBoard) -> Vec<Call> {
    let deck: Vec<u8> = boards::shuffled(draws)
        .into_iter()
        .map(codes::code)
        .collect();
    let mut calls = in_rooms(call("deal", board).bytes(&deck));
    let (mut no_card, mut twice) = (deck.clone(), deck.clone());
    (no_card[9], twice[9]) = (0xe0, deck[10]);
    let more = [&deck[..], &deck[..1]].concat();
    for deck in [&deck[..51], &more, &no_card, &twice] {
        calls.push(call("deal", board).bytes(deck));
    }
    calls
}

fn capacities(board: &FreeCellBoard) -> Vec<Call> {
    let lengths = [
        [0, 0, 0, 0],
        [3, 1, 2, 2],
        [2, 1, 2, 2],
        [3, 0, 2, 2],
        [3, 1, 1, 2],
        [3, 1, 2, 1],
        [3 * 70_000, 80_000, 2 * 90_000, 2 * 60_000 + 1],
        [0xff_ffff; 4],
    ];
    let all = lengths.iter().flat_map(|lengths| {
        let bytes: Vec<u8> = lengths.iter().flat_map(|&n| number(n)).collect();
        [0, 1].map(|flag| call("capacity", board).bytes(&bytes).kind(flag))
    });
    all.collect()
}

// A number in three bytes.
fn number(n: usize) -> [u8; 3] {
    let [_, high, middle, low] = (n as u32).to_be_bytes();
    [high, middle, low]
}

// Hands by number, and numbers that are none: 41, before 21.
fn hands(board: &FreeCellBoard) -> Vec<Call> {
    let numbers = [
        1,
        617,
        MOST_NUMBER,
        0,
        MOST_NUMBER + 1,
        (1 << 31) + 617,
        (1 << 32) + 1,
        usize::MAX,
    ];
    let all = numbers.iter().flat_map(|number| {
        let hand = call("number", board).bytes(&number.to_be_bytes());
        [in_rooms(hand.clone()), vec![hand.room(0)]].concat()
    });
    all.collect()
}

// Answers, 23, and each refusal of settings before the next one.
fn judgings(boards: &[FreeCellBoard]) -> Vec<Call> {
    let ask = |board: &FreeCellBoard, budget: usize, partial: u8, scratch: [u8; 4]| {
        let bytes = [&number(budget)[..], &scratch].concat();
        call("judge", board).bytes(&bytes).kind(partial)
    };
    let (one, two, none) = ([3, 1, 2, 2], [8, 3, 4, 6], [2, 1, 2, 2]);
    let mut calls = Vec::new();
    for board in boards {
        for budget in [0, 1, 2] {
            for partial in [0, 1] {
                calls.extend([one, two].map(|scratch| ask(board, budget, partial, scratch)));
            }
        }
    }
    let s = &boards[0];
    calls.extend([
        ask(s, MOST_POPS, 0, two),
        ask(s, MOST_POPS + 1, 0, two),
        ask(s, MOST_POPS + 1, 0, none).room(LIST - 1),
        ask(s, 2, 1, two).room(LIST + 2),
        ask(s, 2, 1, none).room(LIST - 1),
    ]);
    for scratch in [none, [3, 0, 2, 2], [3, 1, 1, 2], [3, 1, 2, 1]] {
        calls.push(ask(s, 2, 255, scratch));
    }
    calls
}

// Moves whose numbers are known, in each function that tells them: one move; its priority; a list, behind a good move.
fn refused_moves() -> Vec<Call> {
    let mut calls = Vec::new();
    for example in worked::examples() {
        for &(_, record) in example.given {
            calls.push(call("move", &example.board).bytes(record));
            calls.push(call("priority", &example.board).bytes(record));
            if record.len() == 5 {
                let list = [&example.first, record].concat();
                calls.push(call("replay", &example.before).bytes(&list));
            }
        }
    }
    assert_numbers_met(&calls);
    calls
}

// Every number comes in each of the three for every kind that can be given it, and 30 for a column to itself; a list tells
// place 1 with it.
fn assert_numbers_met(calls: &[Call]) {
    let mut met = BTreeSet::new();
    for call in calls {
        let (numbers, _) = call.answer();
        let record = &call.bytes[if call.function == "replay" { 5 } else { 0 }..];
        let own_column = record[0] == 1 && record[1] == record[2];
        met.insert((call.function, record[0], own_column, numbers));
    }
    let given = worked::NUMBERS.iter().flat_map(|(number, kinds)| {
        let kinds = kinds.iter();
        kinds.map(move |&kind| (*number, kind, false))
    });
    for (number, kind, own_column) in given.chain([(30, 1, true)]) {
        for (function, told) in [("move", ""), ("priority", "-7 "), ("replay", "1 ")] {
            let wanted = (function, kind, own_column, format!("{number} {told}"));
            assert!(met.contains(&wanted), "no call has {wanted:?}");
        }
    }
}

// Boards whose suits have different numbers home; column i of board b is empty if bit b of i is set, so that any two columns differ in one.
fn patterned() -> Vec<FreeCellBoard> {
    let cells = ["KC - QD -", "- KC - QD", "QD - - KC"];
    let board = |b: usize| {
        let mut piles = ["TC KS", "JC JD", "QC KH", "KD QH"].into_iter();
        let columns = [0, 1, 2, 3, 4, 5, 6, 7].map(|i| match i >> b & 1 {
            0 => piles.next().expect("four columns"),
            _ => "",
        });
        worked::laid([9, 10, 11, 12], cells[b], columns)
    };
    (0..3).map(board).collect()
}

// What a table asks: every place, and some that are none (two of them end as a place does, for who looks at 8 or 32 bits only); whether it
// is won; the first safe move.
fn questions(board: &FreeCellBoard) -> Vec<Call> {
    let places = (0..=8).chain([256 + 3, (1 << 32) + 3, usize::MAX]);
    let at = |place: usize| {
        ["top", "cell", "home", "most"]
            .map(|function| call(function, board).bytes(&place.to_be_bytes()))
    };
    let mut calls: Vec<Call> = places.flat_map(at).collect();
    calls.push(call("won", board));
    calls.extend(in_rooms(call("safe", board)));
    calls
}

// What breaks two things or more at once, so that each function is asked every two neighbours of its order: 12 to 15 among
// themselves; 15 and all that the function itself refuses; and these among themselves, where no other row has it.
fn orders(board: &FreeCellBoard) -> Vec<Call> {
    let mut calls = Vec::new();
    for whole in whole(board, &NAMES) {
        calls.push(Call {
            given: BOARD - 1,
            ..whole.clone().puts(&[broken::no_card(board)])
        });
        calls.extend(broken::twice(board).map(|puts| whole.clone().puts(&puts)));
        calls.push(all_wrong(whole).puts(&[broken::missing(board)]));
    }
    calls.extend(images_in_order(board));
    calls.extend(decks_in_order(board));
    calls.extend(lists_in_order(board));
    calls.extend(moves_in_order());
    calls.extend(searches_in_order(board));
    calls
}

// A call with everything wrong but its board.
fn all_wrong(call: Call) -> Call {
    let none = (BOARD as u64).to_be_bytes();
    let over = [&number(MOST_POPS + 1)[..], &[2, 1, 2, 2]].concat();
    let bytes: &[u8] = match call.function {
        "move" | "priority" => &[7, 0, 0, 1, 16],
        "replay" => &[7, 0, 0, 1],
        "judge" => &over,
        "top" | "cell" | "home" | "most" => &none,
        _ => &[],
    };
    call.bytes(bytes).kind(7).room(0)
}

// Images: 10 before 11, 11 before 12, and so on; and each before 21.
fn images_in_order(board: &FreeCellBoard) -> Vec<Call> {
    let image = codes::image(board);
    let changed = |puts: &[Put]| {
        let mut image = image.clone();
        puts.iter().for_each(|&(place, byte)| image[place] = byte);
        image
    };
    let cut = |image: Vec<u8>| codes::counted(&image[2..image.len() - 1]);
    let held = board.free_cells.iter().position(Option::is_some).unwrap();
    let (cell, twice) = (3 + held, (13, codes::cell_code(board.free_cells[held])));
    let images = [
        (10, changed(&[(1, 0), (2, 2)])),
        (11, cut(changed(&[(2, 2)]))),
        (12, cut(changed(&[(cell, 0)]))),
        (12, changed(&[(7, 14), (cell, 0)])),
        (12, changed(&[(7, 14), twice])),
        (13, changed(&[(12, 0x14), twice])),
        (14, changed(&[twice])),
        (15, changed(&[(cell, EMPTY)])),
    ];
    let asked = images.iter().flat_map(|(number, image)| {
        assert_eq!(refusals::image(image).err(), Some(*number));
        [BOARD, BOARD - 1].map(|room| call("read", board).bytes(image).room(room))
    });
    asked.collect()
}

// Decks: 16 before 13, 13 before 14, each before 21.
fn decks_in_order(board: &FreeCellBoard) -> Vec<Call> {
    let deck: Vec<u8> = codes::pack().map(codes::code).collect();
    let with = |puts: &[Put], length: usize| {
        let mut deck = [&deck[..], &deck[..1]].concat();
        puts.iter().for_each(|&(place, code)| deck[place] = code);
        deck.truncate(length);
        deck
    };
    let (no_card, twice) = ((9, 0xe0), (10, deck[11]));
    let decks = [
        (16, with(&[no_card], 51)),
        (16, with(&[no_card, twice], 53)),
        (13, with(&[no_card, twice], 52)),
        (14, with(&[twice], 52)),
    ];
    let asked = decks.iter().flat_map(|(number, deck)| {
        assert_eq!(refusals::deal(deck).err(), Some(*number));
        [BOARD, BOARD - 1].map(|room| call("deal", board).bytes(deck).room(room))
    });
    asked.collect()
}

// Lists: 31 before 21, and before the first move is looked at; 21 before it too.
fn lists_in_order(board: &FreeCellBoard) -> Vec<Call> {
    let bad = [7, 0, 0, 1, 16];
    let asked = [
        (&bad[..4], BOARD - 1),
        (&bad[..4], BOARD),
        (&bad, BOARD - 1),
    ];
    let longer = [&bad[..], &[0]].concat();
    let over = bad.repeat(LIST / 5 + 1);
    let asked = asked
        .into_iter()
        .chain([(&longer[..], BOARD), (&over[..], BOARD - 1)]);
    asked
        .map(|(list, room)| call("replay", board).bytes(list).room(room))
        .collect()
}

// Every number of a move before 21.
fn moves_in_order() -> Vec<Call> {
    let mut calls = Vec::new();
    for example in worked::examples() {
        let short = |record: &[u8]| call("move", &example.board).bytes(record).room(BOARD - 1);
        calls.extend(example.given.iter().map(|&(_, record)| short(record)));
    }
    calls
}

// 20 before 21, before 22, and 21 before 22.
fn searches_in_order(board: &FreeCellBoard) -> Vec<Call> {
    let ask = |budget: usize, scratch: [u8; 4], room: usize| {
        let bytes = [&number(budget)[..], &scratch].concat();
        call("judge", board).bytes(&bytes).room(room)
    };
    let (some, none) = ([3, 1, 2, 2], [3, 0, 2, 2]);
    vec![
        ask(MOST_POPS + 1, some, LIST - 1),
        ask(MOST_POPS + 1, none, LIST),
        ask(MOST_POPS, none, LIST - 1),
    ]
}

// On some board any two columns, any two cells and any two suits are told apart, and each is met with a card and without one.
fn assert_places_apart(boards: &[FreeCellBoard]) {
    let of = |ask: &dyn Fn(&[u8], usize) -> Asked<usize>, places: usize| {
        let told = |board: &FreeCellBoard| -> Vec<usize> {
            let bytes = codes::bytes(board);
            (0..places)
                .map(|place| ask(&bytes, place).unwrap())
                .collect()
        };
        let all: Vec<Vec<usize>> = boards.iter().map(told).collect();
        for i in 0..places {
            assert!((0..i).all(|j| all.iter().any(|told| told[i] != told[j])));
        }
        all.concat()
    };
    let tops = of(
        &|board, place| answers::top(board, place).map(usize::from),
        8,
    );
    let cells = of(
        &|board, place| answers::cell(board, place).map(usize::from),
        4,
    );
    of(&answers::home, 4);
    of(&answers::most, 8);
    let empty = usize::from(EMPTY);
    for (told, places) in [(tops, 8), (cells, 4)] {
        for place in 0..places {
            let met: Vec<bool> = told
                .iter()
                .skip(place)
                .step_by(places)
                .map(|&n| n == empty)
                .collect();
            assert!(
                met.contains(&true) && met.contains(&false),
                "place {place} of {places}"
            );
        }
    }
}

// Any two features differ on some board.
fn assert_features_apart(boards: &[FreeCellBoard]) {
    let all: Vec<[u64; 7]> = boards.iter().map(solver::features).collect();
    for i in 0..FEATURES {
        for j in 0..i {
            assert!(all.iter().any(|features| features[i] != features[j]));
        }
    }
}

fn all_calls(run: &Run) -> Vec<Call> {
    let mut draws = run.draws(7, 0);
    let boards = on_boards(&mut draws);
    assert_features_apart(&boards);
    let mut calls: Vec<Call> = boards.iter().flat_map(plain).collect();
    for board in &boards[3..] {
        calls.extend(moved(board));
        calls.extend(replayed(&mut draws, board));
    }
    calls.extend(long_lists(&mut draws, &boards[3]));
    calls.extend(damaged(&boards[4], &NAMES[..16]));
    calls.extend(images(&boards[4]));
    calls.extend(decks(&mut draws, &boards[0]));
    calls.extend(capacities(&boards[0]));
    calls.extend(judgings(&boards));
    calls.extend(hands(&boards[0]));
    calls.extend(refused_moves());
    // no card in a column, and not won
    let held = worked::laid([13, 13, 13, 12], "- - KS -", [""; 8]);
    let asked = [&boards[..], &patterned(), &[held]].concat();
    assert_places_apart(&asked);
    calls.extend(asked.iter().flat_map(questions));
    calls.extend(damaged(&boards[4], &NAMES[16..]));
    calls.extend(orders(&boards[4]));
    calls
}

pub fn write(run: &Run) -> std::io::Result<()> {
    let calls = all_calls(run);
    let mut met: BTreeMap<&str, BTreeMap<String, usize>> = BTreeMap::new();
    let mut sheet = Sheet::default();
    for call in &calls {
        let line = call.line();
        let number = line.split(' ').nth(1).unwrap().to_string();
        *met.entry(call.function)
            .or_default()
            .entry(number)
            .or_default() += 1;
        sheet.input.extend(call.input());
        sheet.output += &line;
    }
    println!("  {} calls", calls.len());
    for (function, numbers) in met {
        println!("  {function}: {numbers:?}");
    }
    sheet.write_in_c("oracle_calls")
}
