// Texts and lists on boards with their answers written out, so that papers.rs itself is held to something; and two lists of the
// judge, as players would write them.
use crate::codes::{self, records};
use crate::original::freecell::board::FreeCellBoard;
use crate::original::freecell::solver;
use crate::papers::{self, Paper, TEXT};
use crate::refusals::{self, LIST};
use crate::worked::{self, laid};
use std::sync::LazyLock;

// What comes: records, a number with a place, a number alone.
#[derive(Clone, Copy)]
enum Came {
    Read(&'static [[u8; 5]]),
    At(u8, usize),
    Alone(u8),
}
use Came::*;

impl Came {
    fn paper(self) -> Paper {
        match self {
            Read(list) => Ok((list.concat(), list.len())),
            At(number, place) => Err((number, Some(place))),
            Alone(number) => Err((number, None)),
        }
    }
}

// A text, what it gives on S, and on M.
const ON_S_AND_M: [(&str, Came, Came); 21] = [
    ("12", Read(&[[1, 0, 1, 1, 211]]), Read(&[[1, 0, 1, 3, 179]])),
    ("12v1", At(30, 0), Read(&[[1, 0, 1, 1, 147]])),
    ("12v2", At(30, 0), Read(&[[1, 0, 1, 2, 162]])),
    // not below the most
    ("12v3", At(30, 0), At(30, 0)),
    ("12vf", At(30, 0), At(30, 0)),
    ("12v0", At(30, 0), At(30, 0)),
    ("11", At(30, 0), At(30, 0)),
    // before 33
    ("22", At(30, 0), At(30, 0)),
    ("21", At(33, 0), At(33, 0)),
    // before its count is looked at
    ("21v1", At(33, 0), At(33, 0)),
    ("2h", At(33, 0), At(33, 0)),
    ("ah", At(33, 0), Read(&[[5, 0, 2, 1, 146]])),
    ("a1", At(33, 0), At(38, 0)),
    ("1a", Read(&[[3, 0, 0, 1, 211]]), At(39, 0)),
    ("1h", Read(&[[2, 0, 3, 1, 211]]), Read(&[[2, 0, 3, 1, 147]])),
    ("13", Read(&[[1, 0, 2, 1, 211]]), At(38, 0)),
    // a count on an occupied column is before 38
    ("13v1", At(30, 0), At(30, 0)),
    ("6h", At(33, 0), At(40, 0)),
    ("12v1 12", At(30, 0), At(38, 1)),
    (
        "12v1 21",
        At(30, 0),
        Read(&[[1, 0, 1, 1, 147], [1, 1, 0, 1, 147]]),
    ),
    ("1c 1c", At(33, 1), At(39, 1)),
];

// On F, where nothing is empty: two cards would fit column 1, and one may go.
const ON_F: [(&str, Came); 5] = [
    ("12", At(36, 0)),
    ("13", At(38, 0)),
    ("a2", At(38, 0)),
    ("1a", At(39, 0)),
    ("12v1", At(30, 0)),
];

// On R, a run of thirteen and room for it: counts of two digits.
const ON_R: [(&str, Came); 7] = [
    ("12", Read(&[[1, 0, 1, 13, 211]])),
    ("12vc", Read(&[[1, 0, 1, 12, 194]])),
    ("12vb", Read(&[[1, 0, 1, 11, 179]])),
    ("12va", Read(&[[1, 0, 1, 10, 162]])),
    ("12v9", Read(&[[1, 0, 1, 9, 147]])),
    // not below the most
    ("12vd", At(30, 0)),
    ("12vf", At(30, 0)),
];

// On any board: 42, with the place of the first wrong character.
const WRONG: [(&str, usize); 36] = [
    ("1", 1),
    ("12 ", 3),
    (" 12", 0),
    ("12  13", 3),
    ("1213", 2),
    ("12,13", 2),
    ("12\n", 2),
    ("12\t13", 2),
    ("12\r\n", 2),
    ("12\0", 2),
    ("12v", 3),
    ("12vg", 3),
    ("12vA", 3),
    ("12V3", 2),
    ("12v33", 4),
    ("12v3 ", 5),
    ("1av1", 2),
    ("a1v1", 2),
    ("1hv1", 2),
    ("ahv1", 2),
    ("h1", 0),
    ("hh", 0),
    ("9", 0),
    ("0", 0),
    ("e1", 0),
    ("A1", 0),
    ("v", 0),
    (" ", 0),
    ("ab", 1),
    ("aa", 1),
    ("19", 1),
    ("1e", 1),
    ("1 2", 1),
    ("1A", 1),
    ("15 x1", 3),
    ("31 x", 3),
];

// Lists on S: 43, with the place of the first such move; the number of a bad move behind one that cannot be written.
const LISTS: [(&[u8], Came); 7] = [
    (&[], Read(&[])),
    (&[6, 3, 1, 1, 195], At(43, 0)),
    (&[6, 3, 1, 1, 195, 6, 0, 2, 1, 208], At(43, 0)),
    (&[2, 0, 3, 1, 211, 6, 3, 1, 1, 211], At(43, 1)),
    (&[6, 3, 1, 1, 195, 1, 2, 3, 1, 16], At(33, 1)),
    (&[2, 0, 3, 1, 211, 2, 0, 3, 1], Alone(31)),
    (&[2, 0, 3, 1, 210], At(30, 0)),
];

fn f() -> FreeCellBoard {
    let columns = [
        "QC TH 9S",
        "JC",
        "QD",
        "QH",
        "QS",
        "JD JH",
        "JS TC TD TS",
        "9C 9D 9H",
    ];
    laid([8; 4], "KC KD KH KS", columns)
}

fn r() -> FreeCellBoard {
    let spade = "KS QH JS TH 9S 8H 7S 6H 5S 4H 3S 2H AS";
    let heart = "KH QS JH TS 9H 8S 7H 6S 5H 4S 3H 2S AH";
    let columns = [spade, "", heart, "", "", "", "", ""];
    laid([13, 13, 0, 0], "- - - -", columns)
}

type Asked = (FreeCellBoard, Vec<u8>);

// The king of S to and fro, this many moves.
fn to_and_fro(moves: usize) -> Vec<u8> {
    let words: Vec<&[u8]> = [&b"1a"[..], b"a1"]
        .into_iter()
        .cycle()
        .take(moves)
        .collect();
    words.join(&b' ')
}

// On S: 200 moves, and what comes of more; 42 is before 31, 31 before any move is looked at.
fn long() -> Vec<(Vec<u8>, Paper)> {
    let with = |moves: usize, more: &str| [&to_and_fro(moves), more.as_bytes()].concat();
    let all: Vec<u8> = [[3, 0, 0, 1, 211], [4, 0, 0, 1, 211]].concat().repeat(100);
    let first_bad = [b"21 ", &to_and_fro(201)[..]].concat();
    vec![
        (with(200, ""), Ok((all, 200))),
        (with(201, ""), Alone(31).paper()),
        (with(201, " x"), At(42, 603).paper()),
        (with(200, " x"), At(42, 600).paper()),
        (with(200, " "), At(42, 600).paper()),
        (with(200, " 1"), At(42, 601).paper()),
        (with(200, " 11"), Alone(31).paper()),
        (with(200, " 2h"), Alone(31).paper()),
        (with(200, " 12v0"), Alone(31).paper()),
        (with(200, " 12v"), At(42, 603).paper()),
        (with(199, " 2h"), At(33, 199).paper()),
        (first_bad, Alone(31).paper()),
        // over the bytes of 200 moves too
        (with(400, "x"), At(42, 1_199).paper()),
        (with(400, ""), Alone(31).paper()),
    ]
}

// Texts so long that their places and moves take more than two bytes.
pub fn longest() -> [Vec<u8>; 2] {
    let text = to_and_fro(100_000);
    let wrong = [&text[..], b" x"].concat();
    let read = |text: &[u8]| papers::read(&codes::bytes(&worked::s()), text, LIST);
    assert_eq!(read(&text), Alone(31).paper());
    assert_eq!(read(&wrong), At(42, 300_000).paper());
    [text, wrong]
}

// Every text, each with its board. They all give what is written out, or this ends here.
pub fn texts() -> Vec<Asked> {
    let (s, m, f, r) = (worked::s(), worked::m(), f(), r());
    let mut all: Vec<(&FreeCellBoard, Vec<u8>, Paper)> = Vec::new();
    for (text, on_s, on_m) in ON_S_AND_M {
        all.push((&s, text.into(), on_s.paper()));
        all.push((&m, text.into(), on_m.paper()));
    }
    all.extend(ON_F.map(|(text, came)| (&f, text.into(), came.paper())));
    all.extend(ON_R.map(|(text, came)| (&r, text.into(), came.paper())));
    for board in [&s, &m, &f] {
        all.push((board, Vec::new(), Read(&[]).paper()));
        all.extend(WRONG.map(|(text, place)| (board, text.into(), At(42, place).paper())));
    }
    all.extend(long().into_iter().map(|(text, came)| (&s, text, came)));
    let checked = |(board, text, came): (&FreeCellBoard, Vec<u8>, Paper)| {
        let read = papers::read(&codes::bytes(board), &text, LIST);
        assert_eq!(read, came, "{}", text.escape_ascii());
        (board.clone(), text)
    };
    all.into_iter().map(checked).collect()
}

// Every list, each with its board; and lists of 200 moves and 201.
pub fn lists() -> Vec<Asked> {
    let s = worked::s();
    let bytes = codes::bytes(&s);
    for (list, came) in LISTS {
        assert_eq!(papers::write(&bytes, list, 999), came.paper(), "{list:?}");
    }
    assert_eq!(papers::write(&bytes, &[], 998), Alone(21).paper());
    assert_eq!(papers::read(&bytes, &[], 999), Alone(21).paper());
    assert_eq!(papers::read(&bytes, &[], 1_000), Read(&[]).paper());
    let mut all: Vec<Asked> = LISTS.map(|(list, _)| (s.clone(), list.to_vec())).to_vec();
    let (most, _) = long().remove(0).1.expect("200 moves");
    let text = Ok((to_and_fro(200), 599));
    assert_eq!(papers::write(&bytes, &most, TEXT), text);
    let more = [&most, &most[..5]].concat();
    assert_eq!(papers::write(&bytes, &more, TEXT), Alone(31).paper());
    all.extend([(s.clone(), most), (s.clone(), more)]);
    all
}

// The judge's lists of hands 8 and 11 at budget 1,000, and their texts.
const JUDGED: [(usize, usize); 2] = [(8, 98), (11, 99)];
const OF_8: &str = "6a 5h 6h 8h 8h 2b 2h 3c 3d 51 35 c5 35 32 3c 62 64 a7 15 8a 85 82 8h ah 78 7h 27 28 67 d7 65 26 2a \
    2h 3h 5h 5h ch 7h a3 78 41 24 b2 62 51 12 56 56 5h 8h 2a 15 61 a6 15 13 15 1h 4h 6h 2h 42 4h 2h 8h 5h 83 71 76 7h 2h 3h \
    4h 1h 2h 3h 4h 5h 2h 3h 5h 2h 3h 5h 5h 4h 4h 2h 3h 2h 3h 5h 2h 6h 3h 5h 7h";

fn judged() -> Vec<Asked> {
    let list = |(number, moves)| {
        let board = refusals::number(number).expect("a hand");
        let judged = solver::judge(&board, 1_000, usize::MAX, false);
        assert_eq!((judged.number, judged.list.len()), (0, moves));
        (board, records(&judged.list))
    };
    JUDGED.map(list).to_vec()
}

// Texts that can be played, each with its board: those of the judge's lists, and short ones with counts.
pub fn lines() -> &'static [Asked] {
    static LINES: LazyLock<Vec<Asked>> = LazyLock::new(|| {
        let text = |(board, list): Asked| {
            let (text, _) = papers::write(&codes::bytes(&board), &list, TEXT).expect("a text");
            (board, text)
        };
        let mut lines: Vec<Asked> = judged().into_iter().map(text).collect();
        assert_eq!(lines[0].1, OF_8.as_bytes());
        assert_eq!(lines[1].1.len(), 298);
        assert_eq!(lines[1].1.split(|&c| c == b' ').nth(60), Some(&b"65v1"[..]));
        lines.push((worked::m(), b"12v1 21 ah 12v2 21 1h".to_vec()));
        lines.push((worked::s(), b"1a a2 28 8d d1 1h".to_vec()));
        lines
    });
    &LINES
}
