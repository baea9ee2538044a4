// How fast the two judge, or, built to count that (the feature `memory`), what memory they take: the same deals and budgets, one after the
// other in one thread. bench/run.sh builds both ways and calls them; usage.txt says with which words.
mod clock;
#[path = "../../compare/src/codes.rs"]
#[allow(dead_code)]
mod codes;
#[path = "../../compare/src/draws.rs"]
#[allow(dead_code)]
mod draws;
#[path = "../../compare/src/gauge.rs"]
mod gauge;
#[path = "../../compare/src/given.rs"]
mod given;
#[cfg(feature = "memory")]
mod heap;
#[path = "../../compare/src/lent.rs"]
#[allow(dead_code)]
mod lent;
#[path = "../../compare/src/numbers.rs"]
#[allow(dead_code)]
mod numbers;
#[path = "../../compare/src/original.rs"]
mod original;
#[path = "../../compare/src/ours.rs"]
#[allow(dead_code)]
mod ours;
mod plain;
#[path = "../../compare/src/progress.rs"]
mod progress;
#[path = "../../compare/src/refusals.rs"]
#[allow(dead_code)]
mod refusals;
#[path = "../../compare/src/words.rs"]
#[allow(dead_code)]
mod words;

use draws::Draws;
use lent::{Room, Scratch};
use original::common;
use original::freecell::board::FreeCellBoard;
use original::freecell::solver::{self, Judged};
use refusals::{LIST, MOST_NUMBER, MOST_POPS};
use std::hint::black_box;

const USAGE: &str = include_str!("../usage.txt");

// The board of a deal that players know by number, as the library hands it back.
fn board_of(number: usize) -> FreeCellBoard {
    let mut board = [0; codes::BOARD];
    assert_eq!(ours::number(number, &mut board), 0);
    refusals::board(&board).expect("a board")
}

// One board judged by both: seconds, and bytes if they are counted.
struct Both {
    number: u8,
    pops: usize,
    nodes: usize,
    ours: f64,
    theirs: f64,
    our_bytes: usize,
    their_bytes: usize,
}

impl Both {
    fn ratio(&self) -> f64 {
        self.theirs / self.ours
    }
}

fn bytes_for(nodes: usize) -> usize {
    let words = 3 * nodes * size_of::<u32>();
    let longs = (nodes + 2 * nodes) * size_of::<u64>();
    words + longs + 2 * nodes
}

// A quick search is run again and again, as often by both, so that its time can be told.
fn rounds(pops: usize) -> usize {
    (20_000 / pops.max(1)).clamp(1, 50)
}

// The seconds of the original's search, so often.
fn their_seconds(board: &FreeCellBoard, budget: usize, rounds: usize) -> f64 {
    let board = plain::board(board);
    let start = clock::seconds();
    for _ in 0..rounds {
        black_box(plain::bench_theirs(black_box(&board), budget));
    }
    clock::seconds() - start
}

// The most bytes that the original's search had out at once; nothing is counted in the build that measures time.
#[cfg(feature = "memory")]
fn their_bytes(board: &FreeCellBoard, budget: usize) -> usize {
    let board = plain::board(board);
    heap::most_in(|| black_box(plain::bench_theirs(&board, budget))).1
}

#[cfg(not(feature = "memory"))]
fn their_bytes(_: &FreeCellBoard, _: usize) -> usize {
    0
}

// Our judge; callgrind knows it by its name (instructions.sh).
#[no_mangle]
#[inline(never)]
fn bench_ours(board: &[u8], budget: usize, scratch: &mut Scratch, list: &mut [u8]) -> (u8, usize) {
    let (mut pops, mut moves) = (0, 0);
    let number = ours::judge(board, budget, 0, scratch, list, &mut pops, &mut moves);
    (number, pops)
}

// Our judge's answer, pops and seconds, in scratch for so many nodes that is full of rubbish.
fn our_judge(board: &FreeCellBoard, budget: usize, nodes: usize) -> (u8, usize, f64) {
    let mut draws = Draws::new(0, 0, 0);
    let mut scratch = Scratch::new(&mut draws, [3 * nodes, nodes, 2 * nodes, 2 * nodes]);
    let mut list = Room::new(&mut draws, LIST);
    let bytes = codes::bytes(board);
    let start = clock::seconds();
    let (number, pops) = bench_ours(&bytes, budget, &mut scratch, list.lent());
    (number, pops, clock::seconds() - start)
}

// The seconds of a search of each.
fn seconds(board: &FreeCellBoard, budget: usize, judged: &Judged) -> (f64, f64) {
    let rounds = rounds(judged.pops);
    let theirs = their_seconds(board, budget, rounds);
    let mut ours = 0.0;
    for _ in 0..rounds {
        let (number, pops, seconds) = our_judge(board, budget, judged.births.max(1));
        assert_eq!((number, pops), (judged.number, judged.pops));
        ours += seconds;
    }
    (ours / rounds as f64, theirs / rounds as f64)
}

// What comes is asked of the original that is counted, which is not timed.
fn both(board: &FreeCellBoard, budget: usize) -> Both {
    let judged = solver::judge(board, budget, usize::MAX, false);
    let nodes = judged.births.max(1);
    let (ours, theirs) = if MEMORY {
        (0.0, 0.0)
    } else {
        seconds(board, budget, &judged)
    };
    Both {
        number: judged.number,
        pops: judged.pops,
        nodes,
        ours,
        theirs,
        our_bytes: bytes_for(nodes),
        their_bytes: their_bytes(board, budget),
    }
}

fn rate(pops: usize, seconds: f64) -> f64 {
    pops as f64 / seconds
}

const MEMORY: bool = cfg!(feature = "memory");

fn print_line(deal: usize, b: &Both) {
    print!("{deal:5} {:6} {:7} {:8} ", b.number, b.pops, b.nodes);
    if MEMORY {
        let (ours, theirs) = (b.our_bytes as f64 / 1e6, b.their_bytes as f64 / 1e6);
        println!("{ours:9.1} {theirs:9.1}");
    } else {
        let (ours, theirs) = (rate(b.pops, b.ours), rate(b.pops, b.theirs));
        println!("{ours:10.0} {theirs:10.0} {:6.2}", b.ratio());
    }
}

fn heading() {
    let of_each = if MEMORY {
        "  ours MB   orig MB"
    } else {
        "ours pop/s orig pop/s  ratio"
    };
    println!(" deal answer    pops    nodes {of_each}");
}

fn summary(all: &[Both]) {
    let sum = |part: fn(&Both) -> f64| all.iter().map(part).sum::<f64>();
    let (pops, nodes) = (sum(|b| b.pops as f64), sum(|b| b.nodes as f64));
    if MEMORY {
        println!(
            "bytes a node: ours {:.0}, the original {:.0}",
            sum(|b| b.our_bytes as f64) / nodes,
            sum(|b| b.their_bytes as f64) / nodes
        );
        return;
    }
    spread("all", all.iter());
    spread("at the limit", all.iter().filter(|b| b.number == 3));
    let (ours, theirs) = (sum(|b| b.ours), sum(|b| b.theirs));
    println!(
        "together: ours {:.0} pops/s, the original {:.0} pops/s, ratio {:.2}",
        pops / ours,
        pops / theirs,
        theirs / ours
    );
}

fn spread<'a>(which: &str, some: impl Iterator<Item = &'a Both>) {
    let mut ratios: Vec<f64> = some.map(Both::ratio).collect();
    ratios.sort_by(f64::total_cmp);
    if let (Some(least), Some(most)) = (ratios.first(), ratios.last()) {
        let (deals, median) = (ratios.len(), ratios[ratios.len() / 2]);
        println!("{which}, {deals} deals: median {median:.2}, least {least:.2}, most {most:.2}");
    }
}

// What clearing alone takes: a won board, in 512 MB.
fn clearing() {
    let won = FreeCellBoard::new(
        [None; 4],
        common::card::Suit::ALL.map(|suit| codes::pile(suit, 13)),
        Default::default(),
    );
    let nodes = (512 << 20) / bytes_for(1);
    let (_, _, seconds) = our_judge(&won, 0, nodes);
    println!("clearing alone, scratch for {nodes} nodes (512 MB): {seconds:.3} s");
}

// Both on each deal, and then on some that end at the limit, with more pops.
fn measure([first, last, budget, long]: [usize; 4]) {
    let mut again = Vec::new();
    let all = progress::told("deals", last - first + 1, |progress| {
        let judge = |deal: usize| {
            let board = board_of(deal);
            let came = both(&board, budget);
            print_line(deal, &came);
            if came.number == 3 && again.len() < long {
                again.push((deal, board));
            }
            progress.one_done();
            came
        };
        (first..=last).map(judge).collect::<Vec<Both>>()
    });
    summary(&all);
    println!("at {MOST_POPS} pops");
    heading();
    let all = progress::told("long", again.len(), |progress| {
        let judge = |(deal, board): &(usize, FreeCellBoard)| {
            let came = both(board, MOST_POPS);
            print_line(*deal, &came);
            progress.one_done();
            came
        };
        again.iter().map(judge).collect::<Vec<Both>>()
    });
    if !all.is_empty() {
        summary(&all);
    }
}

// One search of each, for callgrind, which counts the one that it is told.
fn once(deal: usize, budget: usize) {
    let board = board_of(deal);
    let judged = solver::judge(&board, budget, usize::MAX, false);
    our_judge(&board, budget, judged.births.max(1));
    their_seconds(&board, budget, 1);
}

fn main() {
    let names = [("first", 1), ("last", 60), ("budget", 100_000), ("long", 5)];
    let words = words::asked(USAGE, &[], &[&names[..], &[("once", 0)]].concat());
    let numbers @ [first, last, budget, _] = names.map(|(name, _)| words.number(name));
    if first == 0 || first > last || last > MOST_NUMBER || budget > MOST_POPS {
        words::wrong(
            USAGE,
            "first is at least 1 and at most last, last at most 32000, budget at most 1000000",
        );
    }
    if words.number("once") == 1 {
        return once(first, budget);
    }
    let what = if MEMORY { "memory" } else { "time" };
    println!("{what}: deals {first} to {last}, budget {budget}, no partial");
    heading();
    measure(numbers);
    if !MEMORY {
        clearing();
    }
}
