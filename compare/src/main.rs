// Compares our library with the original Rust on seeded random boards and damaged inputs, and stops at the first difference,
// with the smallest board that shows it. compare/run.sh builds both and calls this; usage.txt says with which words.
mod answers;
mod asks;
mod boards;
mod broken;
mod calls;
mod codes;
mod damage;
mod deep;
mod draws;
mod figures;
mod gauge;
mod given;
mod jotted;
mod judging;
mod lent;
mod listings;
mod numbers;
mod oracle_boards;
mod oracle_moves;
mod oracle_papers;
mod oracle_scores;
mod oracle_season;
mod oracle_signatures;
mod original;
mod ours;
mod papers;
mod plain;
mod players;
mod progress;
mod records;
mod refusals;
mod run;
mod sample;
mod seasons;
mod sheet;
mod shrink;
mod slips;
mod sums;
mod tasks;
mod texts;
mod turned;
mod words;
mod work;
mod worked;

// The original says `crate::common`.
use original::common;
use run::Run;
use tasks::done;

const USAGE: &str = include_str!("../usage.txt");

// What is compared if nothing is selected, each work with the number of its tasks; a task of judge and of long is a board with
// both flags at each budget. The tasks of deep are the 16 boards of deep-boards.txt, and then climbs. A task of numbers is a
// hand's number, one of records a board with some forty thousand records, one of papers a list and damaged ones, one of seasons a
// run of deals, one of sums two sheets.
const COMPARED: [(&str, usize); 11] = [
    ("boards", 100_000),
    ("records", 200),
    ("judge", 2_000),
    ("long", 20),
    ("room", 500),
    ("deep", 20),
    ("numbers", 32_000),
    ("papers", 100_000),
    ("seasons", 700),
    ("sums", 100_000),
    ("damage", 100_000),
];
// What is compared only if it is selected: with solutions of another program, so many hands of them.
const OTHERS: [(&str, usize); 1] = [("players", 150)];
// What writes the gate's samples.
const WRITTEN: [(&str, usize); 6] = [
    ("sample", 40),
    ("calls", 1),
    ("lines", 1),
    ("figures", 1),
    ("oracles", 5),
    ("listings", 1),
];

fn main() {
    let cores = std::thread::available_parallelism().map_or(1, |n| n.get());
    let others = [
        ("seed", 2026),
        ("first", 0),
        ("threads", cores),
        ("steps", 40),
    ];
    let mut words = words::asked(USAGE, &[&COMPARED[..], &OTHERS, &WRITTEN].concat(), &others);
    if words.works.is_empty() {
        words.works.extend(COMPARED.map(|(name, _)| name));
    }
    let run = Run {
        seed: words.number("seed") as u64,
        threads: words.number("threads"),
        first: words.number("first"),
        steps: words.number("steps"),
    };
    if run.threads == 0 {
        words::wrong(USAGE, "threads is at least 1");
    }
    println!("seed {}, {} threads", run.seed, run.threads);
    for &name in &words.works {
        if let Err(report) = done(&run, name, words.number(name)) {
            println!("{report}");
            std::process::exit(1);
        }
    }
}
