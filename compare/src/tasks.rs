// One task of each work, and what it reports of a difference.
use crate::answers::Season;
use crate::asks::{self, Difference};
use crate::codes::BOARD;
use crate::draws::Draws;
use crate::original::freecell::board::FreeCellBoard;
use crate::original::freecell::solver;
use crate::progress;
use crate::run::Run;
use crate::sums::Pair;
use crate::work::{self, Report, Tally};
use crate::{
    boards, calls, codes, damage, deep, judging, plain, players, records, refusals, sample,
    seasons, shrink, slips, sums,
};
use crate::{
    listings, oracle_boards, oracle_moves, oracle_papers, oracle_scores, oracle_season,
    oracle_signatures, texts,
};

fn reported(board: &FreeCellBoard, found: &Difference, asked: &str) -> Report {
    let Difference { what, ours, theirs } = found;
    let board = codes::drawn(board);
    format!("{what}{asked}\n  ours   {ours}\n  theirs {theirs}\nthe smallest board found\n{board}")
}

// The same where there is no board to report.
fn without_board(found: Difference) -> Report {
    let Difference { what, ours, theirs } = found;
    format!("{what}\n  ours   {ours}\n  theirs {theirs}")
}

// Everything but judge.
fn on_board(run: &Run, task: usize, tally: &mut Tally) -> Result<(), Report> {
    let mut draws = run.draws(0, task);
    let board = boards::board(&mut draws, task);
    let seed = draws.word();
    let differs = |board: &FreeCellBoard| plain::compare(&mut Draws::new(seed, 0, 0), board).err();
    tally.count("boards", boards::KINDS[task % 4], 1);
    let has_safe = solver::first_safe(&board).is_some();
    tally.count("of them", "with a safe move:", has_safe as usize);
    tally.count("of them", "won:", solver::is_win(&board) as usize);
    match differs(&board) {
        None => Ok(()),
        Some(found) => {
            let (board, found) = shrink::smallest(board, found, differs);
            Err(reported(&board, &found, ""))
        }
    }
}

// Every record on a board, and some of them in lists.
fn on_records(run: &Run, task: usize, tally: &mut Tally) -> Result<(), Report> {
    let mut draws = run.draws(9, task);
    let board = records::board(&mut draws, task);
    let seed = draws.word();
    let compare = |board: &FreeCellBoard| records::compare(&mut Draws::new(seed, 0, 0), board);
    match compare(&board) {
        Ok(counts) => {
            for ((line, number), times) in counts {
                tally.count(line, format!("{number}:"), times);
            }
            Ok(())
        }
        Err(found) => {
            let (board, found) = shrink::smallest(board, found, |board| compare(board).err());
            Err(reported(&board, &found, ""))
        }
    }
}

// A judging that differs, at the smallest budget and then on the smallest board that shows it, and again while that helps.
fn judging_report(
    board: FreeCellBoard,
    found: Difference,
    (budget, partial): (usize, bool),
    differs: impl Fn(&FreeCellBoard, usize) -> Option<Difference>,
) -> Report {
    let (mut board, mut found, mut budget) = (board, found, budget);
    loop {
        let least = shrink::least(budget, |budget| differs(&board, budget).is_some());
        found = differs(&board, least).unwrap_or(found);
        (board, found) = shrink::smallest(board, found, |board| differs(board, least));
        if least == budget {
            return reported(
                &board,
                &found,
                &format!(", budget {budget}, partial {partial}"),
            );
        }
        budget = least;
    }
}

// Judge, on one board at each budget with both flags.
fn on_judge(
    run: &Run,
    work: usize,
    task: usize,
    budgets: &[usize],
    tally: &mut Tally,
) -> Result<(), Report> {
    let mut draws = run.draws(work, task);
    let board = boards::board(&mut draws, task);
    let seed = draws.word();
    for &budget in budgets {
        for partial in [false, true] {
            let compare = |board: &FreeCellBoard, budget| {
                judging::compare(&mut Draws::new(seed, 0, 0), board, (budget, partial))
            };
            match compare(&board, budget) {
                Ok(theirs) => {
                    let answer = format!("answer {}:", theirs.number);
                    tally.count(format!("budget {budget:7}"), answer, 1);
                    tally.count("all", "pops", theirs.pops);
                    tally.count("all", "nodes", theirs.births);
                }
                Err(found) => {
                    let differs = |board: &FreeCellBoard, budget| compare(board, budget).err();
                    return Err(judging_report(board, found, (budget, partial), differs));
                }
            }
        }
    }
    Ok(())
}

// 23 one node below the need, none at the need; boards are drawn until one needs more than its root.
fn on_room(run: &Run, task: usize, tally: &mut Tally) -> Result<(), Report> {
    let mut draws = run.draws(3, task);
    loop {
        let board = boards::board(&mut draws, task);
        let seed = draws.word();
        let asked = (
            draws.one_of(&[1, 2, 10, 100, 1_000, 5_000]),
            draws.once_in(2),
        );
        let compare = |board: &FreeCellBoard, budget| {
            judging::at_the_need(&mut Draws::new(seed, 0, 0), board, (budget, asked.1))
        };
        match compare(&board, asked.0) {
            Ok(None) => tally.count("boards", "passed over, the root alone is needed:", 1),
            Ok(Some(need)) => {
                tally.count("boards", "23 one below the need, none at it:", 1);
                tally.count("nodes", "needed", need);
                return Ok(());
            }
            Err(found) => {
                let differs = |board: &FreeCellBoard, budget| compare(board, budget).err();
                return Err(judging_report(board, found, asked, differs));
            }
        }
    }
}

// Judge on a board that goes deep, at the budgets that tell the limit of depth and far beyond them, at the need and below it.
// What a climb found is said if it tells.
fn on_deep(run: &Run, task: usize, tally: &mut Tally) -> Result<(), Report> {
    let mut draws = run.draws(6, task);
    let board = deep::board(&mut draws, task, run.steps);
    let seed = draws.word();
    let mut budgets = vec![deep::BUDGET];
    for other in deep::OTHERS {
        let Some((budget, _)) = deep::tells(&board, other) else {
            continue;
        };
        budgets.push(budget);
        tally.count("boards", format!("that tell the limit from {other}:"), 1);
        if task >= deep::known().len() {
            let image = codes::hex(&codes::image(&board));
            tally.count(format!("found {image}"), format!("tells from {other}:"), 1);
        }
    }
    for budget in budgets {
        for partial in [false, true] {
            let differs = |board: &FreeCellBoard, budget| {
                judging::at_the_need(&mut Draws::new(seed, 0, 0), board, (budget, partial)).err()
            };
            if let Some(found) = differs(&board, budget) {
                return Err(judging_report(board, found, (budget, partial), differs));
            }
        }
    }
    Ok(())
}

// The hands of all numbers in turn, and with each a number that is none, or its own with too little room.
fn on_number(run: &Run, task: usize, tally: &mut Tally) -> Result<(), Report> {
    let mut draws = run.draws(8, task);
    let number = task + 1;
    let enough = plain::enough(&mut draws, BOARD);
    let little = draws.one_of(&[BOARD - 1, 0]);
    let refused = if draws.once_in(4) {
        (number, little)
    } else {
        let length = draws.one_of(&[enough, little]);
        (damage::no_number(&mut draws, number), length)
    };
    for (number, length) in [(number, enough), refused] {
        let came = asks::number(&mut draws, number, length).map_err(without_board)?;
        tally.count("number", format!("{came}:"), 1);
    }
    Ok(())
}

// A list written and read back, and lists and texts that are damaged.
fn on_paper(run: &Run, task: usize, tally: &mut Tally) -> Result<(), Report> {
    let mut draws = run.draws(10, task);
    let counts = slips::compare(&mut draws, task).map_err(without_board)?;
    for ((line, number), times) in counts {
        tally.count(line, format!("{number}:"), times);
    }
    Ok(())
}

// Another program's solution of a hand.
fn on_player(run: &Run, task: usize, tally: &mut Tally) -> Result<(), Report> {
    let mut draws = run.draws(11, task);
    let counts = players::compare(&mut draws, task + 1)?;
    for (what, times) in counts {
        tally.count("solutions", format!("{what}:"), times);
    }
    Ok(())
}

// A run of deals.
fn on_season(run: &Run, task: usize, tally: &mut Tally) -> Result<(), Report> {
    let mut draws = run.draws(12, task);
    let season = seasons::season(&mut draws, task);
    let seed = draws.word();
    let compare = |season: &Season| seasons::compare(&mut Draws::new(seed, 0, 0), season);
    match compare(&season) {
        Ok((number, given)) => {
            tally.count("runs", format!("number {number}:"), 1);
            if number == 0 && given.is_empty() {
                tally.count("runs", "of no deal:", 1);
            }
            for one in &given {
                tally.count("deals", format!("answer {}:", one.answer), 1);
            }
            Ok(())
        }
        Err(found) => {
            let differs = |season: &Season| compare(season).err();
            let (season, found) = shrink::smallest_by(seasons::smaller, season, found, differs);
            let report = without_board(found);
            Err(format!("{report}\nthe smallest run found\n  {season:?}"))
        }
    }
}

// Two sheets added.
fn on_sum(run: &Run, task: usize, tally: &mut Tally) -> Result<(), Report> {
    let mut draws = run.draws(13, task);
    let pair = sums::pair(&mut draws);
    let seed = draws.word();
    let compare = |pair: &Pair| sums::compare(&mut Draws::new(seed, 0, 0), pair);
    match compare(&pair) {
        Ok(number) => {
            tally.count("sums", format!("{number}:"), 1);
            Ok(())
        }
        Err(found) => {
            let differs = |pair: &Pair| compare(pair).err();
            let (pair, found) = shrink::smallest_by(sums::smaller, pair, found, differs);
            let [into, other] = pair.map(|sheet| asks::shown(&sheet.words()));
            let report = without_board(found);
            Err(format!(
                "{report}\nthe smallest sheets found\n  {into}\n  {other}"
            ))
        }
    }
}

// Damaged inputs to a function, until one is refused.
fn on_damage(run: &Run, task: usize, tally: &mut Tally) -> Result<(), Report> {
    let mut draws = run.draws(4, task);
    loop {
        let function = draws.below(damage::FUNCTIONS.len());
        let name = damage::FUNCTIONS[function];
        match damage::compare(&mut draws, function) {
            Ok(number @ 10..) => {
                tally.count(name, format!("{number}:"), 1);
                return Ok(());
            }
            Ok(_) => tally.count(name, "not refused, the same answer:", 1),
            Err(found) => return Err(without_board(found)),
        }
    }
}

type Write = fn() -> std::io::Result<()>;

// Programs of the gate whose input and expected output is drawn by Knuth's generator, from seeds of their own.
const ORACLES: [(&str, Write); 5] = [
    ("oracle_boards", oracle_boards::write),
    ("oracle_moves", oracle_moves::write),
    ("oracle_signatures", oracle_signatures::write),
    ("oracle_scores", oracle_scores::write),
    ("texts", texts::write),
];

fn written(name: &str, write: impl FnOnce() -> std::io::Result<()>) -> Result<(), Report> {
    println!("{name}");
    write().map_err(|why| format!("{name}: {why}"))
}

// A work by its name.
pub fn done(run: &Run, name: &'static str, tasks: usize) -> Result<(), Report> {
    let threads = run.threads;
    let all = run.first..run.first.max(tasks);
    match name {
        "boards" => work::run(name, all, threads, |task, tally| on_board(run, task, tally)),
        "records" => work::run(name, all, threads, |task, tally| {
            on_records(run, task, tally)
        }),
        "judge" => work::run(name, all, threads, |task, tally| {
            on_judge(run, 1, task, &judging::BUDGETS, tally)
        }),
        "long" => work::run(name, all, threads, |task, tally| {
            on_judge(run, 2, task, &[refusals::MOST_POPS], tally)
        }),
        "room" => work::run(name, all, threads, |task, tally| on_room(run, task, tally)),
        "deep" => work::run(name, all, threads, |task, tally| on_deep(run, task, tally)),
        "numbers" => work::run(name, all, threads, |task, tally| {
            on_number(run, task, tally)
        }),
        "papers" => work::run(name, all, threads, |task, tally| on_paper(run, task, tally)),
        "seasons" => work::run(name, all, threads, |task, tally| {
            on_season(run, task, tally)
        }),
        "sums" => work::run(name, all, threads, |task, tally| on_sum(run, task, tally)),
        "players" => work::run(name, all, threads, |task, tally| {
            on_player(run, task, tally)
        }),
        "damage" => work::run(name, all, threads, |task, tally| {
            on_damage(run, task, tally)
        }),
        "calls" => written(name, || calls::write(run)),
        "lines" => written(name, || oracle_papers::write(run)),
        "figures" => written(name, oracle_season::write),
        "listings" => written(name, listings::write),
        "sample" => written(name, || sample::write(run, tasks)),
        _ => progress::told(name, ORACLES.len(), |progress| {
            ORACLES.into_iter().try_for_each(|(program, write)| {
                written(program, write)?;
                progress.one_done();
                Ok(())
            })
        }),
    }
}
