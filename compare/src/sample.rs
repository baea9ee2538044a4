// The sample of the original's answers that the gate holds ours to without the original: input and expected output of the
// program tests/oracle_judge.c, which says how they are laid out.
use crate::original::freecell::board::FreeCellBoard;
use crate::original::freecell::solver::{self, deal, Judged};
use crate::run::Run;
use crate::sheet::Sheet;
use crate::{boards, codes, deep, gauge, numbers, progress};

const BUDGETS: [usize; 6] = [0, 1, 2, 10, 100, 1_000];
// the most nodes of a random board
const NODES: usize = 2_000;
// the most nodes that the program has memory for
const MORE_NODES: usize = 24_000;
// hands that are won within 1,000 pops, by their numbers
const FINISHING: [usize; 4] = [3, 8, 11, 22];

fn line(judged: &Judged) -> String {
    let list: String = judged
        .list
        .iter()
        .map(|step| codes::hex(&codes::record(step)) + " ")
        .collect();
    let moves = judged.list.len();
    format!("{} {} {moves} {list}\n", judged.number, judged.pops)
}

// A board, and how it is judged.
struct Case {
    board: FreeCellBoard,
    budget: usize,
    nodes: usize,
    partial: bool,
}

impl Case {
    fn bytes(&self) -> Vec<u8> {
        let mut case = (self.budget as u32).to_be_bytes()[1..].to_vec();
        case.extend((self.nodes as u16).to_be_bytes());
        case.push(self.partial as u8);
        case.extend(codes::image(&self.board));
        codes::counted(&case)
    }

    // What the original says with some limit of depth.
    fn judged(&self, depth: usize) -> Judged {
        solver::judge_to(depth, &self.board, self.budget, self.nodes, self.partial)
    }

    fn differs(&self, depth: usize) -> bool {
        self.judged(depth).differs(&self.judged(gauge::DEPTH))
    }
}

// A random board at each budget with both flags; the memory is all that there is, just enough, or one node too little.
fn random(run: &Run, task: usize) -> Vec<Case> {
    let mut draws = run.draws(5, task);
    let board = boards::board(&mut draws, task);
    let mut cases = Vec::new();
    for budget in BUDGETS {
        for partial in [false, true] {
            let need = solver::judge(&board, budget, NODES, partial).births.max(1);
            let nodes = draws.one_of(&[NODES, NODES, need.min(NODES), (need - 1).clamp(1, NODES)]);
            cases.push(Case {
                board: board.clone(),
                budget,
                nodes,
                partial,
            });
        }
    }
    cases
}

// A board that goes deep, where it tells the limit of depth from others; once, if that tells all that it can.
fn deep(board: FreeCellBoard) -> Vec<Case> {
    let mut cases: Vec<Case> = Vec::new();
    for other in deep::OTHERS {
        if cases.iter().any(|case| case.differs(other)) {
            continue;
        }
        cases.extend(deep::tells(&board, other).map(|(budget, nodes)| Case {
            board: board.clone(),
            budget,
            nodes,
            partial: true,
        }));
    }
    cases
}

// A hand that is won after so many pops, with two pops too few, one too few, and enough: best progress, a best line that finishes, won.
fn finishing(number: usize) -> Vec<Case> {
    let board = deal(&numbers::deck(number)).unwrap();
    let won = solver::judge(&board, 1_000, MORE_NODES, true);
    let at = |budget| Case {
        board: board.clone(),
        budget,
        nodes: won.births,
        partial: true,
    };
    let cases: Vec<Case> = (won.pops - 2..=won.pops).map(at).collect();
    let told = |case: &Case| case.judged(gauge::DEPTH).number;
    assert_eq!(cases.iter().map(told).collect::<Vec<u8>>(), [1, 5, 0]);
    cases
}

// The lines of the sample that another limit of depth would change.
fn otherwise(cases: &[Case], depth: usize) {
    let lines: Vec<usize> = (0..cases.len())
        .filter(|&n| cases[n].differs(depth))
        .map(|n| n + 1)
        .collect();
    println!("  depth {depth} differs in lines {lines:?}");
}

// Random boards, then those that go deep, then hands around the pop at which they are won.
fn all_cases(run: &Run, tasks: usize) -> Vec<Case> {
    let (tasks, known) = (run.first..run.first.max(tasks), deep::known());
    let all = tasks.len() + known.len() + FINISHING.len();
    progress::told("sample", all, |progress| {
        let mut cases = Vec::new();
        for task in tasks {
            cases.extend(random(run, task));
            progress.one_done();
        }
        for board in known {
            cases.extend(deep(board));
            progress.one_done();
        }
        for number in FINISHING {
            cases.extend(finishing(number));
            progress.one_done();
        }
        cases
    })
}

pub fn write(run: &Run, tasks: usize) -> std::io::Result<()> {
    let cases = all_cases(run, tasks);
    let mut sheet = Sheet::default();
    let mut numbers = [0; 24];
    for case in &cases {
        let judged = case.judged(gauge::DEPTH);
        numbers[judged.number as usize] += 1;
        sheet.input.extend(case.bytes());
        sheet.output += &line(&judged);
    }
    assert!(cases.iter().all(|case| case.nodes <= MORE_NODES));
    println!(
        "  answers 0 to 5 and 23: {:?} {}",
        &numbers[..6],
        numbers[23]
    );
    for depth in deep::OTHERS {
        otherwise(&cases, depth);
    }
    sheet.write_in_c("oracle_judge")
}
