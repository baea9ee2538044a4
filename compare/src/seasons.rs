// Runs of deals judged at drawn settings, each sheet held against the one that the original's answers make, deal by deal; and the
// sheets of two parts of a run, added.
use crate::answers::{self, Season};
use crate::asks::{self, Difference};
use crate::damage::no_number;
use crate::draws::Draws;
use crate::figures::{self, Figures, Given, ANSWERS, LONGEST, POPS, SHORTEST};
use crate::lent::lengths_for;
use crate::original::freecell::solver::{self, Judged};
use crate::refusals::{self, MOST_NUMBER, MOST_POPS, SHEET};

// A run that has no deal.
const NONE: (usize, usize) = (MOST_NUMBER, 1);

// The largest budget that is tried, but for the largest there is.
const MOST_TRIED: usize = 5_000;

// The run of the first task, and what is known of it: deals 1 to 25, 19 of them won, 6 at the limit.
const KNOWN: Season = Season {
    ends: (1, 25),
    budget: 20_000,
    partial: 0,
    lengths: [1_200_000, 400_000, 800_000, 800_000],
    sheet: SHEET,
};

fn is_as_known(words: &[u64]) -> bool {
    words[ANSWERS..POPS] == [19, 0, 0, 6, 0, 0, 0]
        && words[POPS] == 167_137
        && words[SHORTEST..LONGEST] == [95, 3]
        && words[LONGEST..LONGEST + 2] == [141, 9]
}

pub fn season(draws: &mut Draws, task: usize) -> Season {
    if task == 0 {
        return KNOWN;
    }
    let ends = ends(draws);
    let partial = draws.one_of(&[0, 0, 0, 1, 2, 255]);
    let budget = budget(draws, ends, partial != 0);
    let capacity = capacity(draws, ends, budget, partial != 0);
    let mut season = Season {
        ends,
        budget,
        partial,
        lengths: lengths_for(draws, capacity),
        sheet: SHEET + draws.one_of(&[0, 0, 1, 100]),
    };
    if draws.once_in(4) {
        spoil(draws, &mut season);
    }
    season
}

// The first and the last deal: mostly of a short run, often at an end of the numbers or of a sheet's word; sometimes of none.
fn ends(draws: &mut Draws) -> (usize, usize) {
    let more = draws.one_of(&[0, 0, 1, 2, 3, 5, 8, 11]);
    let first = match draws.below(8) {
        0 => 1,
        1 => MOST_NUMBER - more,
        2 | 3 => 64 * (1 + draws.below(499)) - draws.below(more + 1),
        _ => 1 + draws.below(MOST_NUMBER),
    };
    let last = (first + more).min(MOST_NUMBER);
    match draws.below(20) {
        0 if first > 1 => (first, first - 1),
        1 if first < last => (last, first),
        2 => NONE,
        _ => (first, last),
    }
}

// What the original comes to on a deal of a run that is not empty, with room for all its nodes.
fn on_a_deal(draws: &mut Draws, ends: (usize, usize), budget: usize, partial: bool) -> Judged {
    let deal = ends.0 + draws.below(ends.1 + 1 - ends.0);
    let board = refusals::number(deal).expect("a deal");
    solver::judge(&board, budget, usize::MAX, partial)
}

// Any number of pops; or as many as it takes until a deal of the run is won, one less, at which its best line may be won already, or
// two less.
fn budget(draws: &mut Draws, ends: (usize, usize), partial: bool) -> usize {
    if ends.0 <= ends.1 && draws.once_in(3) {
        let judged = on_a_deal(draws, ends, MOST_TRIED, partial);
        if judged.number == 0 {
            return judged.pops.saturating_sub(draws.one_of(&[0, 1, 1, 1, 2]));
        }
    }
    draws.one_of(&[
        0, 1, 2, 5, 20, 100, 300, 300, 1_000, 1_000, 2_000, 2_000, MOST_TRIED, MOST_POPS,
    ])
}

// The nodes that there is room for: few, as many as a deal of the run needs or one less or more, or plenty. With the largest budget
// few, so that it ends soon.
fn capacity(draws: &mut Draws, ends: (usize, usize), budget: usize, partial: bool) -> usize {
    let few = draws.one_of(&[1, 2, 3, 10, 60, 300, 1_000]);
    if budget == MOST_POPS || ends.0 > ends.1 {
        return few;
    }
    match draws.below(4) {
        0 => few,
        1 => 1 + 20 * budget,
        _ => {
            let need = on_a_deal(draws, ends, budget, partial).births;
            (need + draws.below(3)).max(2) - 1
        }
    }
}

// One or more of what is asked made such that it is refused.
fn spoil(draws: &mut Draws, season: &mut Season) {
    let wrong = 1 + draws.below(15);
    if wrong & 1 != 0 {
        let (first, last) = season.ends;
        season.ends = match draws.below(3) {
            0 => (no_number(draws, first), last),
            1 => (first, no_number(draws, last)),
            _ => (no_number(draws, first), no_number(draws, last)),
        };
    }
    if wrong & 2 != 0 {
        let beyond = MOST_POPS + 1 + draws.word() as usize / 2;
        season.budget = draws.one_of(&[MOST_POPS + 1, usize::MAX, beyond]);
    }
    if wrong & 4 != 0 {
        season.sheet = draws.one_of(&[0, 1, SHEET / 2, SHEET - 1]);
    }
    if wrong & 8 != 0 {
        let part = draws.below(4);
        season.lengths[part] = draws.below([3, 1, 2, 2][part]);
    }
}

// Our sheet against theirs: the number that came, and what each deal gave.
pub fn compare(draws: &mut Draws, season: &Season) -> Result<(u8, Vec<Given>), Difference> {
    let asked = answers::season(season);
    let sheet = |given: &[Given]| Figures::over(season.settings(), given).words();
    let words = asked
        .as_ref()
        .map(|given| sheet(given))
        .map_err(|&number| number);
    let came = asks::season(draws, season, &words)?;
    let (Ok(given), Ok(whole)) = (asked, words) else {
        return Ok((came, Vec::new()));
    };
    if season.ends == KNOWN.ends && season.budget == KNOWN.budget && season.lengths == KNOWN.lengths
    {
        assert!(
            is_as_known(&whole),
            "deals 1 to 25: {}",
            asks::shown(&whole)
        );
    }
    let parts = given.split_at(draws.below(given.len() + 1));
    for part in [parts.0, parts.1] {
        let ends = part.first().zip(part.last());
        let part_of = Season {
            ends: ends.map_or(NONE, |(first, last)| (first.deal, last.deal)),
            ..*season
        };
        asks::season(draws, &part_of, &Ok(sheet(part)))?;
    }
    let (one, other) = (sheet(parts.0), sheet(parts.1));
    assert_eq!(figures::add(&one, &other), Ok(whole), "the second adder");
    asks::add(draws, &one, &other)?;
    asks::add(draws, &other, &one)?;
    Ok((came, given))
}

// Fewer deals, a smaller budget, less scratch, no more room than is needed.
pub fn smaller(season: &Season) -> Vec<Season> {
    let (first, last) = season.ends;
    let capacity = refusals::capacity(season.lengths);
    let mut seasons = Vec::new();
    if (1..last).contains(&first) && last <= MOST_NUMBER {
        let middle = (first + last) / 2;
        let runs = [
            (first, middle),
            (middle + 1, last),
            (first + 1, last),
            (first, last - 1),
        ];
        seasons.extend(runs.map(|ends| Season { ends, ..*season }));
    }
    for budget in [season.budget / 2, season.budget.saturating_sub(1)] {
        seasons.push(Season { budget, ..*season });
    }
    for nodes in [capacity / 2, capacity.saturating_sub(1), capacity] {
        let lengths = [3 * nodes, nodes, 2 * nodes, 2 * nodes];
        seasons.push(Season { lengths, ..*season });
    }
    seasons.push(Season {
        sheet: season.sheet.min(SHEET),
        ..*season
    });
    let size = |season: &Season| {
        let scratch: usize = season.lengths.iter().sum();
        (season.ends, season.budget, scratch, season.sheet)
    };
    seasons.retain(|next| size(next) != size(season));
    seasons
}
