// Pairs of sheets added: good ones, over drawn deals that gave what is drawn, and damaged ones, each pair held against the second
// adder (figures.rs).
use crate::asks::{self, Difference};
use crate::draws::Draws;
use crate::figures::{
    self, Figures, Given, Settings, ANSWERS, COUNTED, COVERS, LISTS, LONG, LONGEST, POPS, SHORTEST,
};
use crate::refusals::{MOST_NUMBER, MOST_POPS, SHEET};

// A word of a sheet made another.
#[derive(Clone, Copy, Debug)]
pub enum Damage {
    Put(u64),
    // round the end of what a word holds
    Add(u64),
}

// A sheet as it is handed over.
#[derive(Clone, Debug)]
pub struct Handed {
    settings: Settings,
    given: Vec<Given>,
    damage: Vec<(usize, Damage)>,
    length: usize,
}

impl Handed {
    pub fn words(&self) -> Vec<u64> {
        let mut words = Figures::over(self.settings, &self.given).words();
        words[2] = self.settings.flag;
        for &(place, damage) in &self.damage {
            words[place] = match damage {
                Damage::Put(word) => word,
                Damage::Add(word) => words[place].wrapping_add(word),
            };
        }
        words.resize(self.length, 0);
        words
    }

    fn is_whole(&self) -> bool {
        self.damage.is_empty() && self.length == SHEET
    }
}

pub type Pair = [Handed; 2];

pub fn pair(draws: &mut Draws) -> Pair {
    let settings = settings(draws);
    let other = other_settings(draws, settings);
    let [one, two] = deals(draws);
    let habit = Habit::drawn(draws);
    let handed = |draws: &mut Draws, settings: Settings, deals: Vec<usize>| Handed {
        settings,
        given: deals
            .into_iter()
            .map(|deal| habit.given(draws, deal, settings.budget))
            .collect(),
        damage: Vec::new(),
        length: SHEET,
    };
    let mut pair = [handed(draws, settings, one), handed(draws, other, two)];
    if draws.once_in(2) {
        let which = draws.one_of(&[1, 1, 2, 2, 3]);
        for (i, sheet) in pair.iter_mut().enumerate() {
            if which & (i + 1) != 0 {
                spoil(draws, sheet);
            }
        }
    }
    pair
}

// ---- settings

fn settings(draws: &mut Draws) -> Settings {
    let most = MOST_POPS as u64;
    let (budget, capacity) = (draws.word() % (most + 1), draws.word());
    Settings {
        budget: draws.one_of(&[0, 1, 2, 1_000, 100_000, most, budget]),
        capacity: draws.one_of(&[0, 1, 64, 2_500_000, u32::MAX as u64, u64::MAX, capacity]),
        flag: flag(draws, true) * draws.one_of(&[0, 1]),
    }
}

// 0 is no, all else is yes.
fn flag(draws: &mut Draws, yes: bool) -> u64 {
    if yes {
        draws.one_of(&[1, 1, 1, 2, 256, 1 << 63, u64::MAX])
    } else {
        0
    }
}

// The same settings, or one or more of them others.
fn other_settings(draws: &mut Draws, settings: Settings) -> Settings {
    let mut other = Settings {
        flag: flag(draws, settings.flag != 0),
        ..settings
    };
    if draws.once_in(6) {
        let which = 1 + draws.below(7);
        if which & 1 != 0 {
            other.budget = draws.one_of(&[
                other.budget / 2,
                (other.budget + 1) % (MOST_POPS as u64 + 1),
            ]);
        }
        if which & 2 != 0 {
            other.capacity = other
                .capacity
                .wrapping_add(draws.one_of(&[1, u64::MAX, 1 << 32]));
        }
        if which & 4 != 0 {
            other.flag = flag(draws, settings.flag == 0);
        }
    }
    other
}

// ---- deals

// The deals of two sheets.
fn deals(draws: &mut Draws) -> [Vec<usize>; 2] {
    let [a, b] = [draws.below(70), draws.below(70)];
    let [first, other] = [edge(draws, a), edge(draws, b)];
    let one: Vec<usize> = (first..=first + a).collect();
    match draws.below(9) {
        // a run, and the next one, before it or behind it
        0 | 1 => {
            let cut = draws.below(one.len() + 1);
            let (start, end) = one.split_at(cut);
            let runs = [start.to_vec(), end.to_vec()];
            turned(draws, runs)
        }
        // a run, and another that ends or begins with a deal of it
        2 => {
            let common = draws.one_of(&[first, first + a]);
            let more = (common..(common + b).min(MOST_NUMBER) + 1).collect();
            turned(draws, [one, more])
        }
        // two runs anywhere
        3 => [one, (other..=other + b).collect()],
        // deals here and there, of a window or of all
        4 | 5 => scattered(draws, first..=first + a),
        6 if draws.once_in(10) => scattered(draws, 1..=MOST_NUMBER),
        // a deal each
        7 => {
            let ends = [1, 2, 63, 64, 65, 128, 129, 31_999, MOST_NUMBER, first];
            [vec![draws.one_of(&ends)], vec![draws.one_of(&ends)]]
        }
        // none in one of them, or in both
        8 if draws.once_in(4) => [Vec::new(), Vec::new()],
        _ => turned(draws, [one, Vec::new()]),
    }
}

// Where so many more deals follow: often at an end of the numbers or of a word.
fn edge(draws: &mut Draws, more: usize) -> usize {
    let word = 64 * (1 + draws.below(498)) - draws.below(3) + 1;
    let anywhere = 1 + draws.below(MOST_NUMBER - more);
    draws
        .one_of(&[1, MOST_NUMBER - more, word, anywhere, anywhere])
        .min(MOST_NUMBER - more)
}

fn turned<T>(draws: &mut Draws, [a, b]: [T; 2]) -> [T; 2] {
    if draws.once_in(2) {
        [b, a]
    } else {
        [a, b]
    }
}

// Each deal in one of them or in none; seldom one in both.
fn scattered(draws: &mut Draws, window: std::ops::RangeInclusive<usize>) -> [Vec<usize>; 2] {
    let common = draws.one_of(&[0, 0, 0, 1]) * *window.start();
    let mut both = [Vec::new(), Vec::new()];
    let none = draws.one_of(&[0, 1, 4]);
    for deal in window {
        let place = draws.below(2 + none);
        for (i, deals) in both.iter_mut().enumerate() {
            if i == place || deal == common {
                deals.push(deal);
            }
        }
    }
    both
}

// ---- what deals gave

// How a season went: how many in twelve are won, and with how many moves.
struct Habit {
    won: usize,
    least: usize,
    more: usize,
}

impl Habit {
    fn drawn(draws: &mut Draws) -> Habit {
        let (least, more) =
            draws.one_of(&[(0, LONG), (0, 0), (LONG, 0), (0, 1), (100, 2), (80, 60)]);
        Habit {
            won: draws.one_of(&[0, 1, 6, 6, 11, 12]),
            least,
            more,
        }
    }

    fn given(&self, draws: &mut Draws, deal: usize, budget: u64) -> Given {
        let won = draws.below(12) < self.won;
        let some = draws.word() % (budget + 1);
        Given {
            deal,
            answer: if won { 0 } else { draws.one_of(&COUNTED[1..]) },
            pops: draws.one_of(&[some, some, 0, budget]),
            moves: self.least + draws.below(self.more + 1),
        }
    }
}

// ---- damage

fn spoil(draws: &mut Draws, sheet: &mut Handed) {
    if draws.once_in(12) {
        let others = [
            0,
            1,
            ANSWERS,
            LISTS,
            COVERS,
            SHEET - 1,
            SHEET + 1,
            2 * SHEET,
        ];
        sheet.length = draws.one_of(&others);
        return;
    }
    for _ in 0..draws.one_of(&[1, 1, 1, 2]) {
        let more = damage(draws, sheet);
        sheet.damage.extend(more);
    }
}

// Words changed such that it is seen, or such that the sheet is as good as before.
fn damage(draws: &mut Draws, sheet: &Handed) -> Vec<(usize, Damage)> {
    use Damage::{Add, Put};
    let mark = draws.one_of(&[SHORTEST, LONGEST]);
    match draws.below(10) {
        0 | 1 => vec![(some_place(draws), some_change(draws))],
        // two words of a group, what one loses the other gets: a right total, round the end of a word too
        2 => {
            let (one, other) = two_places(draws);
            let word = draws.word();
            let by = draws.one_of(&[1, 2, 1 << 63, u64::MAX, word]);
            vec![(one, Add(by)), (other, Add(by.wrapping_neg()))]
        }
        // 2^64 more
        3 => {
            let (one, other) = two_places(draws);
            vec![(one, Add(1 << 63)), (other, Add(1 << 63))]
        }
        // at the most pops there can be, and over it
        4 => {
            let most = sheet.settings.budget * sheet.given.len() as u64;
            vec![(
                POPS,
                Put(draws.one_of(&[most, most, most + 1, most.wrapping_sub(1)])),
            )]
        }
        // a mark's deal
        5 => {
            let known = some_deal(draws, sheet);
            let anywhere = 1 + draws.below(MOST_NUMBER);
            let beyond = (1 << 32) + known;
            let deals = [
                known,
                known,
                anywhere,
                0,
                MOST_NUMBER + 1,
                MOST_NUMBER + known,
                beyond,
            ];
            vec![(mark + 1, Put(draws.one_of(&deals) as u64))]
        }
        // a mark's length, or no mark
        6 => {
            let length = draws.below(LONG + 2);
            match draws.below(3) {
                0 => vec![(mark, Put(0)), (mark + 1, Put(0))],
                1 => vec![(mark, Put(length as u64))],
                _ => vec![(mark, Add(draws.one_of(&[1, u64::MAX])))],
            }
        }
        // another deal covered instead of one
        7 => {
            let place = |deal: usize| (COVERS + (deal - 1) / 64, 1 << ((deal - 1) % 64));
            let (old, bit) = place(some_deal(draws, sheet));
            let (new, other) = place(1 + draws.below(MOST_NUMBER));
            vec![(old, Add(u64::wrapping_neg(bit))), (new, Add(other))]
        }
        // at the largest budget there is, and over it
        8 => {
            let most = MOST_POPS as u64;
            vec![(0, Put(draws.one_of(&[most, most + 1, u64::MAX])))]
        }
        // a won list longer by one
        _ => {
            let length = sheet
                .given
                .iter()
                .find(|one| one.answer == 0)
                .map_or(0, |one| one.moves);
            let longer = LISTS + (length + 1).min(LONG);
            vec![(LISTS + length, Add(u64::MAX)), (longer, Add(1))]
        }
    }
}

fn some_deal(draws: &mut Draws, sheet: &Handed) -> usize {
    match sheet.given.len() {
        0 => 1 + draws.below(MOST_NUMBER),
        count => sheet.given[draws.below(count)].deal,
    }
}

// As often a setting, an answer, the pops, a mark, a length or deals.
fn some_place(draws: &mut Draws) -> usize {
    let groups = [0, ANSWERS, POPS, SHORTEST, LISTS, COVERS, SHEET];
    let group = draws.below(6);
    groups[group] + draws.below(groups[group + 1] - groups[group])
}

// Two of the answers, or two of the lengths.
fn two_places(draws: &mut Draws) -> (usize, usize) {
    let (start, count) = draws.one_of(&[(ANSWERS, COUNTED.len()), (LISTS, LONG + 1)]);
    let one = draws.below(count);
    let other = (one + 1 + draws.below(count - 1)) % count;
    (start + one, start + other)
}

fn some_change(draws: &mut Draws) -> Damage {
    let word = draws.word();
    draws.one_of(&[
        Damage::Put(0),
        Damage::Add(1),
        Damage::Add(u64::MAX),
        Damage::Put(u64::MAX),
        Damage::Put(1 << 63),
        Damage::Put(word),
    ])
}

// ---- comparing

// The number that came. Of sheets that are whole and have no deal in common the sum is the sheet over both.
pub fn compare(draws: &mut Draws, pair: &Pair) -> Result<u8, Difference> {
    let [into, other] = [pair[0].words(), pair[1].words()];
    if let Ok(sum) = figures::add(&into, &other) {
        if pair.iter().all(Handed::is_whole) {
            let both = [&pair[0].given[..], &pair[1].given].concat();
            let whole = Figures::over(pair[0].settings, &both).words();
            assert_eq!(sum, whole, "the second adder");
        }
    }
    asks::add(draws, &into, &other)
}

// Pairs with fewer deals, or less damage: a sheet without one of its damages, without half of its deals, a quarter, and so on.
pub fn smaller(pair: &Pair) -> Vec<Pair> {
    let mut pairs = Vec::new();
    for (i, sheet) in pair.iter().enumerate() {
        let mut with = |change: &dyn Fn(&mut Handed)| {
            let mut next = pair.clone();
            change(&mut next[i]);
            pairs.push(next);
        };
        for place in 0..sheet.damage.len() {
            with(&|sheet| _ = sheet.damage.remove(place));
        }
        let count = sheet.given.len();
        for parts in [1, 2, 4, 8, 16, 32] {
            let some = count.div_ceil(parts).max(1);
            for start in (0..count).step_by(some) {
                let end = (start + some).min(count);
                with(&|sheet| _ = sheet.given.drain(start..end));
            }
        }
    }
    pairs
}
