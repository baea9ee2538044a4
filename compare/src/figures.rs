// The season's figures, a second program: the sheet over some deals, which sheets from outside are refused, and their sum. Written from
// the customer's words of request (vi) alone, and not after the library.
use crate::refusals::{Asked, MOST_NUMBER, MOST_POPS, SHEET};
use std::cmp::Reverse;

// Where a sheet's words begin: three settings, the answers, all pops, the shortest and the longest won list with their
// deals, the won lists by length, and a bit for each deal.
pub const ANSWERS: usize = 3;
pub const POPS: usize = 10;
pub const SHORTEST: usize = 11;
pub const LONGEST: usize = 13;
pub const LISTS: usize = 15;
pub const COVERS: usize = 216;

pub const COUNTED: [u8; 7] = [0, 1, 2, 3, 4, 5, 23];

// The longest list there is.
pub const LONG: usize = 200;

#[derive(Clone, Copy, Debug)]
pub struct Settings {
    pub budget: u64,
    pub capacity: u64,
    // 0 is no
    pub flag: u64,
}

impl Settings {
    fn same(self, other: Settings) -> bool {
        let yes = |settings: Settings| settings.flag != 0;
        self.budget == other.budget && self.capacity == other.capacity && yes(self) == yes(other)
    }
}

// What a deal gave.
#[derive(Clone, Copy, Debug)]
pub struct Given {
    pub deal: usize,
    pub answer: u8,
    pub pops: u64,
    pub moves: usize,
}

// A length, and the deal that has it.
type Mark = Option<(u64, u64)>;

pub struct Figures {
    settings: Settings,
    answers: Vec<u64>,
    pops: u64,
    shortest: Mark,
    longest: Mark,
    lists: Vec<u64>,
    // whether deal i + 1 is covered
    covers: Vec<bool>,
}

// The better of some marks; of equal ones that of the lowest deal.
fn shortest(marks: impl Iterator<Item = (u64, u64)>) -> Mark {
    marks.min_by_key(|&(length, deal)| (length, deal))
}

fn longest(marks: impl Iterator<Item = (u64, u64)>) -> Mark {
    marks.min_by_key(|&(length, deal)| (Reverse(length), deal))
}

fn summed(a: &[u64], b: &[u64]) -> Vec<u64> {
    let sums = a.iter().zip(b).map(|(a, b)| a.checked_add(*b));
    sums.collect::<Option<_>>().expect("figures of good sheets")
}

// Exact, whatever the words.
fn total(words: &[u64]) -> u128 {
    words.iter().map(|&word| word as u128).sum()
}

impl Figures {
    // The sheet over deals, each of which is there once.
    pub fn over(settings: Settings, given: &[Given]) -> Figures {
        let won = || given.iter().filter(|one| one.answer == 0);
        let marks = || won().map(|one| (one.moves as u64, one.deal as u64));
        let count = |like: &dyn Fn(&Given) -> bool| given.iter().filter(|one| like(one)).count();
        let mut lists = vec![0; LONG + 1];
        won().for_each(|one| lists[one.moves] += 1);
        let mut covers = vec![false; MOST_NUMBER];
        given.iter().for_each(|one| covers[one.deal - 1] = true);
        Figures {
            settings,
            answers: COUNTED
                .map(|number| count(&|one| one.answer == number) as u64)
                .to_vec(),
            pops: given.iter().map(|one| one.pops).sum(),
            shortest: shortest(marks()),
            longest: longest(marks()),
            lists,
            covers,
        }
    }

    pub fn words(&self) -> Vec<u64> {
        let Settings {
            budget,
            capacity,
            flag,
        } = self.settings;
        let mut words = vec![budget, capacity, (flag != 0) as u64];
        words.extend(&self.answers);
        words.push(self.pops);
        for mark in [self.shortest, self.longest] {
            let (length, deal) = mark.unwrap_or((0, 0));
            words.extend([length, deal]);
        }
        words.extend(&self.lists);
        for deals in self.covers.chunks(64) {
            let bits = deals.iter().enumerate();
            words.push(bits.map(|(bit, &covered)| (covered as u64) << bit).sum());
        }
        words
    }

    // What words tell; None if they are no sheet's by their number.
    fn told(words: &[u64]) -> Option<Figures> {
        let words: &[u64; SHEET] = words.try_into().ok()?;
        let mark = |place: usize| Some((words[place], words[place + 1])).filter(|&m| m != (0, 0));
        let bit = |place: usize| words[COVERS + place / 64] & (1 << (place % 64)) != 0;
        Some(Figures {
            settings: Settings {
                budget: words[0],
                capacity: words[1],
                flag: words[2],
            },
            answers: words[ANSWERS..POPS].to_vec(),
            pops: words[POPS],
            shortest: mark(SHORTEST),
            longest: mark(LONGEST),
            lists: words[LISTS..COVERS].to_vec(),
            covers: (0..MOST_NUMBER).map(bit).collect(),
        })
    }

    fn deals(&self) -> usize {
        self.covers.iter().filter(|&&covered| covered).count()
    }

    fn has(&self, deal: u64) -> bool {
        let place = (deal as usize).checked_sub(1);
        place.is_some_and(|place| self.covers.get(place) == Some(&true))
    }

    // The mark is of this length, and names a deal that is there; without a length it is absent.
    fn fits(&self, mark: Mark, length: Option<usize>) -> bool {
        mark.map(|mark| mark.0) == length.map(|length| length as u64)
            && mark.is_none_or(|mark| self.has(mark.1))
    }

    fn is_good(&self) -> bool {
        let (deals, budget) = (self.deals() as u128, self.settings.budget as u128);
        let mut lengths = (0..=LONG).filter(|&length| self.lists[length] > 0);
        let (least, most) = (lengths.next(), lengths.next_back());
        budget <= MOST_POPS as u128
            && total(&self.answers) == deals
            && total(&self.lists) == self.answers[0] as u128
            && self.fits(self.shortest, least)
            && self.fits(self.longest, most.or(least))
            && self.pops as u128 <= budget * deals
    }

    fn plus(&self, other: &Figures) -> Figures {
        let both = self.covers.iter().zip(&other.covers);
        Figures {
            settings: self.settings,
            answers: summed(&self.answers, &other.answers),
            pops: self.pops + other.pops,
            shortest: shortest(self.shortest.into_iter().chain(other.shortest)),
            longest: longest(self.longest.into_iter().chain(other.longest)),
            lists: summed(&self.lists, &other.lists),
            covers: both.map(|(mine, yours)| mine | yours).collect(),
        }
    }
}

// 47, 45, 44 for two sheets, or their sum.
pub fn add(into: &[u64], other: &[u64]) -> Asked<Vec<u64>> {
    let good = |words| Figures::told(words).filter(Figures::is_good).ok_or(47);
    let (into, other) = (good(into)?, good(other)?);
    if !into.settings.same(other.settings) {
        return Err(45);
    }
    if into.covers.iter().zip(&other.covers).any(|(a, b)| *a && *b) {
        return Err(44);
    }
    Ok(into.plus(&other).words())
}
