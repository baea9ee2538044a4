// Seasons and sums that the gate holds ours to: expected output of the program tests/oracle_season.c, which says how its input, written by
// hand, is read. What is expected is made from the original's answers (answers.rs) by the second program (figures.rs).
use crate::answers::{self, Season};
use crate::figures::{self, Figures};
use crate::refusals::SHEET;
use crate::sheet;
use std::collections::BTreeMap;

// what the words of a sheet's room hold before a call; the nodes that there is scratch for
const RUBBISH: u64 = u64::MAX - 1;
const NODES: usize = 2_000;

fn number(word: &str) -> usize {
    word.parse().expect("a number")
}

// The sheets that have a letter.
#[derive(Default)]
struct Sheets(BTreeMap<String, Vec<u64>>);

impl Sheets {
    // A sheet by its letter, all zeros if it is new; or so many words of rubbish.
    fn find(&self, name: &str) -> Vec<u64> {
        match name.parse() {
            Ok(length) => vec![RUBBISH; length],
            Err(_) => self.0.get(name).cloned().unwrap_or(vec![0; SHEET]),
        }
    }

    fn keep(&mut self, name: &str, words: Vec<u64>) {
        if name.parse::<usize>().is_err() {
            self.0.insert(name.to_string(), words);
        }
    }

    // What a line of the input gives.
    fn line(&mut self, line: &str) -> String {
        match line.split(' ').collect::<Vec<&str>>()[..] {
            ["season", label, first, last, budget, flag, words, sheet] => {
                let asked = Season {
                    ends: (number(first), number(last)),
                    budget: number(budget),
                    partial: number(flag) as u8,
                    lengths: [number(words), NODES, 2 * NODES, 2 * NODES],
                    sheet: self.find(sheet).len(),
                };
                label.to_string() + &self.season(&asked, sheet)
            }
            ["add", label, into, other] => {
                let sum = figures::add(&self.find(into), &self.find(other));
                let number = sum.as_ref().err().copied().unwrap_or(0);
                self.keep(into, sum.unwrap_or(self.find(into)));
                format!("{label} {number}{}\n", shown(&self.find(into), 0))
            }
            ["same", label, one, other] => {
                let (one, other) = (self.find(one), self.find(other));
                let pairs = one.iter().zip(&other);
                format!("{label} {}\n", pairs.take_while(|(a, b)| a == b).count())
            }
            ["put", sheet, place, word] => {
                let mut words = self.find(sheet);
                words[number(place)] = number(word) as u64;
                self.keep(sheet, words);
                String::new()
            }
            ["copy", to, from] => {
                self.keep(to, self.find(from));
                String::new()
            }
            _ => panic!("no line: {line}"),
        }
    }

    // A sheet clears the scratch; a refusal leaves it, and all of it is rubbish.
    fn season(&mut self, asked: &Season, name: &str) -> String {
        let mut room = self.find(name);
        let (number, rubbish) = match answers::season(asked) {
            Ok(given) => {
                let words = Figures::over(asked.settings(), &given).words();
                room[..SHEET].copy_from_slice(&words);
                (0, [0; 4])
            }
            Err(number) => (number, asked.lengths),
        };
        let scratch = rubbish.map(|count| count.to_string()).join(" ");
        let left = room.iter().filter(|&&word| word == RUBBISH).count();
        let line = format!(" {number} {scratch} {left}{}\n", shown(&room, RUBBISH));
        self.keep(name, room);
        line
    }
}

// The words that are neither zero nor what lay there before, each with its place.
fn shown(words: &[u64], rubbish: u64) -> String {
    let told = words.iter().enumerate();
    let told = told.filter(|(_, &word)| word != 0 && word != rubbish);
    told.map(|(at, word)| format!(" {at}:{word}")).collect()
}

pub fn write() -> std::io::Result<()> {
    let input = sheet::input_in_c("oracle_season")?;
    let lines = input.lines().filter(|line| !line.starts_with('#'));
    let mut sheets = Sheets::default();
    let output: String = lines.map(|line| sheets.line(line)).collect();
    println!("  {} lines", output.lines().count());
    sheet::write_output_in_c("oracle_season", &output)
}
