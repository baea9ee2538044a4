// Input and expected output of a program that the gate runs: of one in Rattle in the folder of its crate, of one in C in tests/oracles.
use crate::boards::is_long;
use crate::original::freecell::board::FreeCellBoard;
use std::io::Result;
use std::path::{Path, PathBuf};

// what a program in Rattle reads at most
const INPUT: usize = 60_000;

#[derive(Default)]
pub struct Sheet {
    pub input: Vec<u8>,
    pub output: String,
}

fn folder(program: &str) -> PathBuf {
    let crates = Path::new(env!("CARGO_MANIFEST_DIR")).join("../crates");
    crates.join(program)
}

// The file of a program in C, whose name ends in `in` or `out`.
fn file(program: &str, end: &str) -> PathBuf {
    let oracles = Path::new(env!("CARGO_MANIFEST_DIR")).join("../tests/oracles");
    oracles.join(program).with_extension(end)
}

impl Sheet {
    // What a program has now.
    pub fn of(program: &str) -> Result<Sheet> {
        let folder = folder(program);
        Ok(Sheet {
            input: std::fs::read(folder.join("stdin"))?,
            output: std::fs::read_to_string(folder.join("stdout"))?,
        })
    }

    // A heading between two lists of boards: first those with columns of at most seven cards, then the others.
    pub fn in_two_lists(
        &mut self,
        boards: &[FreeCellBoard],
        mark: u8,
        mut item: impl FnMut(&mut Sheet, usize, &FreeCellBoard),
    ) {
        let (long, short): (Vec<_>, Vec<_>) = boards.iter().partition(|board| is_long(board));
        for (turn, board) in short.into_iter().enumerate() {
            item(self, turn, board);
        }
        self.input.push(mark);
        self.output += "columns over seven\n";
        println!(
            "  {} boards, {} with a column over seven",
            boards.len(),
            long.len()
        );
        for (turn, board) in long.into_iter().enumerate() {
            item(self, turn, board);
        }
    }

    pub fn write(&self, program: &str) -> Result<()> {
        println!("  {} bytes of input", self.input.len());
        assert!(self.input.len() < INPUT);
        std::fs::write(folder(program).join("stdin"), &self.input)?;
        write_output(program, &self.output)
    }

    pub fn write_in_c(&self, program: &str) -> Result<()> {
        println!("  {} bytes of input", self.input.len());
        std::fs::write(file(program, "in"), &self.input)?;
        write_output_in_c(program, &self.output)
    }
}

// Of a program that reads nothing this is all.
pub fn write_output(program: &str, output: &str) -> Result<()> {
    std::fs::write(folder(program).join("stdout"), output)
}

// The input of a program in C that was written by hand, and the output that it has to give.
pub fn input_in_c(program: &str) -> Result<String> {
    std::fs::read_to_string(file(program, "in"))
}

pub fn write_output_in_c(program: &str, output: &str) -> Result<()> {
    std::fs::write(file(program, "out"), output)
}
