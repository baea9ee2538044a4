// Expected output of the program crates/oracle_numbers, which reads no input, from published listings alone: those of Debian's
// package freecell-solver-bin (5.0.0-2), one for every number N of 1 to 32,000, by `make-microsoft-freecell-board -t N`: a column
// a line, the deepest card first. Nothing of it comes from our library, nor from numbers.rs, to which each listing is held.
use crate::codes;
use crate::numbers;
use crate::progress;
use crate::refusals::MOST_NUMBER;
use crate::sheet::write_output;
use std::io::{Error, Result};
use std::process::Command;

const LISTER: &str = "make-microsoft-freecell-board";
// whose hands the program writes, the least first, and those that it writes a refusal of
const CHOSEN: [usize; 8] = [1, 2, 3, 24, 617, 11_982, 31_999, 32_000];
const REFUSED: [u64; 5] = [
    0,
    32_001,
    2_147_484_265,
    4_294_967_297,
    18_446_744_073_709_551_615,
];

pub fn listing(number: usize) -> Result<String> {
    let number = number.to_string();
    let came = Command::new(LISTER).args(["-t", &number]).output()?;
    if !came.status.success() {
        return Err(Error::other(format!("{LISTER}, {}", came.status)));
    }
    String::from_utf8(came.stdout).map_err(Error::other)
}

// The code of a card that is written as its value and its suit.
fn code(card: &str) -> Option<u8> {
    let &[value, suit] = card.as_bytes() else {
        return None;
    };
    let value = b"A23456789TJQK".iter().position(|&name| name == value)?;
    let suit = b"CDHS".iter().position(|&name| name == suit)?;
    Some(((value + 1) * 16 + suit) as u8)
}

// The deck that was dealt, row by row; none if this is no listing of a hand.
fn deck(listing: &str) -> Option<Vec<u8>> {
    let column = |line: &str| line.split(' ').map(code).collect();
    let columns: Vec<Vec<u8>> = listing.lines().map(column).collect::<Option<_>>()?;
    let lengths: Vec<usize> = columns.iter().map(Vec::len).collect();
    if lengths != [7, 7, 7, 7, 6, 6, 6, 6] {
        return None;
    }
    Some((0..52).map(|place| columns[place % 8][place / 8]).collect())
}

// The deck of a listing, if the second program has the same.
pub fn agreed(number: usize, listing: &str) -> Result<Vec<u8>> {
    let wrong = |what: &str| Error::other(format!("{what}: number {number}\n{listing}"));
    let deck = deck(listing).ok_or_else(|| wrong("no listing of a hand"))?;
    let second = numbers::deck(number).into_iter().map(codes::code);
    if !second.eq(deck.iter().copied()) {
        return Err(wrong("DIFFERENT from numbers.rs"));
    }
    Ok(deck)
}

// FNV-1a over the codes of a deck and the eight octets of a hash, the lowest first.
fn linked(deck: &[u8], hash: u64) -> u64 {
    let octets = deck.iter().copied().chain(hash.to_le_bytes());
    octets.fold(0xcbf2_9ce4_8422_2325, |hash, octet| {
        (hash ^ u64::from(octet)).wrapping_mul(0x100_0000_01b3)
    })
}

pub fn write() -> Result<()> {
    let (mut output, mut hash) = (String::new(), 0);
    progress::told("listings", MOST_NUMBER, |progress| {
        (1..=MOST_NUMBER).try_for_each(|number| {
            let listing = listing(number)?;
            hash = linked(&agreed(number, &listing)?, hash);
            if CHOSEN.contains(&number) {
                output += &format!("{number}\n{listing}");
            }
            progress.one_done();
            Ok::<(), Error>(())
        })
    })?;
    for number in REFUSED {
        output += &format!("{number}\n41\n");
    }
    println!("  {MOST_NUMBER} listings, {hash:016x}");
    write_output("oracle_numbers", &(output + &format!("{hash:016x}\n")))
}
