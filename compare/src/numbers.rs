// The deck of a hand's number by the widely published generator: a second program, written from docs/SCOPE.md's description
// alone, and not the library's.
use crate::codes::pack;
use crate::original::common::card::Card;

pub fn deck(number: usize) -> Vec<Card> {
    let mut pack: Vec<Card> = pack().collect();
    let mut state = number as u64;
    let mut deck = Vec::new();
    while !pack.is_empty() {
        state = (214_013 * state + 2_531_011) % (1 << 31);
        let place = (state >> 16) as usize % pack.len();
        deck.push(pack.swap_remove(place));
    }
    deck
}
