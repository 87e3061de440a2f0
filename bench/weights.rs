//! Prints crates/endgame_search/src/weights.rt, made again from games that it plays by itself, always the same ones.
//!
//!     rustc -Copt-level=3 -Ctarget-cpu=native -o weights bench/weights.rs
//!     ./weights 800000 >crates/endgame_search/src/weights.rt
//!
//! It plays this number of games, in 10 minutes of one processor, and takes a position of each, with 10 to 13 empty
//! squares; none is of the FFO endgame test. The search in bench/peer.rs finds their exact values. The weights are the
//! least squares fit of the differences between these and the rest of the evaluation.
#[allow(dead_code)]
#[path = "peer.rs"]
mod peer;

use peer::{Pos, Scoring, Table, children, order, search_window, simple_worth, states};
use std::iter::repeat_with;

const STATES: usize = 6561;
const LOTS: u64 = 16; // of games, each with a thread
const ROUNDS: u32 = 300;
const HEAD: &str = "//! What the squares at a corner are worth, in eighths of a disc: made by bench/weights.rs, of";
const COMMENT: &str = "
// The index is the state of eight squares: 0 to 3 on an edge, from the corner on, and 4 to 7 beside
// them. A disc of the mover on square i adds 3^i to it, one of the opponent 2 * 3^i.
";
const SHRINK: f64 = 8.0; // a weight is fitted as if it were 0 in this number of further positions

/// A number below `end`, the next one of the sequence that `seed` begins (xorshift64*).
fn below(end: u32, seed: &mut u64) -> u32 {
    *seed ^= *seed << 13;
    *seed ^= *seed >> 7;
    *seed ^= *seed << 17;
    (seed.wrapping_mul(0x2545_f491_4f6c_dd1d) >> 33) as u32 % end
}

/// Plays a game until 10 to 13 squares are empty; None if it ends before, or if the side to move then has no move. The
/// first 6 to 30 moves and the last ones are random; the others leave the opponent about the least mobility.
fn position(seed: &mut u64) -> Option<Pos> {
    let empties = 10 + below(4, seed);
    let (first, last, noise) = (30 + below(25, seed), empties + below(5, seed), 16 * (1 + below(40, seed)));
    let mut p = Pos { own: 0x0000_0008_1000_0000, opp: 0x0000_0010_0800_0000 };
    while p.empties() > empties || p.moves() == 0 {
        if p.moves() == 0 {
            p = p.pass();
        }
        let is_random = p.empties() > first || p.empties() <= last;
        let key = |&(child, square): &(Pos, u32)| match is_random {
            true => below(1 << 16, seed),
            false => order(child.moves(), square) + below(noise, seed),
        };
        p = children(p).into_iter().min_by_key(key)?.0;
    }
    (p.empties() == empties).then_some(p)
}

/// The states of `number` positions, and by how much their values exceed the rest of the evaluation.
fn rows(lot: u64, number: u32) -> Vec<([usize; 8], f64)> {
    let mut seed = 0x9e37_79b9_7f4a_7c15_u64.wrapping_mul(2 * lot + 1);
    let table = Table::new(65_536, Scoring::Winner);
    let row = |p: Pos| {
        let value = search_window(&table, p, 0, -65, 65);
        (states(p), f64::from(8 * value - simple_worth(p, p.moves())))
    };
    repeat_with(|| position(&mut seed)).flatten().take(number as usize).map(row).collect()
}

/// The weights that make the sums of a row's states come nearest to its worth.
fn fitted(rows: &[([usize; 8], f64)]) -> [f64; STATES] {
    let (mut weights, mut counts) = ([0.0; STATES], [0.0; STATES]);
    rows.iter().for_each(|(at, _)| at.iter().for_each(|&state| counts[state] += 1.0));
    for _ in 0..ROUNDS {
        let mut errors = weights.map(|weight: f64| -SHRINK * weight);
        for (at, worth) in rows {
            let error = worth - at.iter().map(|&state| weights[state]).sum::<f64>();
            at.iter().for_each(|&state| errors[state] += error);
        }
        (0..STATES).for_each(|state| weights[state] += errors[state] / (8.0 * counts[state] + SHRINK));
    }
    weights
}

#[test]
fn planted_weights_are_found_and_a_state_that_never_occurs_has_none() {
    let planted = |state: usize| if state < 99 { f64::from(state as u8 * 2) - 99.0 } else { 0.0 };
    let mut seed = 1;
    let rows: Vec<_> = (0..20_000).map(|_| [0; 8].map(|_| below(99, &mut seed) as usize)).collect();
    let rows: Vec<_> = rows.into_iter().map(|at| (at, at.map(planted).iter().sum())).collect();
    let weights = fitted(&rows);
    assert!((0..STATES).all(|state| (weights[state] - planted(state)).abs() < 1.0), "{:?}", &weights[..100]);
}

fn main() {
    let number: u32 = std::env::args().nth(1).and_then(|word| word.parse().ok()).expect("a number of games");
    let lots: Vec<_> = (0..LOTS).map(|lot| std::thread::spawn(move || rows(lot, number / LOTS as u32))).collect();
    let rows: Vec<_> = lots.into_iter().flat_map(|lot| lot.join().expect("no panic")).collect();
    println!("{HEAD} {number} games.\n{COMMENT}pub(crate) static WEIGHTS: [i8; {STATES}] = [");
    let mut line = String::from("   ");
    for word in fitted(&rows).map(|weight| format!(" {},", weight.round() as i8)) {
        if line.len() + word.len() > 99 {
            println!("{line}");
            line.truncate(3);
        }
        line += &word;
    }
    println!("{line}\n];");
}
