//! Reads positions: on each line two hexadecimal masks, the discs of the side to move and of the other side. Prints
//! the answer for each: the score and the best moves, PS for a pass, or -- at the end of the game. Then plays the first
//! position to its end, always with the first best move.
//!
//!     cargo run --example answers <../examples/masks.txt
//!
//! If the library is not installed, FFOSOLVE_LIB_DIR names its folder.
use ffosolve::{Best, Position, Solver};
use std::{error::Error, io};

/// Plays on to the end, and prints each move with all the legal ones.
fn play_on(mut position: Position) -> Result<(), Box<dyn Error>> {
    while !position.is_over() {
        if position.must_pass() {
            println!("PS");
            position = position.passed();
        }
        let square = Solver::new().solve(position)?.squares().into_iter().next().ok_or("no best move")?;
        println!("{square} of {}", position.moves());
        position = position.play(square)?;
    }
    Ok(())
}

fn main() -> Result<(), Box<dyn Error>> {
    let mut positions = Vec::new();
    for (at, line) in io::stdin().lines().enumerate() {
        let line = line?;
        let (own, opp) = line.split_once(' ').ok_or("two masks a line")?;
        let position = Position::new(u64::from_str_radix(own, 16)?, u64::from_str_radix(opp, 16)?);
        positions.push(position.map_err(|error| format!("position {}: {error}", at + 1))?);
    }
    let answers = Solver::new().solve_all(&positions)?;
    for (position, answer) in positions.iter().zip(answers) {
        let best = match answer.best {
            Best::Moves(squares) => squares.to_string(),
            Best::Pass => "PS".to_owned(),
            Best::Over => "--".to_owned(),
        };
        println!("{:+03} {best}", answer.score);
        assert_eq!(Solver::new().confirm(*position, answer), Ok(answer));
    }
    positions.first().map_or(Ok(()), |first| play_on(*first))
}
