//! Makes each call with good and with bad arguments.
use ffosolve::*;
use std::collections::HashSet;
use std::time::{Duration, Instant};
use std::{fs, thread};

const LINE: &str = "-OXXXXX-XXXXXXXOXXXXXXXXXXXXXXXXXXXOXXXXXXXXXXXXXXXXXXXXXXXXXXXX X; H1:+62;";
const ANSWER: Answer = Answer { score: 62, best: Best::Moves(Squares(0x80)) };

fn position(own: u64, opp: u64) -> Position {
    Position::new(own, opp).expect("masks apart")
}

/// The position of `LINE`.
fn corners() -> Position {
    position(0xffff_fff7_ffff_7f7c, 0x8_0000_8002)
}

/// A position in which the side to move has to pass.
fn at_pass() -> Position {
    position(0x7e, !0x7f)
}

fn square(name: &str) -> Square {
    name.parse().expect("a square")
}

#[test]
fn each_call_solves_under_each_scoring_whatever_is_claimed() {
    let position = corners().passed();
    for (scoring, score) in [(Scoring::Winner, -40), (Scoring::Discs, -39), (Scoring::Sign, -1)] {
        let solver = Solver::new().scoring(scoring).entries(64);
        let answer = Answer { score, ..ANSWER };
        assert_eq!(solver.solve(position), Ok(answer));
        for best in [Best::Over, Best::Pass, Best::Moves(Squares(0)), answer.best] {
            assert_eq!(solver.confirm(position, Answer { score: 62, best }), Ok(answer));
        }
        assert_eq!(solver.move_scores(position), Ok(vec![(square("H1"), score)]));
    }
}

#[test]
fn a_pass_and_a_finished_game_have_answers_without_squares() {
    let over = position(0xffff_ffff, 0xffff << 48);
    for (position, must_pass, is_over, answer, squares) in [
        (corners(), false, false, ANSWER, "H1"),
        (at_pass(), true, false, Answer { score: -64, best: Best::Pass }, ""),
        (over, false, true, Answer { score: 32, best: Best::Over }, ""),
    ] {
        assert_eq!((position.must_pass(), position.is_over()), (must_pass, is_over));
        assert_eq!(Solver::default().solve(position), Ok(answer));
        assert_eq!(answer.squares().to_string(), squares);
    }
    assert_eq!(Solver::new().move_scores(corners()), Ok(vec![(square("A1"), 52), (square("H1"), 62)]));
    assert_eq!(Solver::new().move_scores(at_pass()), Ok(Vec::new()));
}

/// The positions of a game in which each side plays its first legal move, and the moves; a pass is `--`.
fn first_game() -> (Vec<Position>, Vec<String>) {
    let (mut positions, mut moves) = (vec![Position::start()], Vec::new());
    let mut at = Position::start();
    while !at.is_over() {
        if at.must_pass() {
            at = at.passed();
            moves.push("--".to_owned());
        }
        let square = at.moves().into_iter().next().expect("a move");
        at = at.play(square).expect("a legal move");
        moves.push(square.to_string());
        positions.push(at);
    }
    (positions, moves)
}

#[test]
fn many_positions_have_the_answers_and_scores_of_each() {
    let (positions, _) = first_game();
    let last = &positions[positions.len() - 12..];
    for (threads, count) in [(1, 0), (1, 40), (3, 0), (3, 40)] {
        let (one, many, last) = (Solver::new(), Solver::new().threads(threads), last.repeat(count));
        let answers: Result<Vec<_>, Error> = last.iter().map(|each| one.solve(*each)).collect();
        let scores: Result<Vec<_>, Error> = last.iter().map(|each| one.move_scores(*each)).collect();
        assert_eq!((many.solve_all(&last), many.move_scores_all(&last)), (answers, scores));
    }
}

/// These calls run the programs that are installed with the library.
#[test]
fn programs_find_what_the_library_finds_even_for_two_calls_at_once() {
    let line = "XXX--OXOOXOOOOOO-XXXXXOO-XXXXOOO---XOXOO--OOOOOO---OOXOO----OOOO";
    let hard: Position = format!("{line} O;").parse::<Line>().expect("16 empty squares").position;
    let list = [hard.passed(), corners(), hard.passed(), at_pass(), hard];
    for scoring in [Scoring::Winner, Scoring::Discs, Scoring::Sign] {
        let one = Solver::new().scoring(scoring);
        let (answers, scores) = (one.solve_all(&list).expect("answers"), one.move_scores_all(&list).expect("scores"));
        let check = |many: Solver| {
            assert_eq!((many.solve_all(&list), many.move_scores_all(&list)), (Ok(answers.clone()), Ok(scores.clone())));
            for score in [answers[4].score, 1, -128] {
                assert_eq!(many.confirm(hard, Answer { score, best: Best::Pass }), Ok(answers[4]));
            }
        };
        let solvers = [one.threads(3), one.threads_all().timeout(Duration::MAX)];
        thread::scope(|scope| solvers.map(|many| scope.spawn(move || check(many))).map(|it| it.join().expect("equal")));
    }
}

#[test]
fn a_call_ends_at_its_timeout() {
    let (hopeless, begun) = (Position::start(), Instant::now());
    for (solver, milliseconds) in [(Solver::new(), 0), (Solver::new().threads(2), 0), (Solver::new(), 200)] {
        let solver = solver.max_empties(60).timeout(Duration::from_millis(milliseconds));
        assert_eq!(solver.solve(hopeless), Err(Error::TimedOut));
        assert_eq!(solver.confirm(hopeless, ANSWER), Err(Error::TimedOut));
        assert_eq!(solver.move_scores(hopeless), Err(Error::TimedOut));
        assert_eq!(solver.solve(corners()).is_ok(), milliseconds > 0);
        assert_eq!(fs::read_to_string("/proc/thread-self/children").expect("processes"), "");
    }
    assert!(begun.elapsed() < Duration::from_secs(60));
}

#[test]
fn the_mover_has_a_colour_that_no_comparison_sees() {
    let at = Position::start().play_all("f5d6c3").expect("legal moves");
    assert_eq!(at.to_obf(), "------------------X--------XX------OXX-----O-------------------- O;");
    let line: Line = at.to_obf().parse().expect("a line");
    let image = at.image(Symmetry::HalfTurn);
    for position in [at, line.position, image, at.canonical().0, at.with_side(Side::Black).passed()] {
        assert_eq!((position.side(), position.passed().side()), (Side::White, Side::Black));
    }
    assert_eq!((at, line.side), (at.with_side(Side::Black), Side::White));
    assert_eq!(HashSet::from([at, at.with_side(Side::Black)]).len(), 1);
}

#[test]
fn transcripts_are_played() {
    let (positions, moves) = first_game();
    let (start, last) = (Position::start(), positions[positions.len() - 1]);
    assert!(moves.contains(&"--".to_owned()));
    let without_passes = moves.concat().replace("--", "");
    let number = |at| format!("{}{}", at + 1, [".", ")", ":"][at % 3]);
    let numbered: String = moves.iter().enumerate().map(|(at, word)| format!("{} {word},", number(at))).collect();
    let glued = numbered.replace([' ', ','], "");
    let texts = [
        moves.join(" "),
        without_passes.to_lowercase(),
        moves.join("-"),
        numbered + "33-31 % f5",
        format!("[Event \"f5\"] [Black \"Ann\"]\n{glued} (40:24)"),
        glued.replace("--", "pass") + "---PA",
    ];
    for text in texts {
        assert_eq!(start.positions(&text).as_ref(), Ok(&positions), "{text}");
        assert_eq!(start.play_all(&text), Ok(last));
    }
    let (first, rest) = without_passes.split_at(40);
    assert_eq!(start.play_all(first).and_then(|middle| middle.play_all(rest)), Ok(last));
    assert_eq!((start.positions(""), start.play_all("% f5")), (Ok(vec![start]), Ok(start)));
    for text in ["--", "ps", "PA", "pass", "---"] {
        assert_eq!(at_pass().play_all(text), Ok(at_pass().passed()), "{text}");
    }
    assert_eq!(at_pass().play_all("-"), Ok(at_pass()));
}

#[test]
fn the_first_word_of_a_transcript_that_is_no_legal_move_is_refused() {
    for (text, number, word) in [
        ("f5d6d6", 3, "d6"),
        ("f5 pass", 2, "pass"),
        ("e3", 1, "e3"),
        ("F5z9d6", 2, "z9"),
        ("f5 d", 2, "d"),
        ("f5 12 +2 d6", 2, "+2"),
        ("f5 ++", 2, "++"),
        ("f5d6c33d3", 4, "3d"),
        ("f5 [d6] c3", 2, "[d"),
        ("f5\u{e4}\u{f6}", 2, "\u{e4}\u{f6}"),
    ] {
        let error = Position::start().play_all(text).expect_err(text);
        assert_eq!(error, TranscriptError { number, word: word.to_owned() });
        assert_eq!(error.to_string(), format!("move {number}: {word} is not a legal move"));
    }
    assert!(at_pass().play_all("p9").is_err());
}

#[test]
fn images_have_one_canonical_position_and_images_of_best_moves() {
    let canonical = position(0x3efe_ffff_efff_ffff, 0x4001_0000_1000_0000);
    assert_eq!(corners().canonical(), (canonical, Symmetry::HalfTurn));
    let images = Symmetry::ALL.map(|symmetry| corners().image(symmetry));
    assert_eq!((HashSet::from(images).len(), images[3]), (8, canonical));
    let corner = ["H1", "A1", "H8", "A8", "A8", "H8", "A1", "H1"].map(square);
    for ((symmetry, image), corner) in Symmetry::ALL.into_iter().zip(images).zip(corner) {
        assert_eq!(image.canonical().0, canonical);
        assert_eq!(image.image(symmetry.inverse()), corners());
        assert_eq!(square("H1").image(symmetry), corner);
        let best = Best::Moves(ANSWER.squares().image(symmetry));
        assert_eq!(best, Best::Moves(Squares(corner.bit())));
        assert_eq!(Solver::new().solve(image), Ok(Answer { best, ..ANSWER }));
    }
}

#[test]
fn legal_moves_are_played_and_others_refused() {
    let start = position(0x0000_0008_1000_0000, 0x0000_0010_0800_0000);
    assert_eq!((start, start.must_pass(), start.is_over()), (Position::start(), false, false));
    assert_eq!(start.moves().to_string(), "D3,C4,F5,E6");
    assert_eq!(start.play(square("d3")), Ok(position(0x0000_0010_0000_0000, 0x0000_0008_1808_0000)));
    for name in ["A1", "D4", "H8"] {
        assert_eq!(start.play(square(name)), Err(Error::NoMove));
    }
}

#[test]
fn masks_that_share_a_square_many_empty_squares_and_large_tables_are_refused() {
    assert_eq!(Position::new(3, 2), Err(Error::SharedSquare));
    let (solver, large) = (Solver::new(), Solver::new().entries(MOST_ENTRIES + 1));
    assert_eq!(solver, solver.max_empties(DEFAULT_EMPTIES));
    assert_eq!(solver.max_empties(99), solver.max_empties(MOST_EMPTIES));
    let [of_20, of_21, of_60, of_61] = [20, 21, 60, 61].map(|empties| position(1, !1 << empties));
    let many_empties = |empties, most| Err(Error::TooManyEmpties { index: 0, empties, most });
    for (solver, position, wanted) in [
        (solver, of_20, Ok(())),
        (solver, of_21, many_empties(21, 20)),
        (solver.max_empties(21), of_21, Ok(())),
        (solver.max_empties(99), of_60, Ok(())),
        (solver.max_empties(99), of_61, many_empties(61, 60)),
        (solver.entries(MOST_ENTRIES), corners(), Ok(())),
        (large, corners(), Err(Error::TooManyEntries)),
        (large, of_21, many_empties(21, 20)),
    ] {
        assert_eq!(solver.solve(position).map(drop), wanted);
        assert_eq!(solver.confirm(position, ANSWER).map(drop), wanted);
        assert_eq!(solver.move_scores(position).map(drop), wanted);
    }
    let many = [vec![corners(); 300], vec![of_21; 2]].concat();
    let refusal = Error::TooManyEmpties { index: 300, empties: 21, most: 20 };
    let text = "position at index 300: 21 empty squares are more than max_empties=20 of the Solver";
    assert_eq!(refusal.to_string(), text);
    for threads in [1, 2] {
        assert_eq!(solver.threads(threads).solve_all(&many), Err(refusal));
        for few in [&many[..0], &many[..300]] {
            assert_eq!(large.threads(threads).solve_all(few), Err(Error::TooManyEntries));
        }
    }
}

#[test]
fn positions_have_discs_and_sets_have_squares() {
    let two = position(1, 2);
    assert_eq!([two.own(), two.opp(), two.empties()], [Squares(1), Squares(2), Squares(!3)]);
    assert_eq!(two.passed(), position(2, 1));
    for (at, discs, side) in [(two, "XO", "X"), (two.passed(), "XO", "O"), (two.with_side(Side::White), "OX", "O")] {
        let text = format!("{discs}{} {side};", "-".repeat(62));
        assert_eq!((at.to_obf(), format!("{at:?}")), (text.clone(), format!("Position({text})")));
    }
    for (mask, len, text) in [(0x81, 2, "A1,H1"), (2, 1, "B1"), (0, 0, "")] {
        let set = Squares(mask);
        assert_eq!((set.mask(), set.len(), set.into_iter().len(), set.is_empty()), (mask, len, len, len == 0));
        assert_eq!((set.to_string(), format!("{set:?}")), (text.to_owned(), format!("Squares({text})")));
        assert!((0..64).filter_map(Square::new).filter(|each| set.contains(*each)).eq(set));
    }
}

#[test]
fn squares_have_names_and_numbers() {
    for (name, number) in [("A1", 0), ("B1", 1), ("H1", 7), ("A2", 8), ("H8", 63)] {
        let it = square(name);
        assert_eq!((it.number(), it.bit(), format!("{it} {it:?}")), (number, 1 << number, format!("{name} {name}")));
    }
    for it in (0..64).filter_map(Square::new) {
        assert_eq!(it.to_string().to_lowercase().parse(), Ok(it));
    }
    assert_eq!(Square::new(64), None);
    for name in ["", "A", "A9", "I1", "A11", "1A"] {
        assert_eq!(name.parse::<Square>().expect_err(name).to_string(), "not the name of a square");
    }
}

/// The tests of the repository read many more lines with the library that this crate calls.
#[test]
fn lines_of_obf_are_read_or_refused() {
    assert_eq!(Position::from_obf(LINE), Ok(corners()));
    assert_eq!(format!("  {}", LINE.replace('X', "*").replace('O', "w").replace('-', ".")).parse(), Ok(corners()));
    assert_eq!(Position::from_obf(&corners().passed().to_obf()), Ok(corners().passed()));
    for (text, error) in [
        (&b"\r\n"[..], ObfError::NoPosition),
        (&LINE.as_bytes()[..63], ObfError::ShortBoard { squares: 63 }),
        (b"\xff", ObfError::BadSquare { column: 1 }),
        (&LINE.as_bytes()[..64], ObfError::BadSide { column: 65 }),
    ] {
        assert_eq!((Position::from_obf(text), Line::from_obf(text)), (Err(error), Err(error)));
    }
    let of_h1 = |score| (Listed::Move(square("H1")), score);
    assert_eq!(LINE.parse(), Ok(Line { position: corners(), side: Side::Black, listed: vec![of_h1(62)] }));
    let listed = vec![(Listed::Pass, -4), (Listed::Over, 0), of_h1(-64)];
    assert_eq!(format!("{} {} {}", listed[0].0, listed[1].0, listed[2].0), "PS -- H1");
    let line = |text: &str| Line::from_obf(&format!("{}{text}", &LINE[..64]));
    let wanted = Line { position: corners().passed(), side: Side::White, listed };
    assert_eq!(line("O; PS:-4;--:0; h1:-64 \r\n"), Ok(wanted));
    assert_eq!(line(&format!("X;{}", "H1:7;".repeat(1000))).expect("a line").listed, [of_h1(7); 1000]);
}

#[test]
fn threads_may_share_all_and_sets_hold_all_but_errors() {
    fn are_shared<T: Copy + Send + Sync>() {}
    fn are_keys<T: Eq + std::hash::Hash>() {}
    are_shared::<(Solver, Position, Answer, Listed, Symmetry, Error, ObfError)>();
    are_keys::<(Solver, Position, Answer, Line, Squares, Symmetry, TranscriptError)>();
}

#[test]
fn versions_sizes_and_limits_are_those_of_the_header() {
    let parts = env!("CARGO_PKG_VERSION").split('.').map(|part| part.parse::<u32>().expect("a number"));
    assert_eq!(parts.fold(0, |number, part| 100 * number + part), library_version());
    let sizes = [0, 10, 11, 14, 15, 22, 23, 60].map(table_entries);
    assert_eq!(sizes, [0, 0, 4096, 4096, 65536, 65536, 1000000, 1000000]);
    let scorings = [Ok(Scoring::Winner), Ok(Scoring::Discs), Ok(Scoring::Sign), Err(Error::UnknownScoring)];
    assert_eq!([0, 1, 2, 3].map(Scoring::try_from), scorings);
    // SAFETY: the call takes a number.
    let limits = [0, 1, 2].map(|number| unsafe { raw::ffosolve_limit(number) });
    assert_eq!(limits, [MOST_ENTRIES, MOST_EMPTIES, 3]);
    assert_eq!(Error::TooManyEntries.to_string(), format!("more than {} table entries", limits[0]));
}
