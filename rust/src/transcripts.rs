//! Transcripts: the moves of a game in a line of text.
use crate::{Position, Square};
use std::fmt;

/// A word of a transcript is no legal move.
#[derive(Clone, PartialEq, Eq, Hash, Debug)]
pub struct TranscriptError {
    /// The move's number, from 1 and without passes.
    pub number: usize,
    pub word: String,
}

impl fmt::Display for TranscriptError {
    fn fmt(&self, f: &mut fmt::Formatter<'_>) -> fmt::Result {
        write!(f, "move {}: {} is not a legal move", self.number, self.word)
    }
}

impl std::error::Error for TranscriptError {}

fn is_blank(letter: char) -> bool {
    letter.is_whitespace() || ('\u{1c}'..='\u{1f}').contains(&letter)
}

fn is_separator(letter: char) -> bool {
    is_blank(letter) || letter == ','
}

/// A transcript in small letters, without headers in brackets before the moves, and without a comment. Dashes become
/// hyphens.
fn plain(transcript: &str) -> String {
    let mut text = transcript.trim_start_matches(is_blank);
    while let Some((_, after)) = text.strip_prefix('[').and_then(|header| header.split_once(']')) {
        text = after.trim_start_matches(is_blank);
    }
    let text = text.split('%').next().unwrap_or("").to_lowercase();
    text.replace(['\u{2010}', '\u{2011}', '\u{2012}', '\u{2013}', '\u{2014}', '\u{2212}'], "-")
}

/// Whether a word is the result of a game, such as `33-31`, `(40:24)`, `1/2-1/2`, `+2` or `*`.
fn is_result(word: &str) -> bool {
    let is_number = |text: &str| (1..=2).contains(&text.len()) && text.bytes().all(|letter| letter.is_ascii_digit());
    let word = word.strip_prefix(['(', '[']).unwrap_or(word);
    let word = word.strip_suffix('.').unwrap_or(word);
    let word = word.strip_suffix([')', ']']).unwrap_or(word);
    let of_both = word.split_once(['-', ':']).map_or(false, |(one, other)| is_number(one) && is_number(other));
    of_both || word == "1/2-1/2" || word == "*" || is_number(word.strip_prefix(['+', '-']).unwrap_or(word))
}

/// The length of a text's first token, and whether that is a word for `words_of`. `is_apart` says whether a blank, a
/// comma or nothing precedes the text.
fn token(text: &str, is_apart: bool) -> (usize, bool) {
    let length_before = |rest: &str| text.len() - rest.len();
    let is_column = |letter: char| ('a'..='h').contains(&letter);
    let is_point = |letter: char| ".):".contains(letter); // after a move's number
    let row = text.strip_prefix(is_column).map_or("", |rest| rest.trim_start_matches(is_blank));
    let hyphens = length_before(text.trim_start_matches('-'));
    let digits = text.bytes().take(5).take_while(u8::is_ascii_digit).count();
    let is_number = (1..=4).contains(&digits);
    let after = &text[digits..];
    let point = after.trim_start_matches(is_blank);
    if row.starts_with(|digit| ('1'..='8').contains(&digit)) {
        (length_before(row) + 1, true)
    } else if text.starts_with("pass") {
        (4, true)
    } else if hyphens > 0 {
        (hyphens, hyphens > 1)
    } else if text.starts_with(is_separator) {
        (length_before(text.trim_start_matches(is_separator)), false)
    } else if is_number && point.starts_with(is_point) {
        (length_before(point.trim_start_matches(is_point)), false)
    } else if is_number && is_apart && after.chars().next().map_or(true, |next| is_separator(next) || is_column(next)) {
        (digits, false)
    } else {
        (text.chars().take(2).take_while(|letter| !is_separator(*letter)).map(char::len_utf8).sum(), true)
    }
}

/// The words of a transcript, in small letters: squares without blanks inside, passes (several hyphens become `--`) and
/// other text in words of one or two characters.
fn words_of(transcript: &str) -> Vec<String> {
    let text = plain(transcript);
    let text = text.trim_end_matches(is_separator);
    let result = text.rsplit(is_separator).next().filter(|last| is_result(last));
    let (mut words, mut rest, mut is_apart) = (Vec::new(), text, true);
    while !(rest.is_empty() || is_apart && Some(rest) == result) {
        let (length, is_word) = token(rest, is_apart);
        let (word, after) = rest.split_at(length);
        if is_word {
            let word = if word.starts_with("--") { "--" } else { word };
            words.push(word.chars().filter(|letter| !is_blank(*letter)).collect());
        }
        is_apart = word.ends_with(is_separator);
        rest = after;
    }
    words
}

impl Position {
    /// The positions of a game that goes on from here: this position, and the one after each move of a transcript such
    /// as `f5d6c3`, but none after a pass.
    ///
    /// Between moves may be blanks, commas, a hyphen or dash, and numbers such as `1.`; at the beginning, headers in
    /// brackets such as `[Black "Ann"]`; at the end, a result such as `33-31` or, for an open one, `*`. A pass is `--`,
    /// `ps`, `pa` or `pass`, and may be left out. A `%` begins a comment. Games in GGF are not read.
    ///
    /// # Errors
    /// The first word that is no legal move.
    pub fn positions(self, transcript: &str) -> Result<Vec<Position>, TranscriptError> {
        self.played(transcript).map(|(positions, _)| positions)
    }

    /// The position after the moves of a transcript, which is read or refused as by `positions`.
    pub fn play_all(self, transcript: &str) -> Result<Position, TranscriptError> {
        self.played(transcript).map(|(_, last)| last)
    }

    fn played(self, transcript: &str) -> Result<(Vec<Position>, Position), TranscriptError> {
        let (mut at, mut positions) = (self, vec![self]);
        for word in words_of(transcript) {
            let may_pass = at.moves().is_empty();
            if at.must_pass() {
                at = at.passed();
            }
            if may_pass && matches!(&word[..], "pass" | "ps" | "pa" | "--") {
                continue;
            }
            let after = word.parse().ok().and_then(|square: Square| at.play(square).ok());
            at = after.ok_or(TranscriptError { number: positions.len(), word })?;
            positions.push(at);
        }
        Ok((positions, at))
    }
}
