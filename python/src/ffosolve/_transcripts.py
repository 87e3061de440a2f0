"""Transcripts: the moves of a game in a line of text, also in GGF (https://skatgame.net/mburo/ggsa/ggf)."""
import re
from typing import Dict, List, NamedTuple

PASSES = ("--", "pass", "ps", "pa")
DASHES = str.maketrans(dict.fromkeys("\u2010\u2011\u2012\u2013\u2014\u2212", "-"))  # are read as hyphens
# Several hyphens are a pass, but a single one separates moves. A blank or comma separates a number without a point from
# the move before it, and also a result, which comes last.
TOKEN = re.compile(r"""
    ( [a-h]\s*[1-8] | pass | --+ )
    | (?<![^\s,]) [(\[]? ( [0-9]{1,2} (?:\s+-\s*|[-:]) [0-9]{1,2} | 1/2-1/2 | [+-]?[0-9]{1,2} | \* ) [)\]]? \.? [\s,]*\Z
    | [\s,]+ | - | [0-9]{1,4}\s*[.):]+ | (?<![^\s,]) [0-9]{1,4} (?= [\s,a-h] | \Z )
    | ( [^\s,]{1,2} )
    """, re.VERBOSE)
HEADERS = re.compile(r"\A\s*(?:\[[^\]]*\]\s*)+")  # such as [Event "Final"] [Black "Ann"]
# What a game on several lines has: a first line in SGF, or lines with headers alone and then two with moves.
SPREAD = re.compile(rb"\A\s*\(;.*[^)\s]\s*\n|^(?:\[[^]\n]*][ \t\r]*)+\n\s*[^[%\s].*\n[^[%\n]*[a-h][1-8]", re.I | re.M)
GGF = re.compile(r"\s*(?:\d+\s*)?\(;")
MARKED = re.compile(r"[a-h]\s*[1-8]\s*[!?]", re.IGNORECASE)  # a move with a mark, such as f5!
PROPERTY = re.compile(r"([A-Z]+)\s*\[((?:[^\]\\]|\\.)*)\]")
# The usual board of a game in GGF: its size, all squares, and the side to move; without blanks.
GGF_START = f"8{27 * '-'}O*{6 * '-'}*O{27 * '-'}*"
TELLS = re.compile(r"(\d+)\s*[-:]\s*(\d+)|(1/2)-1/2|([+-]\d+(?:\.\d*)?|0+(?:\.0*)?)")  # a result that tells the board's


class Transcript(NamedTuple):
    """A game as a text has it. The `words` are in lower case: squares without blanks inside, passes (several hyphens
    become `--`), and other text in words of one or two characters. `result` is "" if the text has none."""

    words: List[str]
    result: str = ""
    board: str = GGF_START
    headers: Dict[str, str] = {}  # those of a game in GGF


def transcripts_in(text: str) -> List[Transcript]:
    """The game of a transcript in any form that `Game.of_text` reads, or all those on a line in GGF. Raises ValueError
    for a move with a mark, and as `ggf_transcript`."""
    if GGF.match(text):
        return [ggf_transcript(game) for game in re.split(r"(?<=;\))\s*(?=\(;)", text)]
    text = HEADERS.sub("", text).partition("%")[0].lower().translate(DASHES)
    if marked := MARKED.search(text):
        raise ValueError(f"{marked[0]} has a mark, but a transcript has only moves, as f5d6c3")
    found = TOKEN.findall(text)
    words = [word for move, _, other in found if (word := move or other)]
    words = [word if len(word) < 3 else "--" if word[0] == "-" else "".join(word.split()) for word in words]
    return [Transcript(words, found[-1][1] if found else "")]


def transcript_words(text: str) -> List[str]:
    """The words of a transcript that begins from the usual position. Raises ValueError as `transcripts_in`, and for
    another position or several games."""
    found = transcripts_in(text)
    if len(found) > 1 or found[0].board != GGF_START:
        raise ValueError("it is in GGF, and has several games or another first position: read_games reads it")
    return found[0].words


def ggf_transcript(text: str) -> Transcript:
    """A game in GGF, the format of the Generic Game Server. Where one side moves twice, there is a pass between. Raises
    ValueError for other games, a part of one, and another board."""
    found = PROPERTY.findall(text)
    headers = {name: re.sub(r"\\(.)", r"\1", value).strip() for name, value in found}
    board = "".join(headers.get("BO", "" if "r" in headers.get("TY", "") else GGF_START).split())
    for is_wrong, why in (
        (headers.get("GM", "").lower() != "othello", "it is a game in SGF, or in GGF without GM[Othello]"),
        (not re.fullmatch(r"\s*(\d+\s*)?\(;\s*;\)\s*", PROPERTY.sub("", text)),
         "it begins like a game in GGF, but does not end with `;)`"),
        (not re.fullmatch("8[-*O]{64}[*O]", board), "it is in GGF, and BO does not tell a board of 8 by 8 squares"),
    ):
        if is_wrong:
            raise ValueError(why)
    words: List[str] = []
    mover = "B" if board[-1] == "*" else "W"
    for name, value in found:
        if name in ("B", "W"):
            words += ["pa"] * (name != mover) + [value.partition("/")[0].strip().lower()]
            mover = "W" if name == "B" else "B"
    return Transcript(words, headers.get("RE", ""), board, headers)


def result_fits(result: str, black: int, white: int) -> bool:
    """Whether a result, such as `33-31`, `1-0` or Black's `+2`, is that of a board with so many discs, or tells nothing
    about it, such as `*` or `-64:t`. The winner may also get the empty squares."""
    won, empty = black - white, 64 - black - white
    sign = (won > 0) - (won < 0)
    found = TELLS.fullmatch(result)
    if not found:
        return True
    if found[3]:
        return won == 0
    if found[4]:
        return float(found[4]) in (won, won + sign * empty)
    of_both = int(found[1]), int(found[2])
    half = (won + sign * empty) // 2
    return of_both in ((black, white), (32 + half, 32 - half)) or sum(of_both) == 1 and of_both[0] - of_both[1] == sign
