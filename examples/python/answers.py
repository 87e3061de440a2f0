"""Reads positions: on each line two hexadecimal masks, the discs of the side to move and of the other side. Prints
the answer for each: the score and the best moves, PS for a pass, or -- at the end of the game. Then plays the first
position to its end, always with the first best move.

    pip install ../../python
    python3 answers.py <../masks.txt              if the library is not installed, add its path: FOLDER/libffosolve.so
"""
import sys

from ffosolve import LibraryNotFound, Position, Refused, Solver


def play_on(solver, position):
    """Plays to the end of the game, and prints each move with all the legal ones."""
    for move, _ in solver.best_line(position):
        print(f"{move} of {','.join(position.legal_moves)}" if position.legal_moves else move)
        position = position.play(move)


def main():
    solver = Solver(*sys.argv[1:])
    masks = [[int(word, 16) for word in line.split()] for line in sys.stdin]
    positions = [Position(own, opp) for own, opp in masks]
    for position, answer in zip(positions, solver.solve_all(positions)):
        print(answer)
        if solver.confirm(position, answer) != answer:
            sys.exit("not confirmed")
    for first in positions[:1]:
        play_on(solver, first)


try:
    main()
except Refused as error:
    sys.exit(error.reason if error.index is None else f"position {error.index + 1}: {error.reason}")
except LibraryNotFound as error:
    sys.exit(str(error))
