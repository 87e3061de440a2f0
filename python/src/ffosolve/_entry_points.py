"""Starts the programs that pip installs. They need a later Python than the package does, which the scripts in bin/ test
themselves."""
import sys


def test_version(name: str) -> None:
    """Ends this process if Python is too old for the program of this name."""
    if sys.version_info < (3, 10):
        sys.exit(f"{name} needs Python 3.10 or later, and this is {sys.version.split()[0]}")


def many() -> None:
    test_version("ffosolve-many")
    from ._many.command import main
    main()


def games() -> None:
    test_version("ffosolve-games")
    from ._games_program import main
    main()
