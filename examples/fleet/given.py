"""Numbers that the words of a command line give."""
import argparse
from typing import Optional

# How many numbers a plan may have.
NUMBERS = 1 << 32


def number_in(word: str, most: int) -> Optional[int]:
    """The number that digits alone give, with any leading zeros; None where a word is no such number, or one above the most."""
    digits = word.lstrip("0") or "0"
    # Python makes no number of thousands of digits.
    if not word.isascii() or not word.isdigit() or len(digits) > len(str(most)) or int(digits) > most:
        return None
    return int(digits)


def number_up_to(word: str, most: int) -> int:
    """The same number; a word that gives none is refused."""
    found = number_in(word, most)
    if found is None:
        raise argparse.ArgumentTypeError(f"{word[:40]!r} is no number up to {most}")
    return found


def plan_number(word: str) -> int:
    """The number of a plan."""
    return number_up_to(word, NUMBERS - 1)
