"""Answers of many lines. Each is read when it is asked for: objects for millions of them take far longer than the program itself."""
import functools
import re
from typing import Callable, Generic, Iterator, Sequence, TypeVar, Union, overload

from mapf.faults import Failed

Read = TypeVar("Read")
DIGITS = b"0123456789 \n"
# How many lines are read at once.
BLOCK = 4096


def no_answer(data: bytes) -> Failed:
    first = data[:80].decode(errors="replace").partition("\n")[0]
    return Failed(f"'{first}' is no answer of mapf")


class Lines(Sequence[Read], Generic[Read]):
    """What the lines of an answer say, in their order; it equals any sequence of the same. Each line has a word, perhaps none, and numbers, perhaps
    as many each. Whether lines have such words is looked at at once, and the numbers of a line when it is read."""

    def __init__(self, data: bytes, word: bytes, read: Callable[[tuple[int, ...]], Read], width: int = 0) -> None:
        self._data, self._word, self._read, self._width = data, word, read, width
        self._count = data.count(b"\n")
        # The first number of a line stands behind its word.
        self._first = 1 if word else 0
        begun = data.startswith(word) + data.count(b"\n" + word) if word else self._count
        rest = data.translate(None, DIGITS + word)
        if begun != self._count or rest or (data and not data.endswith(b"\n")):
            raise no_answer(data)

    @functools.cached_property
    def _lines(self) -> list[bytes]:
        return self._data.split(b"\n")[:-1]

    def _value(self, line: bytes) -> Read:
        try:
            return self._read(tuple(map(int, line.split()[self._first :])))
        except (TypeError, ValueError):
            raise no_answer(line) from None

    def __len__(self) -> int:
        return self._count

    @overload
    def __getitem__(self, at: int) -> Read: ...

    @overload
    def __getitem__(self, at: slice) -> Sequence[Read]: ...

    def __getitem__(self, at: Union[int, slice]) -> Union[Read, Sequence[Read]]:
        if isinstance(at, slice):
            return tuple(map(self._value, self._lines[at]))
        return self._value(self._lines[at])

    def __iter__(self) -> Iterator[Read]:
        return self._in_blocks() if self._width else map(self._value, self._lines)

    def _in_blocks(self) -> Iterator[Read]:
        """All values of lines that have as many numbers each, which is seen of many lines at once."""
        block = re.compile(rb"(?:%s[0-9]+(?: [0-9]+){%d}\n){1,%d}" % (self._word, self._width - 1, BLOCK))
        begin = 0
        while begin < len(self._data):
            found = block.match(self._data, begin)
            if not found:
                raise no_answer(self._data[begin:])
            numbers = map(int, found[0].replace(self._word, b"").split())
            yield from map(self._read, zip(*[numbers] * self._width))
            begin = found.end()

    def __eq__(self, other: object) -> bool:
        if not isinstance(other, Sequence):
            return NotImplemented
        return len(self) == len(other) and all(one == it for one, it in zip(self, other))

    def __hash__(self) -> int:
        return hash(tuple(self))

    def __repr__(self) -> str:
        return f"({', '.join(map(repr, self[:4]))}{', ..' if len(self) > 4 else ''})"
