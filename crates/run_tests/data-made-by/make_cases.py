#!/usr/bin/env python3
"""Writes the file stdout of this crate.

The expected answers are computed here and not by the crate, by the rules of docs/STORES.md, docs/ROWS.md and docs/TEXT.md on lists of
shown cells: what a store takes is decided by its sizes and its list of cells alone, so no joined text is kept, no runs and no bits.
Python's own UTF-8 decoder says which texts are good; pieces are worked out by a regular expression over characters.

    python3 make_cases.py DIR     writes DIR/stdout
"""
import re
import sys
from collections import Counter
from itertools import groupby

COLUMNS = 4096
CONTROL = "\\x00-\\x1f\\x7f-\\x9f"
MARK = "\\u0300-\\u036f\\u200d\\ufe00-\\ufe0f"
# CR LF, or one control, or any other character with the marks behind it
UTF8_PIECE = re.compile(f"\\r\\n|[{CONTROL}]|[^{CONTROL}][{MARK}]*", re.DOTALL)
ASCII_PIECE = re.compile("\\r\\n|.", re.DOTALL)
SPLITTERS = {"UTF-8": ("utf-8", UTF8_PIECE), "ASCII": ("ascii", ASCII_PIECE)}

# The text that is given for a letter, its width, and the number of its attributes; all numbers are unlike attributes.
LETTERS = {
    "a": ("a", 1, 0), "b": ("b", 1, 0), "A": ("a", 1, 1), "B": ("b", 1, 1), "f": ("a", 1, 2), "s": ("a", 1, 3),
    "_": (" ", 1, 0), "x": ("x", 2, 0), "W": ("\u4e2d", 2, 0), "V": ("\u4e2d", 2, 1), "n": ("\u4e2d", 1, 0),
    "3": ("\u20ac", 1, 0), "7": ("e\u0301\u0301\u0301", 1, 0), "e": ("e", 1, 0), "E": ("e\u0301", 1, 0),
    "m": ("\u0301", 1, 0), "M": ("\u0301", 1, 1), "j": ("\u200d", 1, 0), "h": ("\u1100", 2, 0), "k": ("\u1161", 1, 0),
    "r": ("\U0001f1e6", 1, 0), "C": ("\r", 1, 0), "L": ("\n", 1, 0),
    "1": (b"\xff", 1, 0), "c": (b"\xcc\x81\xff", 1, 0), "2": ("ab", 1, 0), "d": ("\u0301a", 1, 0),
}


def clean(text):
    """Cleaning: what means nothing to show, or moves on a display, becomes a space."""
    single = len(text) == 1 and (text[0] < 0x20 or text[0] == 0x7F)
    pair = len(text) == 2 and text[0] == 0xC2 and 0x80 <= text[1] <= 0x9F
    return b" " if text in (b"", b"\r\n") or single or pair else text


def shown(letter):
    """The cell of a letter: text, width and attributes."""
    text, width, attrs = LETTERS[letter]
    return clean(text if isinstance(text, bytes) else text.encode("utf-8")), width, attrs


# The first letter of equal cells is the one that is read back.
BACK = {}
for each in LETTERS:
    BACK.setdefault(shown(each), each)


# The order in which counts of letters are told.
LETTER_ORDER = "abABfs_xWVn37eEmMjhkr"


class Store:
    """A run store as its rules have it: sizes, and a list of shown cells."""

    def __init__(self, splitter, most, room, number):
        self.coding, self.piece = SPLITTERS[splitter]
        self.most, self.room, self.number = most, room, number
        self.cells = []
        self.bytes_used = self.columns = self.turns = 0

    def pieces(self, text):
        """The pieces of a text, or none of one that is not good."""
        try:
            return [piece.encode("utf-8") for piece in self.piece.findall(text.decode(self.coding))]
        except UnicodeDecodeError:
            return None

    def runs(self):
        """No run for no cells, otherwise one more than the neighbours with unlike attributes."""
        return self.turns + 1 if self.cells else 0

    def refusal(self, cell):
        """The number of what refuses a cell, or none: 1, 2, 10 and 11 in this order."""
        text, width, attrs = cell
        pieces = self.pieces(text)
        if pieces is None:
            return 1
        if len(pieces) != 1:
            return 2
        runs = 1
        if self.cells:
            last, _, before = self.cells[-1]
            if len(self.pieces(last + text)[0]) > len(last):
                return 10
            runs = self.runs() + (before != attrs)
        if runs > self.most or self.bytes_used + len(text) > self.room or self.columns + width > COLUMNS:
            return 11
        return None

    def count(self, sign):
        """The last cell's part of the sums, for one more or one fewer."""
        text, width, attrs = self.cells[-1]
        self.bytes_used += sign * len(text)
        self.columns += sign * width
        self.turns += sign * (len(self.cells) > 1 and self.cells[-2][2] != attrs)

    def step(self, letter):
        """Does what a letter says, and gives the word for what it came to."""
        if letter == "<":
            if self.cells:
                self.count(-1)
                self.cells.pop()
            return "<"
        if letter == "=":
            self.cells = []
            self.bytes_used = self.columns = self.turns = 0
            return "="
        cell = shown(letter)
        why = self.refusal(cell)
        if why is not None:
            return str(why)
        self.cells.append(cell)
        self.count(1)
        return "ok"


def times(count, word):
    return word if count == 1 else f"{count}*{word}"


def story(name, splitter, number, most, room, script):
    """The line of a trial: script is a list of counts and letters."""
    store = Store(splitter, most, room, number)
    outcomes = [store.step(letter) for count, letters in script for _ in range(count) for letter in letters]
    grouped = [times(len(list(group)), word) for word, group in groupby(outcomes)]
    letters = [BACK[cell] for cell in store.cells]
    placed = []
    start = 0
    for cell, letter in zip(store.cells, letters):
        placed.append(f"{start}:{letter}")
        start += cell[1]
    read = "".join(letters)
    if len(letters) > 8:
        counts = Counter(letters)
        read = " ".join(times(counts[letter], letter) for letter in LETTER_ORDER if counts[letter])
        placed = placed[-3:]
    tried = " ".join(times(count, letters) for count, letters in script)
    return (f"{name} {most} runs {room} bytes: {tried}: {' '.join(grouped)}; {store.runs()} runs, {store.bytes_used} bytes, "
            f"{store.columns} columns, number {store.number}; {read}; {' '.join(placed + ['none'])}")


def each(most, room, *scripts):
    return [(most, room, [(1, script)]) for script in scripts]


def runs():
    for most in range(4):
        yield from each(most, 8, "aaaa", "aAaA", "aAAb")
    yield from each(4, 8, "aAfsaA")


def common(wide):
    """The trials that every splitter has, with the letter of a wide cell."""
    yield from runs()
    for many in ((4096, "a"), (2048, wide), (4095, "a"), (4094, "a"), (2047, wide)):
        yield 4, 9000, [many, (1, wide), (1, "ab")]
    for start in (62, 63, 64, 4093, 4094, 4095):
        yield 2, 5000, [(start, "a"), (1, wide), (1, "ab")]
    yield 2, 200, [(31, wide), (1, "a"), (2, wide)]
    yield 2, 200, [(62, "a"), (2, wide), (1, "a")]
    yield 1, 4096, [(4096, "a"), (1, "aA")]
    yield 1, 4095, [(4096, "a"), (1, "A")]
    for most in (4096, 4095):
        yield most, 4096, [(2048, "aA"), (1, "ab")]
    yield from each(2, 3, "<<=a", "aA<A", "aAf<b<<<fs", "aAfs=sAaa", "ab1<2<c<")
    yield 2, 200, [(63, "a"), (1, wide), (1, "<Aab")]
    yield 2, 200, [(63, "a"), (1, wide), (1, "<"), (1, wide), (1, "a")]
    yield 1, 4096, [(4097, "a"), (1, "<bb<<bbb")]
    yield 1, 4096, [(4096, "a"), (4097, "<"), (1, "A")]
    yield 4096, 4096, [(2049, "aA"), (1, "<BA=ABa")]


def ascii_alone():
    for room in range(4):
        yield from each(2, room, "aAb")
    yield from each(2, 2, "CL", "C_L", "Ea2", "am")
    yield from each(0, 0, "12Ea")


def utf8_alone():
    for room in range(13):
        yield from each(1, room, "37a")
    for room in (6, 7, 8):
        yield from each(2, room, "7a", "a7<7")
    yield from each(3, 20, *"em Em _m CL Cm Wm nm mm ma ej 7m 3m mjE eE hk rr WVn aMa e1c2dm em=m eE<m a<m".split())
    yield from each(1, 1, "ecdmMa", "2a1A", "mea")
    yield from each(1, 9, "eMA")
    yield from each(0, 9, "12dcma")
    yield from each(9, 0, "12dcma")
    yield 1, 5000, [(4095, "a"), (1, "emM1a")]


def main():
    benches = (
        ("ASCII, colour", "ASCII", 7, [*common("x"), *ascii_alone()]),
        ("UTF-8, colour", "UTF-8", 0, [*common("W"), *utf8_alone()]),
        ("UTF-8, strip", "UTF-8", 2**64 - 1, runs()),
    )
    with open(f"{sys.argv[1]}/stdout", "w", encoding="ascii") as out:
        for name, splitter, number, trials in benches:
            for trial in trials:
                out.write(story(name, splitter, number, *trial) + "\n")


main()
