#!/usr/bin/env python3
"""Writes what the panel prints of a text, from the rules of docs/TEXT.md, ROWS.md, STORES.md and PANEL.md and not by the panel.

Python's own UTF-8 decoder says which lines are good, a regular expression cuts them into pieces, and a row is a list of texts and widths.

    python3 make_cases.py < stdin > stdout
"""
import re
import sys

CONTROL = "\\x00-\\x1f\\x7f-\\x9f"
MARK = "\\u0300-\\u036f\\u200d\\ufe00-\\ufe0f"
PIECE = re.compile(f"\\r\\n|[{CONTROL}]|[^{CONTROL}][{MARK}]*", re.DOTALL)
WIDE = [
    (0x1100, 0x115F), (0x2E80, 0x303E), (0x3041, 0xA4CF), (0xAC00, 0xD7A3), (0xF900, 0xFAFF), (0xFE10, 0xFE19),
    (0xFE30, 0xFE6F), (0x1F300, 0x1F64F), (0x1F900, 0x1F9FF), (0x20000, 0x2FFFD), (0x30000, 0x3FFFD),
]
WORDS = {
    1: "the text is not good text",
    3: "a piece of the text is longer than 7 bytes",
    6: "the row would pass its capacity",
    10: "two neighbouring texts fuse",
    11: "the store has no room",
}
RUNS, BYTES, COLUMNS = 4096, 28672, 4096


def unclean(piece):
    """Whether cleaning makes a space of a piece."""
    return piece == "\r\n" or (len(piece) == 1 and (ord(piece) < 0x20 or 0x7F <= ord(piece) <= 0x9F))


def width(piece):
    return 2 if any(low <= ord(piece[0]) <= high for low, high in WIDE) else 1


def measured(line):
    """The cells of a line, each a text and a width, and how many controls became blanks; or the number of its refusal."""
    try:
        text = line.decode("utf-8")
    except UnicodeDecodeError:
        return 1
    pieces = PIECE.findall(text)
    clean = [" " if unclean(p) else p for p in pieces]
    if any(len(p.encode()) > 7 for p in clean):
        return 3
    cells = [(p, width(p)) for p in clean]
    return 6 if sum(w for _, w in cells) > COLUMNS else (cells, sum(map(unclean, pieces)))


def fitting(columns, display):
    return "fits" if columns <= display else f"passes by {columns - display}"


def packing(cells):
    """Of equal attributes, so that a row that is not empty is one run."""
    taken = 0
    for i, (text, _) in enumerate(cells):
        if i and len(PIECE.match(cells[i - 1][0] + text).group()) > len(cells[i - 1][0]):
            return f"cannot be packed: refused 10: {WORDS[10]}"
        taken += len(text.encode())
        if taken > BYTES:
            return f"cannot be packed: refused 11: {WORDS[11]}"
    return f"packed: {min(1, len(cells))} runs, {taken} bytes of text"


def main():
    data = sys.stdin.buffer.read()
    lines = data.split(b"\n")
    if lines[-1] == b"":
        lines.pop()
    out, count, refused = [], dict.fromkeys(("cells", "columns", "widest", "door", "laptop"), 0), {}
    for n, line in enumerate(lines, 1):
        found = measured(line)
        if isinstance(found, int):
            refused[found] = refused.get(found, 0) + 1
            out.append(f"line {n}: refused {found}: {WORDS[found]}")
            continue
        cells, controls = found
        columns = sum(w for _, w in cells)
        out.append(
            f"line {n}: {columns} columns, {len(cells)} cells, {controls} controls became blanks"
            f"; door display: {fitting(columns, 40)}; laptop: {fitting(columns, 80)}"
        )
        count["cells"] += len(cells)
        count["columns"] += columns
        count["widest"] = max(count["widest"], columns)
        count["door"] += columns > 40
        count["laptop"] += columns > 80
        kept = list(cells)
        while kept and kept[-1][0] == " ":
            kept.pop()
        length = sum(w for _, w in kept)
        board = 40 if length <= 40 else max(80, length)
        shown = "".join(t for t, _ in kept) + " " * (board - length)
        number = 2 * n - 1 if len(kept) == len(cells) else 2 * n
        out.append(f"  shown at change number {number}: |{shown}|")
        out.append(f"  {packing(kept)}")
    out += [
        f"lines: {len(lines)}",
        f"cells: {count['cells']}",
        f"columns: {count['columns']}",
        f"widest line: {count['widest']} columns",
        f"too wide for the door display (40 columns): {count['door']}",
        f"too wide for the laptop (80 columns): {count['laptop']}",
    ]
    out += [f"refused {k}: {v}" for k, v in sorted(refused.items())]
    sys.stdout.buffer.write(("\n".join(out) + "\n").encode())


main()
