#!/usr/bin/env python3
"""Writes the files stdin and stdout of this crate.

The expected answers are computed here and not by the crate: Python's own UTF-8 decoder says which bytes are good text and where the
first wrong byte stands; the controls, the marks and the wide ranges are written out below; the rule of the pieces is worked out by
a regular expression over characters.

    python3 make_cases.py DIR     writes DIR/stdin and DIR/stdout
"""
import re
import sys

WIDE = """1100-115F 2E80-303E 3041-A4CF AC00-D7A3 F900-FAFF FE10-FE19 FE30-FE6F
          1F300-1F64F 1F900-1F9FF 20000-2FFFD 30000-3FFFD"""
RANGES = [tuple(int(end, 16) for end in pair.split("-")) for pair in WIDE.split()]

CONTROL = "\\x00-\\x1f\\x7f-\\x9f"
MARK = "\\u0300-\\u036f\\u200d\\ufe00-\\ufe0f"
# CR LF, or one control, or any other character with the marks behind it
PIECE = re.compile(f"\\r\\n|[{CONTROL}]|[^{CONTROL}][{MARK}]*", re.DOTALL)


def answer(text):
    """What the program is to say of some bytes."""
    try:
        front, verdict = text.decode("utf-8"), "good"
    except UnicodeDecodeError as wrong:
        front, verdict = text[: wrong.start].decode("utf-8"), "bad"
    words = [verdict]
    for piece in PIECE.findall(front):
        wide = any(low <= ord(piece[0]) <= high for low, high in RANGES)
        words.append(f"{len(piece.encode('utf-8'))}/{2 if wide else 1}")
    return " ".join(words)


def encoded(number):
    """The bytes of a number by the pattern of its size, also where UTF-8 has none for it (a surrogate, or above 10FFFF)."""
    if number < 0x80:
        return bytes([number])
    if number < 0x800:
        return bytes([0xC0 | number >> 6, 0x80 | number & 0x3F])
    if number < 0x10000:
        return bytes([0xE0 | number >> 12, 0x80 | number >> 6 & 0x3F, 0x80 | number & 0x3F])
    return bytes([0xF0 | number >> 18, 0x80 | number >> 12 & 0x3F, 0x80 | number >> 6 & 0x3F, 0x80 | number & 0x3F])


def longer(number, size):
    """The same number in a form of more bytes than it needs."""
    lead = {2: 0xC0, 3: 0xE0, 4: 0xF0}[size]
    tails = [0x80 | number >> 6 * place & 0x3F for place in range(size - 1)]
    return bytes([lead | number >> 6 * (size - 1)] + tails[::-1])


def around(points):
    """Each number with its neighbours, in order."""
    return sorted({p for point in points for p in (point - 1, point, point + 1) if p >= 0})


def groups():
    """Each group of cases: its heading and its texts."""
    edges = [0x00, 0x7F, 0x80, 0x7FF, 0x800, 0xFFF, 0x1000, 0xCFFF, 0xD000, 0xD7FF, 0xD800, 0xDBFF, 0xDC00, 0xDFFF, 0xE000,
             0xFFFF, 0x10000, 0x3FFFF, 0x40000, 0xFFFFF, 0x100000, 0x10FFFF, 0x110000, 0x13FFFF, 0x1FFFFF]
    yield "the empty text", [b""]
    yield "every byte alone", [bytes([b]) for b in range(256)]
    yield "the ends of each encoding, with their neighbours", [encoded(p) for p in around(edges) if p < 0x200000]
    yield "first bytes and second bytes at the ends of their ranges, complete otherwise", [
        bytes([a, b]) + b"\x80" * more
        for more, leads in ((0, "C0 C1 C2 DF"), (1, "E0 E1 EC ED EE EF"), (2, "F0 F1 F3 F4 F5 FF"))
        for a in bytes.fromhex(leads)
        for b in (0x00, 0x7F, 0x80, 0x8F, 0x90, 0x9F, 0xA0, 0xBF, 0xC0, 0xFF)
    ]
    small = {2: (0x00, 0x2F, 0x7F), 3: (0x00, 0x7F, 0x80, 0x7FF), 4: (0x00, 0x7F, 0x7FF, 0x800, 0xFFFF)}
    yield "longer forms than needed", [longer(p, size) for size, points in small.items() for p in points]
    samples = [0x41, 0xE9, 0x7FF, 0x800, 0x4E2D, 0xFFFD, 0x10000, 0x1F600, 0x10FFFF]
    whole = [encoded(p) for p in samples]
    yield "cut short, at the end and before another character", [
        text[:k] + behind.encode() for text in whole for k in range(1, len(text)) for behind in ("", "A", "é", "中")]
    yield "one byte wrong", [
        text[:k] + bytes([b]) + text[k + 1:]
        for text in whole for k in range(len(text)) for b in bytes.fromhex("00 7F 80 BF C0 C2 E0 F8 FF")]
    yield "one byte too many", [b"A" + text[:k] + b"\x80" + text[k:] + b"B" for text in whole for k in range(len(text) + 1)]
    yield "pairs of surrogates", [encoded(high) + encoded(low) for high in (0xD800, 0xDBFF) for low in (0xDC00, 0xDFFF)]
    yield "the ends of each wide range, with their neighbours", [encoded(p) for p in around([end for pair in RANGES for end in pair])]
    yield "wide and narrow with a mark behind", [encoded(p) + encoded(0x301) for pair in RANGES for p in pair] + [b"e" + encoded(0x301)]
    ends = [0x00, 0x1F, 0x7F, 0x9F, 0x300, 0x36F, 0x200D, 0xFE00, 0xFE0F]
    yield "the ends of controls and marks, with their neighbours, behind a letter", [b"a" + encoded(p) for p in around(ends)]
    kinds = [0x00, 0x09, 0x0A, 0x0D, 0x1F, 0x7F, 0x80, 0x85, 0x9F, 0x300, 0x36F, 0x200D, 0xFE00, 0xFE0F,
             0x1100, 0x303E, 0x4E2D, 0xAC00, 0xFE10, 0x1F300, 0x2FFFD, 0x20, 0x61, 0xA0, 0xE9, 0x2FF, 0x370, 0xFE20, 0x10FFFF]
    yield "every pair of control, mark, wide and narrow", [encoded(p) + encoded(q) for p in kinds for q in kinds]
    few = [0x0D, 0x0A, 0x00, 0x301, 0x4E2D, 0x61]
    yield "every three of CR, LF, a control, a mark, wide and narrow", [
        encoded(p) + encoded(q) + encoded(r) for p in few for q in few for r in few]
    yield "longer texts", [
        "Rue de la Re\u0301publique".encode(), "中央通り, 서울".encode(), "a\r\nb\rc\n\r".encode(), b"e" + encoded(0x301) * 9,
        "👩\u200d👩\u200d👧".encode(), b"good \xff bad", "улица\u0300 1".encode() + b"\xed\xa0\x80"]


def main():
    lines, told = [], []
    for heading, texts in groups():
        lines.append("# " + heading)
        told.append("# " + heading)
        for text in texts:
            word = text.hex().upper()
            lines.append(word)
            told.append(word + " " + answer(text))
    for name, content in (("stdin", lines), ("stdout", told)):
        with open(f"{sys.argv[1]}/{name}", "w", encoding="ascii") as out:
            out.write("\n".join(content) + "\n")


main()
