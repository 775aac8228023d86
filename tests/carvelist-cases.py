#!/usr/bin/env python3
"""Writes the inputs and outputs of tests/carvelist-cases/ straight from the paper's rules; the outputs owe nothing to the Rattle code."""
import pathlib
import struct

HINTS_MOST, INPUT_MOST, HEADER_MOST, ROW_MOST = 510, 65_536, 512, 65_536
INTEGER, REAL, TEXT, BLOB, NULL, ANY = range(6)


def varint(s, at):
    """The value and the next position, or None where the slice ends first."""
    value = 0
    for i in range(9):
        if at + i >= len(s):
            return None
        byte = s[at + i]
        if i == 8:
            return value << 8 | byte, at + 9
        value = value << 7 | byte & 127
        if byte < 128:
            return value, at + i + 1


def body(kind):
    """How many bytes a type's body has; None for 10 and 11."""
    if kind >= 12:
        return (kind - 12) // 2
    return [0, 1, 2, 3, 4, 6, 8, 8, 0, 0, None, None][kind]


def suits(hint, kind):
    return {
        ANY: True,
        NULL: kind == 0,
        INTEGER: kind in (0, 1, 2, 3, 4, 5, 6, 8, 9),
        REAL: kind in (0, 7),
        TEXT: kind == 0 or kind >= 13 and kind % 2 == 1,
        BLOB: kind == 0 or kind >= 12 and kind % 2 == 0,
    }[hint]


def attempt(s, hints, o):
    """The row at o or None, and the header bytes read for it."""
    first = varint(s, o)
    if first is None:
        return None, len(s) - o
    h, at = first
    if h < 2 or h > HEADER_MOST or h > len(s) - o:
        return None, at - o
    kinds = []
    while at < o + h:
        one = varint(s, at)
        if one is None:
            return None, len(s) - o
        kinds.append(one[0])
        at = one[1]
    read = at - o
    if len(kinds) != len(hints):
        return None, read
    suited = sum(suits(hint, kind) for hint, kind in zip(hints, kinds))
    sizes = [body(kind) for kind in kinds]
    if suited == 0 or None in sizes:
        return None, read
    consumed = h + sum(sizes)
    if o + consumed > len(s) or consumed > ROW_MOST:
        return None, read
    bits = struct.unpack(">I", struct.pack(">f", suited / len(hints)))[0]
    return (consumed, bits, kinds), read


def columns(given):
    """The count, two bytes with the high one first."""
    return given[0] << 8 | given[1]


def parts(given):
    """The hints and the region behind the count."""
    region = 2 + columns(given)
    return given[2:region], given[region:]


def refusal(given):
    if len(given) > INPUT_MOST:
        return 3
    if len(given) < 2 or not 1 <= columns(given) <= HINTS_MOST:
        return 1
    hints, _ = parts(given)
    if len(hints) < columns(given) or max(hints) > ANY:
        return 2
    return 0


def printed(given):
    if refusal(given):
        return f"refused {refusal(given)}\n"
    hints, region = parts(given)
    lines, rows, read, o = ["offset consumed confidence types"], 0, 0, 0
    while o < len(region) - 2:
        row, places = attempt(region, hints, o)
        read += places
        if row is None:
            o += 1
            continue
        consumed, bits, kinds = row
        lines.append(f"{o} {consumed} {bits:08X} {','.join(map(str, kinds))}")
        rows += 1
        o += consumed
    return "\n".join(lines + [f"rows {rows} read {read}", ""])


def asked(*hints):
    """The count and the hints."""
    return bytes([len(hints) >> 8, len(hints) & 255, *hints])


def row(kinds):
    """Types of one byte each behind the header length, in one byte up to 127 and in two from 128 on, and bodies."""
    one = len(kinds) + 1
    length = [one] if one <= 127 else [(one + 1) >> 7 | 128, (one + 1) & 127]
    return bytes(length + kinds + [i & 255 for i in range(sum(map(body, kinds)))])


def wide(columns):
    return asked(*[INTEGER] * columns) + row([1] * columns) * 10


PLOT = bytes.fromhex("0301172A686970696B")
PAIR = asked(INTEGER, TEXT)
WIDEST = asked(*[INTEGER] * 510)
MIXED = [0, 1, 2, 6, 7, 8, 9, 12, 13, 18]

CASES = {
    "no-input": b"",
    "one-byte": bytes([2]),
    "one-byte-0": bytes([0]),
    "count-0": bytes([0, 0]) + PLOT,
    "count-alone": bytes([0, 1]),
    "count-in-one-byte": bytes([2, INTEGER, TEXT]) + PLOT,
    "count-low-byte-first": bytes([2, 0, INTEGER, TEXT]) + PLOT,
    "count-510-without-hints": bytes([0x01, 0xFE]),
    "count-510-one-hint-too-few": WIDEST[:-1],
    "count-511-without-hints": bytes([0x01, 0xFF]),
    "count-511": bytes([0x01, 0xFF]) + bytes(511) + PLOT,
    "count-65535": bytes([0xFF, 0xFF]) + PLOT,
    "one-hint-too-few": bytes([0, 3, 0, 2]),
    "hint-6": asked(0, 6) + PLOT,
    "hint-6-behind-509": asked(*[0] * 509, 6) + PLOT,
    "region-0": PAIR,
    "region-1": PAIR + PLOT[:1],
    "region-2": PAIR + PLOT[:2],
    "region-3": asked(INTEGER) + bytes([2, 8, 0]),
    "region-3-long-type": asked(INTEGER) + bytes([2, 0x80, 8]),
    "last-byte-missing": PAIR + PLOT[:-1],
    "byte-before": PAIR + b"\x05" + PLOT,
    "half-suits": asked(INTEGER, BLOB) + PLOT,
    "a-third-suits": asked(INTEGER, BLOB, REAL) + bytes([4, 1, 1, 1, 7, 8, 9]),
    "reserved-type": asked(INTEGER, ANY) + bytes([3, 1, 10, 1, 2]),
    "one-column": asked(ANY) + bytes([2, 8]) * 20 + bytes([0, 0]),
    "large-type": asked(ANY) + bytes([10]) + bytes([255] * 9) + bytes(4),
    "eight-rows": PAIR + PLOT * 8,
    "nine-rows": PAIR + PLOT * 9,
    "forty-rows": PAIR + PLOT * 40,
    "gaps-between-rows": PAIR + (PLOT + b"\x00\xff\x7f") * 33,
    "hints-126": wide(126),
    "hints-127": wide(127),
    "hints-128": wide(128),
    "hints-255": wide(255),
    "hints-256": wide(256),
    "hints-509": wide(509),
    "hints-510": wide(510),
    "hints-510-one-suits": asked(*[NULL] * 509, BLOB) + row([1] * 509 + [14]) * 3,
    "hints-510-mixed": asked(*list(range(6)) * 85) + row(MIXED * 51) * 2 + b"\xff" + row(MIXED * 51),
    "hints-510-last-byte-missing": WIDEST + row([1] * 510)[:-1],
    "types-509-of-510": WIDEST + row([1] * 509) * 2,
    "header-513": WIDEST + bytes([0x84, 0x01]) + bytes([1]) * 509 + bytes([0x81, 0x00]) + bytes(600),
    "types-past-the-header": asked(INTEGER) + bytes([2, 0x80, 8, 0, 0]),
    "bytes-65536": (PAIR + PLOT * 7282)[:65_536],
    "bytes-65537": (PAIR + PLOT * 7282)[:65_537],
    "bytes-65537-count-0": bytes(65_537),
    "zeros-65536": PAIR + bytes(65_532),
}

folder = pathlib.Path(__file__).with_suffix("")
folder.mkdir(exist_ok=True)
for name, given in CASES.items():
    (folder / f"{name}.in").write_bytes(given)
    (folder / f"{name}.out").write_text(printed(given))
print(f"{len(CASES)} cases written")
