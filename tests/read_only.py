#!/usr/bin/env python3
"""Tells how much read-only data an archive has beside its code, and fails where lengths of bodies are among it.

    tests/read_only.py [ARCHIVE]      target/staticlib/libinterface.a unless given
    tests/read_only.py --self-test

The source has no array of them, but of a match that yields numbers the compiler may make one. What is looked for: the lengths of five kinds
in a row, of their bodies or of their operands, as numbers of any width; and a call's two lengths side by side, as a constant of 16 bytes.
A table of parts of lengths would not be found. Tables of jumps, and of which call a kind is, are no lengths.
"""
import struct
import sys
from pathlib import Path
from typing import Iterator

sys.dont_write_bytecode = True
sys.path.append(str(Path(__file__).resolve().parent.parent / ".ci"))
from selftest import tried

# Of kinds 1 to 14, READ to DELETE_TREE; the service port's kinds have the same. WRITE's operands are shorter than its body.
BODIES = (23, 535, 22, 38, 21, 36, 23, 2, 0, 8, 0, 22, 36, 21)
OPERANDS = (23, 23) + BODIES[2:]
ROW = 5
ANYTHING = 16  # two equal numbers up to this may be a constant of any sort, such as a step
WIDTHS = {"B": 1 << 8, "H": 1 << 16, "I": 1 << 32, "Q": 1 << 64}
ALLOCATED, SORTS = 2, 7  # SHF_ALLOC; with SHF_WRITE and SHF_EXECINSTR, which read-only data have not
PROGRAM_DATA = 1  # SHT_PROGBITS


def members(archive: bytes) -> Iterator[bytes]:
    """The object files of an archive; none of what is no archive."""
    at = 8 if archive.startswith(b"!<arch>\n") else len(archive)
    while at + 60 <= len(archive):
        size = int(archive[at + 48:at + 58])
        member = archive[at + 60:at + 60 + size]
        if member.startswith(b"\x7fELF"):
            yield member
        at += 60 + size + size % 2


def read_only(member: bytes) -> Iterator[bytes]:
    """The sections of an object file of 64 bits that are neither written to nor executed."""
    (start,), (size, count) = struct.unpack_from("<Q", member, 40), struct.unpack_from("<HH", member, 58)
    for section in range(start, start + size * count, size):
        kind, flags, _, offset, length = struct.unpack_from("<IQQQQ", member, section + 4)
        if kind == PROGRAM_DATA and flags & SORTS == ALLOCATED:
            yield member[offset:offset + length]


def faults(data: bytes) -> Iterator[str]:
    """The lengths in a row, and the pairs of a call's lengths, that the data hold."""
    for lengths in (BODIES, OPERANDS):
        for row in (lengths[first:first + ROW] for first in range(len(lengths) - ROW + 1)):
            for width in (width for width, limit in WIDTHS.items() if max(row) < limit):
                if struct.pack(f"<{ROW}{width}", *row) in data:
                    yield f"an array with the lengths {row}"
    for pair in dict.fromkeys(zip(OPERANDS, BODIES)):
        if pair[0] > ANYTHING and struct.pack("<2Q", *pair) in data:
            yield f"operands and body {pair} as a constant"


def main(arguments: list[str]) -> int:
    if arguments == ["--self-test"]:
        return tried("tests/read_only.py", faults, RIGHT, WRONG)
    archive = Path(arguments[0] if arguments else "target/staticlib/libinterface.a").read_bytes()
    sections = [section for member in members(archive) for section in read_only(member)]
    found = [fault for section in sections for fault in faults(section)]
    for line in found:
        print("read-only data:", line)
    if not sections:
        print("read-only data: no section of it, so this is no archive of the library")
    elif not found:
        print(f"read-only data: {sum(map(len, sections))} bytes, no lengths found")
    return 1 if found or not sections else 0


# ---- made-up cases

JUMPS = struct.pack("<13i", *range(-4000, -4000 + 13 * 37, 37))
RIGHT = [b"", JUMPS, bytes(64), struct.pack("<4Q", *BODIES[7:11]), struct.pack("<2Q", 8, 8)]
WRONG = [struct.pack("<14Q", *BODIES), JUMPS + struct.pack("<14H", *BODIES), bytes(OPERANDS), struct.pack("<7I", *BODIES[7:]),
         struct.pack("<4Q", 8, 8, 23, 535)]

sys.exit(main(sys.argv[1:]))
