"""Packing, unpacking, and damage on purpose."""

import random
import struct
from pathlib import Path
from typing import List

from tests.case import CALL, ONE_CALL, Run, lines, packed, plain, ran, random_bits

# The marks 0 to 3, and 1, packed: four in the first octet.
FIVE_PAIRS = b"TS2BITS2" + struct.pack("<Q", 5) + b"\xe4\x01"

MANY = b"TS2BITS1" + struct.pack("<Q", 2**60 + 1)

FAR_OCTET = "pack-bits: octet 1048576 is no bit\n"

SPARE = "unpack-bits: spare bits are not 0\n"

RUNS = [
    Run("one call", ["pack-bits"], CALL.encode() + b"\r\n", ONE_CALL),
    Run("no bits", ["pack-bits"], b" \t\r\n", packed("")),
    Run("no octets", ["pack-bits"], b"", packed("")),
    Run("eight bits", ["pack-bits"], b"01111110", packed("01111110")),
    Run("a bad octet", ["pack-bits"], b"0111 2", b"", "pack-bits: octet 5 is no bit\n", 2),
    Run("a bad octet of a later read", ["pack-bits"], bytes(2**20).replace(b"\0", b"0") + b"x", b"", FAR_OCTET, 2),
    Run("a form feed", ["pack-bits"], b"01\f10", b"", "pack-bits: octet 2 is no bit\n", 2),
    Run("marks of two lines", ["pack-bits", "--two"], b"01 23\n1\n", FIVE_PAIRS),
    Run("no marks", ["pack-bits", "--two"], b"", b"TS2BITS2" + bytes(8)),
    Run("a bad mark", ["pack-bits", "--two"], b"0123 4", b"", "pack-bits: octet 5 is no bit\n", 2),
    Run("a mark of two lines", ["pack-bits"], b"0123", b"", "pack-bits: octet 2 is no bit\n", 2),
    Run("one call", ["unpack-bits"], ONE_CALL, lines(plain(CALL))),
    Run("no bits", ["unpack-bits"], packed(""), b""),
    Run("65 bits", ["unpack-bits"], packed("01" * 32 + "1"), b"01" * 32 + b"\n1\n"),
    Run("pairs", ["unpack-bits", "--two"], FIVE_PAIRS, b"01231\n"),
    Run("64 pairs", ["unpack-bits", "--two"], b"TS2BITS2\x40" + bytes(7) + b"\xe4" * 16, b"0123" * 16 + b"\n"),
    Run("a spare pair", ["unpack-bits", "--two"], FIVE_PAIRS[:-1] + b"\5", b"0123\n", SPARE, 2),
    Run("one line for two", ["unpack-bits", "--two"], ONE_CALL, b"", "unpack-bits: wrong magic\n", 2),
    Run("two lines for one", ["unpack-bits"], FIVE_PAIRS, b"", "unpack-bits: wrong magic\n", 2),
    Run("four of five pairs", ["unpack-bits", "--two"], FIVE_PAIRS[:-1], b"0123\n", "unpack-bits: short body\n", 2),
    Run("a short head", ["unpack-bits"], ONE_CALL[:10], b"", "unpack-bits: short head\n", 2),
    Run("a head of 15 octets", ["unpack-bits"], packed("")[:15], b"", "unpack-bits: short head\n", 2),
    Run("another magic", ["unpack-bits"], b"U" + ONE_CALL[1:], b"", "unpack-bits: wrong magic\n", 2),
    Run("too many bits", ["unpack-bits"], MANY, b"", "unpack-bits: too many bits\n", 2),
    Run("a short body", ["unpack-bits"], ONE_CALL[:-1], lines(plain(CALL)[:56]), "unpack-bits: short body\n", 2),
    Run("a spare bit", ["unpack-bits"], ONE_CALL[:-1] + b"\2", lines(plain(CALL)[:56]), SPARE, 2),
    Run("a spare bit of one octet", ["unpack-bits"], packed("0111")[:-1] + b"\x1e", b"", SPARE, 2),
    Run("more", ["unpack-bits"], ONE_CALL + b"\0", lines(plain(CALL)), "unpack-bits: octets after the end\n", 2),
    Run("two places", ["flip-bits", "5", "0"], b"01 11\n1100", b"11 11\n1000"),
    Run("one place twice", ["flip-bits", "1", "1"], b"0000", b"0100"),
    Run("a place among blanks", ["flip-bits", "1"], b" \t0\r\n1\n", b" \t0\r\n0\n"),
    Run("a mark of two lines", ["flip-bits", "0"], b"01 2", b"", "flip-bits: octet 3 is no bit\n", 2),
    Run("a comment", ["flip-bits", "0"], b"# 01", b"", "flip-bits: octet 0 is no bit\n", 2),
    Run("a form feed", ["flip-bits", "0"], b"01\f10", b"", "flip-bits: octet 2 is no bit\n", 2),
    Run("an octet above 127", ["flip-bits", "0"], b"01\xb2", b"", "flip-bits: octet 2 is no bit\n", 2),
    Run(
        "a place after the end", ["flip-bits", "8"], b"01111110", b"01111110",
        "flip-bits: no bit has the place 8: the capture has 8\n", 2,
    ),
]


def pack_and_unpack(_: Path) -> List[str]:
    """Texts of all lengths up to some, and one of several reads, packed and back."""
    generator = random.Random(1)
    problems = []
    for count in [*range(18), 63, 64, 65, 127, 128, 129, 9_000_001]:
        bits = random_bits(generator, count)
        both = ran(["pack-bits"], lines(bits)).stdout
        if count < 1000 and both != packed(bits):
            problems.append(f"packed: {bits}")
        if ran(["unpack-bits"], both).stdout != lines(bits):
            problems.append(f"{count} bits")
    return problems
