"""What the programs of c/targets are given: captures, orders to send, and traffic as C."""

import random
from pathlib import Path
from typing import Iterator, Sequence

from measured import Traffic, bits_of_frame
from programs import PORT1, TOP, ran

# How many octets of traffic cost.c and stack.c are given, of polling and of each kind that is hard.
POLLING_OCTETS = 512
HARD_OCTETS = {"random": 256, "ones": 64, "flags": 128, "long": 640, "stuffed": 640, "short": 256}
HARD = bytes([0x3F] * 64 + [0xFE] * 640 + [0x00] * 64)


def generated(work: Path, bits: int, seed: int, kind: str) -> bytes:
    return ran([str(work / "generate"), str(bits), str(seed), kind, "packed"])


def array_of(name: str, octets: bytes) -> str:
    return f"static const uint8_t {name}[] = {{{', '.join(map(str, octets))}}};\n"


def header_of(polling: bytes, hard: bytes, frames: Sequence[bytes]) -> str:
    """Traffic as C: captures without their heads, and frames without their checks."""
    rows = "".join(f"    {{{len(frame) - 2}, {{{', '.join(map(str, frame[:-2]))}}}}},\n" for frame in frames)
    frame = "struct frame { uint16_t length; uint8_t octets[256]; };\n"
    sent = f"{frame}static const struct frame frames[] = {{\n{rows}}};\n"
    return f"#include <stdint.h>\n{array_of('polling', polling)}{array_of('hardest', hard)}{sent}"


def write_traffic(work: Path) -> Traffic:
    """Writes capture.h: polling and its frames, and polling with all that is hard after it."""
    polling = generated(work, 8 * POLLING_OCTETS, 1, "polling")
    hard = [generated(work, 8 * count, 1, kind)[16:] for kind, count in HARD_OCTETS.items()]
    listing = ran([str(PORT1), "list", "--kind", "frame"], polling).decode()
    frames = [bytes.fromhex(line.split()[3]) for line in listing.splitlines()]
    text = header_of(polling[16:], b"".join([polling[16:], *hard, HARD]), frames)
    (work / "capture.h").write_text(text, encoding="ascii")
    return Traffic(POLLING_OCTETS, sum(map(bits_of_frame, frames)) / 8)


def random_orders(generator: random.Random, count: int) -> bytes:
    """Lines for `port1 encode`: frames of random length and content, flags and idle times."""
    rows = []
    for _ in range(count):
        what = generator.randrange(10)
        length = 2 + generator.randrange(255 if what == 9 else 14)
        octets = bytes(generator.choice([255, generator.randrange(256)]) for _ in range(length))
        rows.append("flag" if what < 2 else "idle" if what == 2 else f"frame {octets.hex()}")
    return "".join(f"{row}\n" for row in rows).encode()


def damaged(generator: random.Random, bits: str) -> str:
    """The same bits, but that one in 150 is flipped, lost or doubled."""
    marks = {0: lambda bit: "10"[int(bit)], 1: lambda bit: "", 2: lambda bit: 2 * bit}
    return "".join(marks.get(generator.randrange(450), lambda bit: bit)(bit) for bit in bits)


def packed(bits: bytes) -> bytes:
    return ran([str(TOP / "scripts" / "pack-bits")], bits)


def captures(work: Path) -> Iterator[bytes]:
    """Packed captures of one line: the examples, generated traffic, and frames with damage."""
    for path in sorted((TOP / "examples").glob("*.ts2")):
        if path.read_bytes().startswith(b"TS2BITS1"):
            yield path.read_bytes()
    for path in sorted((TOP / "examples").glob("*.bits")):
        text = path.read_bytes()
        if not set(text) - set(b"01 \t\r\n"):
            yield packed(text)
    for kind in ["polling", "random", "ones", "flags", "long", "stuffed", "short", "dialogue256"]:
        for bits in [1, 47, 1000, 65537]:
            yield generated(work, bits, bits, kind)
    for seed in range(4):
        generator = random.Random(seed)
        sent = ran([str(PORT1), "encode"], random_orders(generator, 300)).decode()
        yield packed(damaged(generator, "".join(sent.split())).encode())


def orders() -> Iterator[bytes]:
    for seed in range(3):
        yield random_orders(random.Random(seed), 500)
    yield "".join(f"frame {'ff' * length}\n" for length in range(2, 257)).encode()
