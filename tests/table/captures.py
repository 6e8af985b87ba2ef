"""Captures and dictionaries that several rows take.

The frames and their bits are worked examples of the format; their names and types are made up.
"""

import re
from typing import Sequence

FLAG = "01111110"

# Between two flags, in the order sent: a group for each octet, and one of nine has an inserted 0.
# 10 83 00 fd e5: to station 16, of type 0.
CALL = "00001000 11000001 00000000 101111101 10100111"
# 10 83 80 f5 61: from station 16, of type 128.
REPLY = "00001000 11000001 00000001 10101111 100000110"
# ff 83 09 5a 3b: to all stations, of type 9.
NOTICE = "111110111 110000001 10010000 01011010 11011100"
# 10 83 fe 0c fb: of type 254; the second inserted 0 is the last bit.
TYPE_254 = "00001000 11000001 011111011 00110000 110111110"
# 10 83 45 2c: no information.
UNTYPED = "00001000 11000001 10100010 00110100"

IDLE = "1" * 15

# Twenty-four bits, too few for a frame.
SHORT = "0" * 24

# Eight bits more than a frame of three octets and its check.
LONG = "0" * 48

# A call and its reply.
CALL_AND_REPLY = """version = 1
[[frame]]
type = 0
name = "call"
length = 0
answered = true
[[frame]]
type = 128
name = "reply"
length = 0
"""

# The longest frame has three octets.
CALLS = f"""{CALL_AND_REPLY}[[frame]]
type = 9
name = "notice"
length = 0
"""

# The call and its reply, which is to begin within sixteen bits.
WITHIN = CALL_AND_REPLY.replace("version = 1", "version = 2").replace(
    "answered = true\n", "answered = true\nwindow = 16\n"
)

# The same in version 1, which has no windows.
WITHIN_1 = WITHIN.replace("version = 2", "version = 1")

# The longest frame has five octets.
STATES = """version = 1
[[frame]]
type = 1
name = "poll"
length = 1
answered = true
[[frame]]
type = 129
name = "state"
length = 2
bits = [ { at = 9, name = "flash" }, { at = 0, name = "call1" }, { at = 7, name = "ped" } ]
"""

# A flag, the call and a flag, 57 bits.
PACKED = bytes.fromhex("5453324249545331 3900000000000000 7e1083007dcbfd00")

# The greatest origin, 2^60.
LAST_ORIGIN = 1152921504606846976


def text(*parts: str) -> bytes:
    """A text capture."""
    return "".join(parts).encode()


def marks(first: str, second: str) -> bytes:
    """A text capture of two lines, of as many bits each: a mark is the first line's bit and twice the second's."""
    pairs = list(zip(first.replace(" ", ""), second.replace(" ", "")))
    assert len(pairs) == len(first.replace(" ", "")) == len(second.replace(" ", ""))
    return "".join(str(int(bit) + 2 * int(other)) for bit, other in pairs).encode()


def fcs(octets: bytes) -> bytes:
    """The check of a frame, in the order sent."""
    register = 0xFFFF
    for octet in octets:
        register ^= octet
        for _ in range(8):
            register = register >> 1 ^ (0x8408 if register & 1 else 0)
    return (register ^ 0xFFFF).to_bytes(2, "little")


def sent(octets: bytes) -> str:
    """The bits of a frame between its flags: its octets and their check, with inserted 0s."""
    data = "".join(f"{octet:08b}"[::-1] for octet in octets + fcs(octets))
    return re.sub("11111", "111110", data)


def packed(bits: str) -> bytes:
    """A packed capture of the bits `0` and `1`."""
    octets = [bits[at : at + 8][::-1] for at in range(0, len(bits), 8)]
    body = bytes(int(octet, 2) for octet in octets)
    return b"TS2BITS1" + len(bits).to_bytes(8, "little") + body


def packed_marks(magic: bytes, symbols: Sequence[int]) -> bytes:
    """A packed capture of two lines, or of bits as they arrived: four marks in an octet, the first lowest."""
    fours = (symbols[at : at + 4] for at in range(0, len(symbols), 4))
    body = bytes(sum(symbol << 2 * at for at, symbol in enumerate(four)) for four in fours)
    return magic + len(symbols).to_bytes(8, "little") + body


def packed_pairs(first: str, second: str) -> bytes:
    return packed_marks(b"TS2BITS2", [int(mark) for mark in marks(first, second).decode()])


assert fcs(b"123456789") == bytes.fromhex("6e90")
assert sent(bytes.fromhex("108300")) == CALL.replace(" ", "")
assert sent(bytes.fromhex("ff8309")) == NOTICE.replace(" ", "")
assert sent(bytes.fromhex("1083fe")) == TYPE_254.replace(" ", "")
assert packed((FLAG + CALL + FLAG).replace(" ", "")) == PACKED
assert marks("0101", "0011") == b"0123"
assert packed_pairs(IDLE, IDLE) == bytes.fromhex("5453324249545332 0f00000000000000 ffffff3f")
