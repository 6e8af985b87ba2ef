"""Programs over the Python module, and what they write where nothing is read."""

PRINTED = """import sys
from port1 import *
capture = sys.stdin.buffer.read()
count, body = int.from_bytes(capture[8:16], "little"), capture[16:]
size, pushed = int(sys.argv[1]), 0
decoder = LineDecoder(longest=256, origin=0)
if size > 0:
    pushed = count
    for at in range(0, len(body), size):
        for report in decoder.feed(body[at : at + size], min(8 * size, count - 8 * at)):
            print(report)
elif size < 0:
    pushed = count - count % 8
    reversed_octets = bytes(int(f"{octet:08b}"[::-1], 2) for octet in body[: pushed // 8])
    for report in decoder.feed_high_first(reversed_octets):
        print(report)
for place in range(pushed, count):
    report = decoder.push(body[place // 8] >> place % 8 & 1)
    if report is not None:
        print(report)
if decoder.open is not None:
    print(decoder.open, decoder.place, "open")
"""

# Bits as text, of one line or as they arrive on two, as `port1 list --bits --dict` lists them, the names of the
# dictionary aside.
PAIRED = """import json, sys
from port1 import *
from port1.taps import Arrival, RestRule, TwoClocks
entries = {ftype: Entry(*entry) for ftype, *entry in json.loads(sys.argv[1])}
longest = max((3 + entry.length for entry in entries.values()), default=256)
is_two, pairing = sys.argv[2:] == ["arrivals"], Pairing(entries)
decoder = TwoClocks(longest) if is_two else LineDecoder(longest)
ends = {Standing.UNKNOWN: " unknown", Standing.WRONG_LENGTH: " length"}
def show(line, *words):
    print(*([line] if is_two else []), *words)
def bits():
    rest = RestRule()
    for mark in sys.stdin.read():
        line, bit = divmod("01oi".index(mark), 2)
        yield line, bit
        if is_two and rest.push(Arrival(line + 1, bit)):
            yield from [(1, 1)] * 15
for line, bit in bits():
    report = decoder.push(Arrival(line + 1, bit) if is_two else bit)
    if report is None:
        continue
    seen = pairing.take(report, line + 1 if is_two else 0)
    about = f" station {seen.station} type {seen.ftype}" + ends.get(seen.standing, "")
    about = f" control {seen.control}" if seen.standing is Standing.OTHER_CONTROL else about
    about = " untyped" if seen.standing is Standing.UNTYPED else about
    show(line + 1, f"{report}{about if seen.standing and entries else ''}")
    if seen.verdict:
        show(1, seen.verdict)
    if seen.is_stray and entries:
        show(line + 1, report.first, report.past, "stray", "station", seen.station, "type", seen.ftype)
if is_two:
    opened = [(line, decoder.open(line)) for line in (1, 2)]
else:
    opened = [(1, None if decoder.open is None else (decoder.open, decoder.place))]
for line, span in opened:
    if span:
        show(line, *span, "open")
if pairing.waiting:
    first, past, station, ftype = pairing.waiting
    show(1, first, past, "pending", "station", station, "type", ftype)
"""

PAIRED_REFUSED = """from port1 import *
pairing = Pairing({0: Entry(1, True, 40)})
for call in [lambda: Pairing({256: Entry(0)}), lambda: Pairing({0: Entry(256)}),
             lambda: pairing.take(Report(Kind.IDLE, 0, 15), 3),
             lambda: pairing.take(Report(Kind.FRAME, 0, 24, None, b"abc"))]:
    try:
        call()
    except OutOfRange as fault:
        print(fault)
"""

PAIRED_REFUSES = """type 256 cannot have length 0 and window 0
type 0 cannot have length 256 and window 0
a line is 0, 1 or 2, not 3
a frame has at least four octets, those of the check among them
"""

SENT = """import sys
from port1 import LineEncoder
encoder, out = LineEncoder(), sys.stdout.buffer
for line in sys.stdin:
    name, _, octets = line.strip().partition(" ")
    if name == "frame":
        out.write(encoder.frame(bytes.fromhex(octets)))
    else:
        out.write(encoder.flag() if name == "flag" else encoder.idle())
out.write(encoder.end())
"""

# Calls that are refused, and what they raise; then what is true of calls that are not.
REFUSED = """from port1 import *
def raised(call):
    try:
        call()
    except (Fault, TypeError) as fault:
        return type(fault).__name__, isinstance(fault, ValueError), str(fault)
    return None
encoder = LineEncoder()
for call in [
    lambda: LineDecoder(2), lambda: LineDecoder(257), lambda: LineDecoder(origin=-1),
    lambda: LineDecoder(256, 2**60 + 1), lambda: LineDecoder().feed(b"ab", 17), lambda: LineDecoder().feed(b"ab", -1),
    lambda: encoder.frame(b"a"), lambda: encoder.frame(bytes(257)), lambda: LineDecoder(256, 2**60).push(1),
    lambda: LineDecoder().push(2), lambda: LineDecoder().push("1"), lambda: LineDecoder().feed(5),
]:
    print(raised(call))
decoder = LineDecoder(3, 2**60 - 65)
told = decoder.feed(bytes([0x7e]) + bytes([0xff] * 40))
print(decoder.place == 2**60, next(told))
print(raised(lambda: next(told)))
decoder = LineDecoder(3, 2**60 - 65)
told = decoder.feed_high_first(bytes([0x7e]) + bytes([0xff] * 40))
print(decoder.place == 2**60, next(told))
print(raised(lambda: next(told)))
decoder = LineDecoder(3)
print(decoder.longest, decoder.origin, decoder.place, decoder.open, list(decoder.feed(b"")))
print([repr(report) for report in decoder.feed(bytearray([0x7e, 0x10, 0x83, 0x00, 0x7d, 0xcb, 0xfd, 0x00]), 57)])
print(decoder.place, decoder.open, encoder.pending, encoder.idle(), encoder.pending, encoder.end(), encoder.pending)
"""

REFUSED_PRINTS = """('OutOfRange', True, 'the longest frame is of 3 to 256 octets, not 2')
('OutOfRange', True, 'the longest frame is of 3 to 256 octets, not 257')
('OutOfRange', True, 'the origin is 0 to 2^60, not -1')
('OutOfRange', True, 'the origin is 0 to 2^60, not 1152921504606846977')
('OutOfRange', True, '2 octets have no 17 bits')
('OutOfRange', True, '2 octets have no -1 bits')
('OutOfRange', True, 'a frame is of 2 to 256 octets, not 1')
('OutOfRange', True, 'a frame is of 2 to 256 octets, not 257')
('PlaceLimit', False, 'a bit would have the place 2^60')
('OutOfRange', True, 'a bit is 0 or 1, not 2')
('OutOfRange', True, 'a bit is 0 or 1, not 1')
('TypeError', False, "memoryview: a bytes-like object is required, not 'int'")
True 1152921504606846919 1152921504606846934 idle
('PlaceLimit', False, 'a bit would have the place 2^60')
True 1152921504606846919 1152921504606846934 idle
('PlaceLimit', False, 'a bit would have the place 2^60')
3 0 0 None []
["Report(kind=<Kind.FRAME: 1>, first=8, past=49, cause=None, octets=b'\\\\x10\\\\x83\\\\x00\\\\xfd\\\\xe5')"]
57 None 0 b'\\xff' 7 b'\\x7f' 0
"""

# Samples of two octets each, in pieces; after a bit with which line 2 comes to rest stands a `-`.
TAPPED = """
import sys
from port1.taps import Arrival, RestRule, Tap, TwoClocks, Wire
tap, rest = Tap((Wire(9, True), Wire(1)), (Wire(2), Wire(12)), hold=1), RestRule(3)
octets, size = sys.stdin.buffer.read(), int(sys.argv[1])
for at in range(0, len(octets), size):
    for arrival in tap.feed(octets[at : at + size], 2):
        print(end="01oi"[2 * arrival.line - 2 + arrival.bit] + "-" * rest.push(arrival))
print("", tap.samples, *(facts.bits.count for facts in tap.facts), tap.push(514, 9), tap.push(2, 2))
wires, clocks = (Wire(64), Wire(0)), TwoClocks()
for wrong in [lambda: tap.feed(b"abc", 2), lambda: tap.push(1 << 64), lambda: Tap(wires), lambda: RestRule(-1),
              lambda: TwoClocks(2), lambda: clocks.push(Arrival(3, 1)), lambda: clocks.open(0)]:
    try:
        wrong()
    except ValueError as fault:
        print(fault)
"""

TAPPED_REFUSES = """3 octets are no samples of 2 octets, which may be 1 to 8
a sample is 0 to 2^64 - 1, and stands so often at most, not 18446744073709551616, 1 times
a wire is a bit of a sample, 0 to 63, not 64
a silence is 0 to 2^64 - 1 bits, not -1
the longest frame is of 3 to 256 octets, not 2
a line is 1 or 2 and a bit 0 or 1, not 3 and 1
a line is 1 or 2, not 0
"""

# Samples of examples/vectors as JSON, and the bits of each on a line.
SAMPLED = """
import json, sys
from port1.taps import Tap, Wire
for row in json.load(sys.stdin):
    inverted = ["txc", "txd", "rxc", "rxd"]
    wires = [Wire(number, name in row["turned"]) for number, name in zip(row["wires"], inverted)]
    tap = Tap(tuple(wires[:2]), tuple(wires[2:]) or None, hold=row["hold"], rest=row.get("rest", 0))
    arrivals = tap.feed(bytes(int(digit, 16) for digit in row["samples"]))
    print("".join("01oi"[2 * line - 2 + bit] for line, bit in arrivals))
"""
