"""Bits from a value change dump."""

from tests.case import CALL, Run, lines, plain

# Definitions as IEEE 1364 has them, other kinds of signals among them, the data before the clock.
DEFINITIONS = """$date today $end
$version by hand $end
$timescale 1 us $end
$scope module tap $end
$var wire 1 " dat $end
$var wire 1 ! clk $end
$var reg 8 # bus [7:0] $end
$var real 64 % volts $end
$var wire 1 & both $end
$var wire 1 ' both $end
$upscope $end
$enddefinitions $end
"""


def dump(bits: str, times_alone: bool) -> bytes:
    """A dump in which the data changes where the clock falls, each time on a line of its own or not."""
    behind = "\n" if times_alone else " "
    texts = [DEFINITIONS, f'#0{behind}$dumpvars 0! x" b00000000 # r1.5 % x& x\' $end\n']
    for place, bit in enumerate(bits):
        texts.append(f'#{10 * place + 5}{behind}0!{behind}{bit}"{behind}b0000000{bit} #\n')
        texts.append(f"#{10 * place + 10}{behind}$comment 1! is no change here $end 1!{behind}r2.5 %\n")
    return "".join(texts).encode()


SIGNALS = "dat, clk, both, both"

CLK = "recording-to-bits: clk has"

NO_EDGES = f"{CLK} 0 edges\nrecording-to-bits: warning: clk has no edges\n"

# A dump with the data of two lines, which change between the edges of the clock and at one of them.
TWO_DATA = b"""$var wire 1 ! clk $end $var wire 1 " dat $end $var wire 1 ( ans $end $enddefinitions $end
#0 0! 0" 1( #5 1! #6 0! 1" #7 0( #8 1! 1( #9 0! #10 1! #11 0! 0" 0( #12 1!
"""

# The data changes at either edge, so that rising and falling edges have other bits; no pulse of the clock is short.
BOTH_EDGES = b'#0 0! 0"\n#5 1! 1"\n#10 0!\n#15 1! 0"\n#20 0! 1"\n'

# A clock that has no level for a while.
NO_LEVEL = '#0 0! 0"\n#4 {level}!\n#5 1!\n#8 {level}!\n#9 0!\n#12 1"\n#13 1!\n#16 0"\n#17 0!\n'

# The wires changed as vectors of one bit, in letters of either case.
VECTORS = b'#0 B0 ! b0 "\n#5 b1 ! B1 &\n#6 B0 ! B1 "\n#9 B1 !\n#11 bz &\n'

# Vectors and reals by codes that would be changes and times if they stood alone.
ODD_CODES = b"""$var wire 1 ! clk $end $var wire 1 " dat $end
$var reg 8 1! bus [7:0] $end $var reg 8 #3 bus [7:0] $end $var real 64 0! volts $end $var real 64 #2 amperes $end
$enddefinitions $end
#0 0! 1" b0 1! B1 1! r1.5 0! R2.5 0!
#5 b1 #3 B0 #3 r1.5 #2 R2.5 #2 1!
#6 R3.5 0! r3.5 0! B1 #3 R2.5 #2
#7 0!
#8 0" B1 1!
#9 1!
"""

RUNS = [
    Run("times alone", ["recording-to-bits", "clk", "dat"], dump(plain(CALL), True), lines(plain(CALL)), f"{CLK} 57 edges\n"),
    Run("times before changes", ["recording-to-bits", "clk", "dat"], dump(plain(CALL), False), lines(plain(CALL)), f"{CLK} 57 edges\n"),
    Run(
        "falling edges", ["recording-to-bits", "--falling", "clk", "dat"], dump("0110", True) + b"#45 0!\n", b"0110\n",
        f"{CLK} 4 edges\n",
    ),
    Run(
        "rising edges of a clock with other bits at the falling ones", ["recording-to-bits", "clk", "dat"],
        DEFINITIONS.encode() + BOTH_EDGES, b"01\n", f"{CLK} 2 edges\n",
    ),
    Run(
        "falling edges of a clock with other bits at the rising ones", ["recording-to-bits", "--falling", "clk", "dat"],
        DEFINITIONS.encode() + BOTH_EDGES, b"10\n", f"{CLK} 2 edges\n",
    ),
    *[
        Run(
            f"a clock of the level {level}", ["recording-to-bits", "clk", "dat"],
            DEFINITIONS.encode() + NO_LEVEL.format(level=level).encode(), b"",
            f"{NO_EDGES}recording-to-bits: clk has no level at 0.000004 s\n", 2,
        )
        for level in "xXzZ"
    ],
    Run(
        "vectors of one bit", ["recording-to-bits", "clk", "dat"], DEFINITIONS.encode() + VECTORS, b"01\n",
        f"{CLK} 2 edges\n",
    ),
    Run("codes that look like changes", ["recording-to-bits", "clk", "dat"], ODD_CODES, b"10\n", f"{CLK} 2 edges\n"),
    Run(
        "data that changes with the edge", ["recording-to-bits", "clk", "dat"],
        DEFINITIONS.encode() + b'#0 0! 0"\n#5 1! 1"\n#6 0!\n#7 0" 1!\n', b"01\n", f"{CLK} 2 edges\n",
    ),
    Run(
        "a signal named in two scopes", ["recording-to-bits", "clk", "dat"],
        b"$scope module probe $end $var wire 1 ! clk $end $upscope $end " + dump("0110", True), b"0110\n",
        f"{CLK} 4 edges\n",
    ),
    Run(
        "no edges", ["recording-to-bits", "clk", "dat"], DEFINITIONS.encode() + b'#0 1! 0"\n#9 0!\n', b"",
        f"{CLK} 0 edges\nrecording-to-bits: warning: clk has no edges\n",
    ),
    Run(
        "an edge of no known level before", ["recording-to-bits", "clk", "dat"],
        DEFINITIONS.encode() + b'#0 x! 0"\n#5 1!\n#6 0!\n#7 1!\n', b"0\n", f"{CLK} 1 edge\n",
    ),
    Run(
        "data without a value", ["recording-to-bits", "clk", "dat"],
        DEFINITIONS.encode() + b'#0 0! 1"\n#1 1!\n#2 0! z"\n#5 1!\n', b"1\n",
        f"{CLK} 1 edge\nrecording-to-bits: dat has no level at 0.000002 s\n", 2,
    ),
    Run("two lines", ["recording-to-bits", "clk", "dat", "ans"], TWO_DATA, b"0i1o1i0o\n", f"{CLK} 4 edges\n"),
    Run("two lines, the other way", ["recording-to-bits", "clk", "ans", "dat"], TWO_DATA, b"1o0i1i0o\n", f"{CLK} 4 edges\n"),
    Run("one of two lines", ["recording-to-bits", "clk", "ans"], TWO_DATA, b"1010\n", f"{CLK} 4 edges\n"),
    Run(
        "a second line without a value", ["recording-to-bits", "clk", "dat", "ans"],
        TWO_DATA.replace(b"#7 0(", b"#7 z("), b"0i\n",
        f"{CLK} 1 edge\nrecording-to-bits: ans has no level at sample 7\n", 2,
    ),
    Run(
        "times that go back", ["recording-to-bits", "clk", "dat"], DEFINITIONS.encode() + b'#0 0! 0"\n#5 1!\n#3 0!\n',
        b"0\n", f"{CLK} 1 edge\nrecording-to-bits: #3 stands after #5, which is a later time\n", 2,
    ),
    Run(
        "one time twice", ["recording-to-bits", "clk", "dat"], DEFINITIONS.encode() + b'#0 0! 0"\n#5 1!\n#5\n#9 0!\n',
        b"0\n", f"{CLK} 1 edge\n",
    ),
    Run(
        "no such signal", ["recording-to-bits", "clk", "data"], dump("0", True), b"",
        f"recording-to-bits: no channel has the name data; there are: {SIGNALS}\n", 2,
    ),
    Run(
        "two signals", ["recording-to-bits", "both", "dat"], dump("0", True), b"",
        f"recording-to-bits: 2 channels have the name both; there are: {SIGNALS}\n", 2,
    ),
    Run(
        "no dump", ["recording-to-bits", "--format=vcd", "clk", "dat"], b"01111110", b"",
        "recording-to-bits: the input is no value change dump: it has no $enddefinitions\n", 2,
    ),
]
