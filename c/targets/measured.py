"""What the calls of the C library take on each target: octets of stack and of code, and instructions; a table of them.

Instructions are those that an emulator logs (-singlestep -d exec,nochain) while cost.c runs, with what a call calls."""

import re
from dataclasses import dataclass, field
from typing import Callable, Dict, Iterable, Iterator, List, NamedTuple, Sequence, Tuple

# The functions of cost.c that call the library.
CALLERS = ["polling_1", "polling_8", "polling_32", "hardest_1", "hardest_8", "hardest_32", "high_first", "pushed"]
CALLERS += ["paired", "sent_again", "longest_sent", "sampled", "arriving", "hardest_arriving", "arriving_16"]
CALLERS += ["hardest_arriving_16", "others"]

# The calls that have rows of their own.
FEED, HIGH_FIRST, PUSH = "port1_line_feed", "port1_line_feed_high_first", "port1_line_push"
SEND, PAIR, SAMPLE, ARRIVE = "port1_send_frame", "port1_pair_take", "port1_tap_feed", "port1_clocks_push"
ARRIVALS = "port1_clocks_feed"
SHOWN = [FEED, HIGH_FIRST, PUSH, SEND, PAIR, SAMPLE, ARRIVE, ARRIVALS]

# The samples in which cost.c has an octet of each line.
SAMPLES = 8 * 26


class Cost(NamedTuple):
    """Calls of one function by one caller: how many, their instructions, and the most of one."""

    calls: int = 0
    instructions: int = 0
    most: int = 0

    def and_one(self, instructions: int) -> "Cost":
        return Cost(self.calls + 1, self.instructions + instructions, max(self.most, instructions))


Costs = Dict[Tuple[str, str], Cost]


@dataclass
class Traffic:
    """How many octets cost.c gives to a call of a mean: of polling traffic, and of the frames that are sent again."""

    polling: int
    sent: float


@dataclass
class Measures:
    """What was measured on one target."""

    code: int
    receiver: int
    stacks: Dict[str, int]
    costs: Costs
    traffic: Traffic = field(default_factory=lambda: Traffic(1, 1))

    def mean(self, caller: str, call: str, octets: float) -> float:
        return self.costs[caller, call].instructions / octets

    def most(self, call: str, callers: Sequence[str] = ()) -> int:
        """Of one call, by these callers, or by all."""
        wanted = callers or CALLERS
        return max(cost.most for (caller, name), cost in self.costs.items() if name == call and caller in wanted)

    def others(self) -> List[str]:
        return [name for name in self.stacks if name not in SHOWN]


def names_of(log: Iterable[bytes]) -> Iterator[str]:
    """The function of each instruction."""
    for line in log:
        if line.startswith(b"Trace "):
            yield line.rpartition(b"] ")[2].strip().decode()


def costs_of(log: Iterable[bytes]) -> Costs:
    """Of each caller and each call of the library: from leaving the caller until it goes on."""
    costs: Costs = {}
    callers = set(CALLERS)
    caller, call, count = "", "", 0
    for name in names_of(log):
        if name not in callers:
            call, count = call or name, count + 1
            continue
        if call.startswith("port1_") and caller:
            costs[caller, call] = costs.get((caller, call), Cost()).and_one(count)
        caller, call, count = name, "", 0
    return costs


# A row of the table: its name, and what stands there for a target.
Row = Tuple[str, Callable[[Measures], str]]


def feed_row(octets: int) -> Row:
    callers = [f"polling_{octets}", f"hardest_{octets}"]
    return (
        f"`{FEED}`, {octets} a call",
        lambda of: f"{of.mean(callers[0], FEED, of.traffic.polling):.0f}, {of.most(FEED, callers)}",
    )


def stack_row(call: str) -> Row:
    return f"stack of `{call}`", lambda of: str(of.stacks[call])


ROWS: List[Row] = [
    ("code and constants", lambda of: str(of.code)),
    ("receiver alone", lambda of: str(of.receiver)),
    *map(stack_row, SHOWN),
    ("stack of any other call", lambda of: str(max(of.stacks[name] for name in of.others()))),
    *map(feed_row, [1, 8, 32]),
    (f"`{HIGH_FIRST}`", lambda of: f"{of.most(HIGH_FIRST)}"),
    (f"`{PUSH}`", lambda of: f"{of.mean('pushed', PUSH, of.traffic.polling):.0f}, {of.most(PUSH)}"),
    (f"`{SEND}`", lambda of: f"{of.mean('sent_again', SEND, of.traffic.sent):.0f}, {of.most(SEND)}"),
    (f"`{PAIR}`", lambda of: f"{of.mean('paired', PAIR, of.costs['paired', PAIR].calls):.0f}, {of.most(PAIR)}"),
    (f"`{SAMPLE}`", lambda of: f"{of.mean('sampled', SAMPLE, of.traffic.polling * SAMPLES):.0f}, {of.most(SAMPLE)}"),
    (f"`{ARRIVE}`", lambda of: f"{of.mean('arriving', ARRIVE, of.traffic.polling * 16):.0f}, {of.most(ARRIVE)}"),
    (
        f"`{ARRIVALS}`, 16 a call",
        lambda of: f"{of.mean('arriving_16', ARRIVALS, of.traffic.polling * 16):.0f}, {of.most(ARRIVALS)}",
    ),
    ("any other call", lambda of: str(max(of.most(name) for name in of.others()))),
]


def table_of(measures: Dict[str, Measures]) -> str:
    """A table in Markdown with a column for each target."""
    head = [f"| | {' | '.join(measures)} |", f"|{'---|' * (len(measures) + 1)}"]
    rows = [f"| {name} | {' | '.join(shown(of) for of in measures.values())} |" for name, shown in ROWS]
    return "\n".join([*head, *rows])


def bits_of_frame(octets: bytes) -> int:
    """How many bits a frame with its check takes, the zeros that are inserted and one flag among them."""
    bits = "".join(f"{octet:08b}"[::-1] for octet in octets)
    return len(re.sub("(11111)", r"\g<1>0", bits)) + 8
