"""Says of a capture what the definitions say: the reviewed text of crates/*/specs, translated to Python and run.

    by-definition list [OPTIONS] < CAPTURE
    by-definition check [OPTIONS] < CAPTURE
    by-definition ledger [OPTIONS] < CAPTURE
    by-definition sample [OPTIONS] TXC TXD [RXC RXD] < SAMPLES
    by-definition python

`list` and `check` write what the library calls behind port1 are proved to write; OPTIONS are those of port1, and --dictionary FILE may stand for
--dict TEXT. `ledger` writes the counts that bound the work: settled places, octets that are stored, octets of frames,
and steps of reports; of two lines for each. `sample` writes what port1-sample does, whose options it has; of a record
that is cut off it writes nothing. `python` writes what is run, definition by definition, below the functions
of the toolchain that a table does. No decoder is written here: what a frame is stands in the definitions alone, and
what the translator does not know in them it refuses. A text of TOML is read by Python's own reader, which takes
brackets that are deeper in one another than port1 does.

It is slow: a listing takes about a second for 10000 bits, a ledger more. A fault of the capture is told by its name in
the definitions. Status 0: no fault, also where a check finds something; 2: a fault.
"""

import argparse
import os
import sys
from pathlib import Path
from typing import Any, Iterator, NamedTuple, Optional, Sequence

SCRIPTS = Path(__file__).resolve().parent.parent

sys.path[0] = str(SCRIPTS)

from definitions import manners, table
from definitions.manners import Fault
from definitions.python import Translation, with_room
from definitions.values import Case, Items, Record, items_of

MOST_PLACES = 2**60

# What brings a second line with a clock of its own to rest, unless it is said, in bits of the first.
SILENCE = 40

# What is run, by file and name. A definition in a block with a form takes the form first.
LISTING = ("bus_calls.specs.Known", "listing_in_all")
REPORT = ("bus_calls.specs.Checks", "check_report")
WHOLE = ("bus_calls.specs.Lists", "in_all")
FORMS = [("bus_calls.specs.Captures", name) for name in ["form_of_one", "form_of_two", "form_of_arrivals"]]
DICTIONARY = ("bus_text.specs.Show", "given_dictionary")
DICTIONARY_TEXT = ("bus_text.specs.Given", "dictionary_text")
KIND = ("bus_text.specs.Kinds", "kind_named")
LONGEST = ("bus_dictionary.specs.Dictionary", "longest_of")
SIDES = [("bus_line.specs.LineReport", "firsts"), ("bus_line.specs.LineReport", "seconds")]
SETTLED = ("bus_line.specs.Ledger", "assembled")
COUNTS = [("bus_line.specs.Ledger", "stored"), ("bus_line.specs.Ledger", "copied")]
REPORTS = ("bus_line.specs.Due", "reports")
HANDLED = ("bus_pairing.specs.Ledger", "handled")
RECORDED = ("bus_sample.specs.Recording", "recorded")
CUT = ("bus_sample.specs.Recording", "cut_record")
SAMPLED = ("bus_sample.specs.Recording", "arrivals")
MARKED = ("bus_sample.specs.Marks", "whole_text")
RECORDS = "bus_sample.specs.declared.options.Form.TheVariants"

NEEDED = [LISTING, REPORT, WHOLE, *FORMS, DICTIONARY, DICTIONARY_TEXT, KIND]
NEEDED += [LONGEST, *SIDES, SETTLED, *COUNTS, REPORTS, HANDLED]
NEEDED += [RECORDED, CUT, SAMPLED, MARKED]


class Answer(NamedTuple):
    """What is written, and the fault of the capture that comes then, if there is one."""

    text: bytes
    fault: str


def whole_number(least: int, most: int) -> Any:
    """A whole number within bounds, for a parser."""

    def number(text: str) -> int:
        value = manners.natural(text)
        if not least <= value <= most:
            raise argparse.ArgumentTypeError(f"{text} is not {least} to {most}")
        return value

    return number


def add_filters(command: argparse.ArgumentParser) -> None:
    octet = whole_number(0, 255)
    command.add_argument("--station", metavar="N", type=octet, help="only lines of this station")
    command.add_argument("--type", metavar="N", type=octet, help="only lines of this frame type")
    command.add_argument("--kind", metavar="K", help="only lines of this kind")


def add_sampling(command: argparse.ArgumentParser) -> None:
    wire = whole_number(0, 63)
    command.add_argument("--octets", metavar="N", type=whole_number(1, 8), default=1, help="octets of a sample")
    command.add_argument("--runs", action="store_true", help="records are runs of samples")
    command.add_argument("--hold", metavar="N", type=whole_number(0, 65535), default=1, help="a level stands N + 1 samples")
    command.add_argument("--rest", metavar="N", type=manners.natural, default=0, help="after which a clock has stopped")
    command.add_argument("--falling", action="store_true", help="bits are taken where clocks fall")
    command.add_argument("wires", metavar="WIRE", type=wire, nargs="+", help="TXC and TXD, RXC and RXD")


def read_words(words: Optional[Sequence[str]] = None) -> argparse.Namespace:
    parser = manners.parser(__doc__)
    commands = parser.add_subparsers(dest="command", metavar="COMMAND", required=True)
    for name, what in [("list", "what is on the line"), ("check", "how often"), ("ledger", "counts of the work")]:
        command = commands.add_parser(name, help=what)
        texts = command.add_mutually_exclusive_group()
        texts.add_argument("--dict", metavar="TEXT", help="the text of a dictionary")
        texts.add_argument("--dictionary", metavar="FILE", type=Path, help="the file of a dictionary")
        command.add_argument("--bits", action="store_true", help="the capture is text")
        forms = command.add_mutually_exclusive_group()
        forms.add_argument("--two", action="store_true", help="the capture is of two lines")
        if name != "ledger":
            forms.add_argument("--arrivals", action="store_true", help="it has the bits of two lines as they arrived")
            command.add_argument("--rest", metavar="N", type=manners.natural, help="which silence brings rest")
        command.add_argument("--origin", metavar="N", type=whole_number(0, MOST_PLACES), default=0)
        if name == "list":
            add_filters(command)
        if name == "check":
            command.add_argument("--depth", metavar="N", type=whole_number(1, 1024), default=16)
    add_sampling(commands.add_parser("sample", help="what arrives in samples"))
    commands.add_parser("python", help="what is run")
    given = parser.parse_args(words)
    if vars(given).get("arrivals") is False and given.rest is not None:
        parser.error("--rest needs --arrivals")
    if given.command == "sample" and len(given.wires) not in (2, 4):
        parser.error("the wires are TXC and TXD, or also RXC and RXD")
    return given


def octets_of_dictionary(words: argparse.Namespace) -> Optional[bytes]:
    """The text of the dictionary; of a file without the last line ends, as a shell hands it to port1."""
    if words.dictionary is not None:
        return words.dictionary.read_bytes().rstrip(b"\n")
    return None if words.dict is None else os.fsencode(words.dict)


def option(value: Any) -> Case:
    return table.NONE if value is None else table.some(value)


def told(fault: Case) -> str:
    """A fault by the name that it has in the definitions."""
    return " ".join([fault.name.rpartition(".")[2], *map(str, fault.values)])


class Definitions:
    """The definitions that are run, by name."""

    def __init__(self, crates: Path) -> None:
        self.translation = Translation(crates)
        self.functions = dict(zip(NEEDED, self.translation.functions(NEEDED)))

    def run(self, name: Any, *arguments: Any) -> Any:
        return self.functions[name](*arguments)

    def options(self, words: argparse.Namespace) -> Record:
        """What `Options` of the program has, but for the number of reads."""
        given = vars(words)
        text = octets_of_dictionary(words)
        kind = table.NONE
        if given.get("kind") is not None:
            kind = self.run(KIND, items_of(os.fsencode(given["kind"])))
            if kind.name == "None":
                raise Fault("unknown kind")
        return Record(
            dictionary=option(None if text is None else Record(now=items_of(text))), text=words.bits,
            rest=SILENCE if given.get("rest") is None else given["rest"], origin=words.origin, depth=given.get("depth"),
            station=option(given.get("station")), ftype=option(given.get("type")), kind=kind,
        )

    def dictionary(self, options: Record) -> Items:
        read = self.run(DICTIONARY, self.run(DICTIONARY_TEXT, options))
        if read.name == "Err":
            raise Fault(f"dictionary: {told(read.values[0])}")
        return read.values[0]

    def ledger(self, bits: Items, entries: Items) -> Iterator[str]:
        longest = self.run(LONGEST, entries)
        yield f"{SETTLED[1]} {self.run(SETTLED, bits)}"
        for name in COUNTS:
            yield f"{name[1]} {self.run(name, longest, bits)}"
        yield f"{HANDLED[1]} {self.run(HANDLED, self.run(REPORTS, longest, bits))}"

    def ledgers(self, words: argparse.Namespace, bits: Items, entries: Items) -> bytes:
        sides = [(f"{at} ", self.run(name, bits)) for at, name in enumerate(SIDES, 1)] if words.two else [("", bits)]
        return "".join(f"{front}{line}\n" for front, side in sides for line in self.ledger(side, entries)).encode()

    def sampling(self, words: argparse.Namespace) -> Record:
        """What `SampleOptions` of the program has and its text depends on."""
        wires = [Record(number=at, is_inverted=words.falling and not index % 2) for index, at in enumerate(words.wires)]
        names = ["first_clock", "first_data", "second_clock", "second_data"]
        found = [*wires, None, None]
        return Record(
            form=Case(f"{RECORDS}.Runs") if words.runs else Case(f"{RECORDS}.Samples", words.octets),
            wires=Record(**{name: option(wire) for name, wire in zip(names, found)}), hold=words.hold, rest=words.rest,
        )

    def text_of_samples(self, words: argparse.Namespace, octets: bytes) -> bytes:
        options, recording = self.sampling(words), items_of(octets)
        if len(self.run(CUT, options.form, recording)):
            raise Fault("the last sample is cut off")
        samples = self.run(RECORDED, options.form, recording)
        return bytes(self.run(MARKED, self.run(SAMPLED, options, samples)))

    def answer(self, words: argparse.Namespace, octets: bytes) -> Answer:
        """What a call comes to whose capture has these octets."""
        if words.command == "sample":
            return Answer(self.text_of_samples(words, octets), "")
        options = self.options(words)
        entries = self.dictionary(options)
        form = self.run(FORMS[2 if vars(words).get("arrivals") else words.two])
        capture = items_of(octets)
        whole = self.run(WHOLE, form, options, capture)
        fault = f"capture: {told(whole.fault.values[0])}" if whole.fault.name == "Some" else ""
        if words.command == "list":
            return Answer(bytes(self.run(LISTING, form, options, entries, capture)), fault)
        if fault:
            return Answer(b"", fault)
        if words.command == "check":
            return Answer(bytes(self.run(REPORT, form, options, entries, whole.bits)), "")
        return Answer(self.ledgers(words, whole.bits, entries), "")


def write_python(definitions: Definitions) -> None:
    for line in table.meanings():
        print(f"# {line}")
    print("\n", definitions.translation.text(), sep="\n", end="")


def main() -> None:
    words = read_words()
    definitions = Definitions(SCRIPTS.parent / "crates")
    if words.command == "python":
        write_python(definitions)
        return
    answer = definitions.answer(words, sys.stdin.buffer.read())
    sys.stdout.buffer.write(answer.text)
    sys.stdout.buffer.flush()
    if answer.fault:
        raise Fault(answer.fault)


if __name__ == "__main__":
    manners.run(lambda: with_room(main))
