"""Rows of standard streams that fail."""

from .captures import CALL, FLAG, IDLE, text
from .case import Case, Sink, Source, fault, faulty

READERS = [[], ["list", "--bits"], ["list"], ["check", "--bits"], ["check"], ["encode"]]

UNREADABLE = [
    faulty(f"standard input is {source.value}: {' '.join(words) or 'no words'}", words, "read failed", source)
    for source in Source
    for words in READERS
]

# Commands that have something to write, and what they read.
WRITERS = [
    (["list", "--bits"], text(IDLE)),
    (["list", "--bits"], text(FLAG, CALL, FLAG, "2")),
    (["check", "--bits"], b""),
    (["show", "108300fde5"], b""),
    (["encode"], b"idle\n"),
    (["encode"], b"idle\nnonsense\n"),
    (["--help"], b""),
    (["help", "list"], b""),
    (["--version"], b""),
]

UNWRITABLE = [
    Case(
        f"standard output is {sink.value}: {' '.join(words)}", words, stdin, stderr=fault("write failed"), status=2,
        sink=sink,
    )
    for sink in [Sink.CLOSED, Sink.FULL, Sink.BROKEN_PIPE]
    for words, stdin in WRITERS
]

# Where nothing is to be written, nothing fails.
UNWRITTEN = [
    Case(
        f"nothing is written to standard output that is closed: {' '.join(words)}", words, stdin, stderr=stderr,
        status=status, sink=Sink.CLOSED,
    )
    for words, stdin, stderr, status in [
        (["list", "--bits"], text(FLAG), "", 0),
        (["list", "--bits"], b"2", fault("capture: octet 0 is no bit"), 2),
        (["check", "--bits"], b"2", fault("capture: octet 0 is no bit"), 2),
        (["encode"], b"\n", "", 0),
        (["show", "1"], b"", fault("bad hex"), 2),
    ]
]

# Directories and closed inputs are no matter to what does not read.
UNREAD = [
    Case(
        f"standard input that is {source.value} is not read", ["show", "1013ccb8"], source,
        "frame 1013ccb8 good\ncontrol 19\n",
    )
    for source in Source
]

STREAMS = [*UNREADABLE, *UNWRITABLE, *UNWRITTEN, *UNREAD]
