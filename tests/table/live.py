"""Rows of a pipe that is still being written: what is decided comes before the next octet."""

from .captures import CALL, CALLS, FLAG, IDLE, marks, text
from .case import Exchange, Turn
from .pairs import CALLED, REPLIED, REST

EXCHANGES = [
    Exchange(
        name="lines of a capture",
        words=["list", "--bits", "--dict", CALLS],
        turns=[
            Turn(sends=text(FLAG, CALL, FLAG), gets="8 49 frame 108300fde5 station 16 type 0 call\n"),
            Turn(sends=text(IDLE), gets="57 72 idle\n"),
        ],
        ends="8 49 pending station 16 type 0\n",
    ),
    Exchange(
        name="lines of a capture of two lines",
        words=["list", "--bits", "--two", "--dict", CALLS],
        turns=[
            Turn(sends=marks(CALLED, REST), gets="2 0 15 idle\n1 8 49 frame 108300fde5 station 16 type 0 call\n"),
            Turn(sends=marks(REST, REPLIED)[:-1], gets="1 57 72 idle\n"),
            Turn(
                sends=b"1",
                gets="2 65 106 frame 108380f561 station 16 type 128 reply\n"
                "1 8 49 answered station 16 type 0\n",
            ),
            Turn(sends=b"1" * 8 + b"20", gets=""),
        ],
        ends="2 114 124 open\n",
    ),
    Exchange(
        name="bits of lines",
        words=["encode"],
        turns=[
            Turn(sends=b"flag\n", gets="01111110\n"),
            Turn(sends=b"idle\nfl", gets="111111111111111\n"),
            Turn(sends=b"ag\n", gets="01111110\n"),
        ],
        ends="",
    ),
]
