"""
Frames of the NEMA TS 2 Port 1 bus (SDLC), for PulseView and sigrok-cli.

A decoder for libsigrokdecode, API version 3. It takes bits at the edges of a clock, hands them to the C library of
port1, libport1.so in this folder, by port1.py, and shows what the library reports: frames, damage, aborts and idle
lines. The library decides what is a frame, and which command it answers. This decoder itself adds which bits are
handed in, the names of a dictionary, and times.

Channels: TxC and TxD, the clock and the data of the controller's line; RxC and RxD, optional, the clock and the data
of the line of the answers. Without RxC, RxD is taken at the edges of TxC.

A bit is the level that the data had just before the edge, at the sample before it. An annotation begins at the edge
that took its first bit, and ends at the edge that took the bit just past its last one; where that bit has not come
yet, as at the end of fifteen ones, it ends at the edge of the last bit.
"""

from .pd import Decoder as Decoder
