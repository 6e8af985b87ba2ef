"""The definitions of crates/*/specs, translated to Python one by one as they stand, and run.

The text is the reviewed one; nothing here knows what a frame is. `tokens` and `syntax` read a definition, `modules`
finds what its names mean, and `python` writes it as a function of Python. `values` has what such functions work on,
and `table` the functions of the toolchain, each in a line. What none of them knows is refused, with its line.
"""
