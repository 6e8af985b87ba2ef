"""The table of runs: what `port1` is to write, and the status that it is to end with."""
