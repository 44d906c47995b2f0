#!/usr/bin/env python3
"""The messages of a log, in the folder of the repository."""
from fulwethi.decode import Given, decode_file

for told in decode_file("examples/five.log"):
    if isinstance(told, Given):
        print(told.time, told.interface, told.source, told.to, told.pgn, told.data)
