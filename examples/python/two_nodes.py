#!/usr/bin/env python3
"""Two nodes, between which this program carries the frames.

It prints `ACKNOWLEDGED 21 35 0EF00 100 bytes`.
"""
from fulwethi import Node

with Node(0x21) as tool, Node(0x35) as engine:
    engine.open(0xEF00, 1785)
    tool.send(0x35, 0xEF00, bytes(100))
    moved = True
    while moved:
        moved = False
        for node, other in ((tool, engine), (engine, tool)):
            while (frame := node.front()) is not None:
                other.feed(frame)
                node.sent()
                moved = True
    print(*tool.events(), *engine.events())
