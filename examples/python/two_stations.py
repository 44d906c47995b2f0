#!/usr/bin/env python3
"""Two stations on a virtual bus: one sends a message, and the other receives it.

It prints `ACKNOWLEDGED 21 35 0EF00 100 bytes`.
"""
import can
from fulwethi.can import Station

with can.Bus(interface="virtual", channel="bench") as one, can.Bus(interface="virtual", channel="bench") as other:
    with Station(one, 0x21) as tool, Station(other, 0x35) as engine:
        messages = engine.messages()
        engine.open(0xEF00, 1785)
        ended = tool.send(0x35, 0xEF00, bytes(100)).result()
        print(ended, messages.get(timeout=5))
