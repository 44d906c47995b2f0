#!/usr/bin/env python3
"""A station that sends each message back in reverse, and one that sends it messages: one to it, one to all, and one that is refused.

It prints `TOO_SHORT: the message has fewer than 9 bytes`.
"""
import can
from fulwethi import ALL, Outcome, errors
from fulwethi.can import Station

with can.Bus(interface="virtual") as one, can.Bus(interface="virtual") as other, Station(one, 0x21) as tool, Station(other, 0x35) as engine:

    @engine.on_message
    def answer(message):
        engine.send(message.source, message.pgn, message.data[::-1])

    engine.open(0xEF00, 1785)
    answers = tool.messages()
    tool.open(0xEF00, 1785)
    ended = tool.send(0x35, 0xEF00, bytes(range(20))).result()
    assert ended.outcome is Outcome.ACKNOWLEDGED, ended.reason
    assert answers.get(timeout=5).data == bytes(reversed(range(20)))
    assert tool.send(ALL, 0xFECA, bytes(9)).result().outcome is Outcome.BROADCAST
    try:
        tool.send(0x35, 0xEF00, bytes(8)).result()
    except errors.TooShort as refused:
        print(refused)
