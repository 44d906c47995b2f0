#!/usr/bin/env python3
"""Asks for a vehicle's identification text (PGN FEEC), and prints it with the address of who answered.

    request_vin.py --simulate         on a bus of this process, which has a vehicle
    request_vin.py socketcan can0     on a bus of python-can, by its interface and channel, at 250 kbit/s
"""
import sys

import can
from fulwethi.can import Station
from vehicle import VIN, vehicle

TOOL = 0xF9  # the address of an off-board tool (SAE J1939-81)


def ask(bus: can.BusABC) -> str:
    """The text of the first node that answers."""
    with Station(bus, TOOL) as tool:
        answers = tool.messages()
        tool.open(VIN, 1785)
        tool.request(VIN).result()
        answer = answers.get(timeout=5)
    return f"{answer.source:02X} {answer.data.decode('ascii', 'replace').rstrip('*')}"


if sys.argv[1:] == ["--simulate"]:
    with can.Bus(interface="virtual") as bus, can.Bus(interface="virtual") as other, vehicle(other):
        print(ask(bus))
elif len(sys.argv) == 3:
    with can.Bus(interface=sys.argv[1], channel=sys.argv[2], bitrate=250_000) as bus:
        print(ask(bus))
else:
    sys.exit(__doc__)
