#!/usr/bin/env python3
"""A vehicle that answers who asks for its identification text (PGN FEEC): who asks it is answered alone, who asks all is answered to all.

    vehicle.py socketcan vcan0     on a bus of python-can, by its interface and channel, until Ctrl-C
"""
import sys
import threading

import can
from fulwethi import ALL
from fulwethi.can import Request, Station

VIN = 0xFEEC
ENGINE = 0x00  # the address of an engine (SAE J1939-81)
TEXT = b"WVWZZZ1JZ3W386752*"  # (SAE J1939-71: the text ends with an asterisk)


def vehicle(bus: can.BusABC) -> Station:
    """A station that answers."""
    station = Station(bus, ENGINE)

    def answer(request: Request) -> None:
        station.send(ALL if request.to == ALL else request.source, VIN, TEXT)

    station.on_request(VIN, answer)
    return station


if __name__ == "__main__":
    if len(sys.argv) != 3:
        sys.exit(__doc__)
    with can.Bus(interface=sys.argv[1], channel=sys.argv[2], bitrate=250_000) as bus, vehicle(bus):
        threading.Event().wait()
