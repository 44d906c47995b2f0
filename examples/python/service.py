#!/usr/bin/env python3
"""A service with two stations, a client of one and an inbox of the other."""
from fulwethi import Service

with Service([0x21, 0x35]) as service, service.attach(0x21) as client, service.open(0x35, 0xEF00, 1785) as inbox:
    client.submit(0x35, 0xEF00, bytes(100))
    while service.turn():
        while (front := service.front()) is not None:
            station, frame = front
            service.sent(station)
    print(*client.outcomes(), *inbox.messages())
