#!/usr/bin/env python3
"""Two stations with asyncio: three messages are sent, and received until the last one."""
import asyncio
import can
from fulwethi.can import Station

async def main():
    with can.Bus(interface="virtual") as one, can.Bus(interface="virtual") as other:
        async with Station(one, 0x21) as tool, Station(other, 0x35) as engine:
            messages = engine.messages()
            engine.open(0xEF00, 1785)
            await asyncio.gather(*(tool.send(0x35, 0xEF00, bytes([number] * 9)) for number in range(3)))
            async for message in messages:
                if message.data[0] == 2:
                    break

asyncio.run(main())
