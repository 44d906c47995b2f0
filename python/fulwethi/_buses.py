"""What a bus of python-can tells of itself, and of frames that were lost."""

from __future__ import annotations

import socket
from typing import Optional

import can

RESTARTED, BUS_OFF, CONTROLLER, RX_OVERFLOW = 0x100, 0x40, 0x04, 0x01
"""Classes of error frames of Linux (linux/can/error.h), and of a controller's the bit of its second byte that says that it was overrun."""


def shows_own_frames(bus: can.BusABC) -> bool:
    """Whether a bus shows frames that it put to who put them, as far as it tells: by its attribute, or by the option of its CAN socket."""
    for name in ("receive_own_messages", "_receive_own_messages"):
        said = getattr(bus, name, None)
        if isinstance(said, bool):
            return said
    its_socket = can_socket_of(bus)
    return its_socket is not None and bool(its_socket.getsockopt(socket.SOL_CAN_RAW, socket.CAN_RAW_RECV_OWN_MSGS))


def tells_of_loss(bus: can.BusABC, message: can.Message) -> bool:
    """Whether frames were lost, by an error frame. Of SocketCAN it is known which ones say so; of another bus each one is taken so."""
    if can_socket_of(bus) is None:
        return True
    is_overrun = bool(message.arbitration_id & CONTROLLER) and len(message.data) > 1 and bool(message.data[1] & RX_OVERFLOW)
    return bool(message.arbitration_id & (RESTARTED | BUS_OFF)) or is_overrun


def can_socket_of(bus: can.BusABC) -> Optional[socket.socket]:
    """The CAN socket of a bus of SocketCAN."""
    its_socket = getattr(bus, "socket", None)
    is_can = isinstance(its_socket, socket.socket) and its_socket.family == getattr(socket, "AF_CAN", None)
    return its_socket if is_can else None
