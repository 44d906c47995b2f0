"""SAE J1939-21 and ISO 11783-3 for Python: messages of 9 to 117,440,505 bytes between the nodes of a vehicle, over the C library of Fulwethi, which is proved.

- `Node`: one station for a program that owns the bus.
- `Service`, `Client`, `Inbox`: all stations of a bus, for many threads.
- `fulwethi.can.Station`: a station on a bus of python-can, with a thread of its own.
- `fulwethi.decode`: the messages of a log, in the formats that python-can reads.
"""

from . import errors
from ._library import version as library_version
from ._version import VERSION as __version__
from .errors import Closed, Error, LibraryMissing, Refused
from .node import Node
from .service import Client, Inbox, Service
from .values import ALL, LONGEST, LONGEST_TO_ALL, AbortReason, Counts, Ended, Event, Fed, Frame, Given, Lane, Message, Note, Outcome

__all__ = [
    "ALL",
    "AbortReason",
    "Client",
    "Closed",
    "Counts",
    "Ended",
    "Error",
    "Event",
    "Fed",
    "Frame",
    "Given",
    "Inbox",
    "LONGEST",
    "LONGEST_TO_ALL",
    "Lane",
    "LibraryMissing",
    "Message",
    "Node",
    "Note",
    "Outcome",
    "Refused",
    "Service",
    "__version__",
    "errors",
    "library_version",
]
