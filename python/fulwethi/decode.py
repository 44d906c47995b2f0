"""The messages of a recorded bus, in each format that python-can reads: ASC and BLF of Vector, TRC of PEAK, CSV, SQLite and the logs of candump.

    for told in decode_file("drive.blf"):
        if isinstance(told, Given):
            print(told.pgn, told.data)

python-can reads the log, and the program j1939bus puts the messages together (docs/LOGS.md). `python -m fulwethi.decode FILE` prints the program's own lines.
"""

from __future__ import annotations

import argparse
import contextlib
import itertools
import json
import os
import queue
import shutil
import subprocess
import sys
import threading
from dataclasses import dataclass, field
from pathlib import Path
from typing import Any, Dict, Iterable, Iterator, List, Optional, Sequence, Tuple, Union

import can

from .errors import Error
from .values import AbortReason

PROGRAM_VARIABLE = "FULWETHI_PROGRAM"
"""The environment variable that names the program j1939bus, or what stands for it, as ./run of the repository."""


LINES_AT_ONCE = 256
"""So many lines are written to the program before it is looked at what it told."""


class ProgramMissing(Error):
    """The program j1939bus isn't found."""


class DecodeFailed(Error):
    """The program ended before it had read all. The text is what it said."""


@dataclass(frozen=True)
class Place:
    """A frame of the log: its number, from 1, among frames of 29 bits with data, and its time in microseconds."""

    number: int
    time: int


@dataclass(frozen=True)
class Told:
    """What is told of a log. `time` is that at which it is known, in microseconds."""

    time: int
    interface: str
    source: int
    to: int
    pgn: int

    def line(self, kind: str, *words: object) -> str:
        """The program's line for it."""
        said = f"({self.time // 1_000_000:010}.{self.time % 1_000_000:06}) {self.interface} {kind} {self.source:02X} {self.to:02X} {self.pgn:05X}"
        return " ".join([said, *map(str, words)])


def with_lines(line: str, explained: Sequence[str]) -> str:
    """A line, and below it what it means in words, each line indented by two blanks."""
    return "\n  ".join([line, *explained])


@dataclass(frozen=True)
class OfMessage(Told):
    """What is told of a message: its first and its last frame, and how many packets its receiver asked for again."""

    first: Place
    last: Place
    again: int


@dataclass(frozen=True)
class Given(OfMessage):
    """All of a message came. `explained` has it in words, a text a line, if that was asked for and its PGN has such (docs/LOGS.md, "In words")."""

    data: bytes = field(repr=False)
    explained: Tuple[str, ...] = ()

    def __str__(self) -> str:
        return with_lines(self.line("given", len(self.data), self.data.hex().upper()), self.explained)


@dataclass(frozen=True)
class Aborted(OfMessage):
    """An end of it, `by`, aborted a message, or one that the log doesn't have."""

    reason: AbortReason
    by: int

    def __str__(self) -> str:
        return self.line("aborted", int(self.reason), f"{self.by:02X}")


@dataclass(frozen=True)
class Lost(OfMessage):
    """`have` of the `length` bytes of a message came. The cause is one of docs/LOGS.md, as "packet missing"."""

    length: int
    have: int
    cause: str

    def __str__(self) -> str:
        return self.line("lost", self.have, self.length, self.cause)


@dataclass(frozen=True)
class Single(Told):
    """A frame that carries nothing of a message, as a Request. `explained` is as in Given."""

    data: bytes = field(repr=False)
    explained: Tuple[str, ...] = ()

    def __str__(self) -> str:
        return with_lines(self.line("frame", len(self.data), self.data.hex().upper()), self.explained)


AnyTold = Union[Given, Aborted, Lost, Single]


def decode_file(path: Union[str, "os.PathLike[str]"], **chosen: Any) -> Iterator[AnyTold]:
    """What is told of a log, whose format is that of its name's end (.asc, .blf, .trc, .csv, .db, .log, and each of them with .gz).

    The words are those of `decode`. ValueError: python-can knows no such format.
    """
    with can.LogReader(str(path)) as frames:
        yield from decode(frames, **chosen)


def decode(
    frames: Iterable[can.Message],
    *,
    pgns: Sequence[int] = (),
    sources: Sequence[int] = (),
    destinations: Sequence[int] = (),
    singles: bool = False,
    explain: bool = False,
    program: Optional[Sequence[str]] = None,
) -> Iterator[AnyTold]:
    """What is told of the frames of a log, in the order of their times.

    Only that of these PGNs, sources and destinations, where some are named; `singles` tells frames that carry nothing of a message, too; `explain` tells fault
    lists and identifications in words, too, also those of a single frame. `program` is the command of j1939bus. The frames are read in the thread that reads what is told. ProgramMissing, DecodeFailed; and what the frames raise.
    """
    words = [*(program or find_program()), "decode", "--json", *options_of(pgns, sources, destinations, singles, explain), "-"]
    with _Program(words) as running:
        lines = (line_of(frame) for frame in frames if carries(frame))
        while batch := "".join(itertools.islice(lines, LINES_AT_ONCE)):
            if not running.write(batch):
                break
            yield from running.told()
        yield from running.rest()


def options_of(pgns: Sequence[int], sources: Sequence[int], destinations: Sequence[int], singles: bool, explain: bool) -> List[str]:
    """The program's options."""
    options = [word for pgn in pgns for word in ("--pgn", f"{pgn:X}")]
    options += [word for source in sources for word in ("--from", f"{source:02X}")]
    options += [word for to in destinations for word in ("--to", f"{to:02X}")]
    return options + ["--all"] * singles + ["--explain"] * explain


class _Program:
    """The program at work. What it writes is read by threads, so that it never waits for who writes to it."""

    def __init__(self, words: Sequence[str]) -> None:
        try:
            self._process = subprocess.Popen(words, stdin=subprocess.PIPE, stdout=subprocess.PIPE, stderr=subprocess.PIPE, encoding="utf-8")
        except OSError as error:
            raise ProgramMissing(f"{words[0]} can't be started: {error.strerror}") from error
        self._lines: queue.SimpleQueue[Optional[str]] = queue.SimpleQueue()
        self._said = ""
        self._threads = [threading.Thread(target=work, daemon=True) for work in (self._read_lines, self._read_said)]
        for thread in self._threads:
            thread.start()

    def _read_lines(self) -> None:
        for line in self._process.stdout or ():
            self._lines.put(line)
        self._lines.put(None)

    def _read_said(self) -> None:
        self._said = self._process.stderr.read() if self._process.stderr else ""

    def write(self, lines: str) -> bool:
        """Writes lines of a log. False: the program has ended."""
        assert self._process.stdin is not None
        try:
            self._process.stdin.write(lines)
            self._process.stdin.flush()
        except BrokenPipeError:
            return False
        return True

    def told(self) -> Iterator[AnyTold]:
        """What it has told up to now."""
        while self._lines.qsize() and (line := self._lines.get()) is not None:
            yield told_of(json.loads(line))

    def rest(self) -> Iterator[AnyTold]:
        """What it tells once it has read all."""
        with contextlib.suppress(BrokenPipeError):
            assert self._process.stdin is not None
            self._process.stdin.close()
        while (line := self._lines.get()) is not None:
            yield told_of(json.loads(line))
        status = self._process.wait()
        self._join()
        if status != 0:
            raise DecodeFailed(self._said.strip() or f"the program ended with status {status}")

    def __enter__(self) -> _Program:
        return self

    def __exit__(self, *_: object) -> None:
        """Ends it, if it is still there."""
        if self._process.poll() is None:
            self._process.kill()
            self._process.wait()
        self._join()
        for stream in (self._process.stdin, self._process.stdout, self._process.stderr):
            if stream is not None:
                with contextlib.suppress(BrokenPipeError):
                    stream.close()

    def _join(self) -> None:
        for thread in self._threads:
            thread.join()


def carries(message: can.Message) -> bool:
    """Whether it is a frame of 29 bits with data. The others carry nothing of a message."""
    return message.is_extended_id and not message.is_error_frame and not message.is_remote_frame and not message.is_fd


def line_of(message: can.Message) -> str:
    """A frame as candump logs it. A time before 0 is taken as 0."""
    return f"({max(message.timestamp, 0):.6f}) {interface_of(message.channel)} {message.arbitration_id:08X}#{bytes(message.data).hex().upper()}\n"


def interface_of(channel: object) -> str:
    """The name of an interface for what python-can has as a channel: a number, a name or nothing."""
    name = "0" if channel is None else "_".join(str(channel).split())
    return f"can{name}" if name.isdigit() else name or "can0"


def told_of(line: Dict[str, Any]) -> AnyTold:
    """What an object of the program's says."""
    if line["kind"] not in ("given", "aborted", "lost", "frame"):
        raise DecodeFailed(f"line {line.get('line')}: the program took it for a wrong one")
    of = (line["time"], line["interface"], line["from"], line["to"], line["pgn"])
    if line["kind"] == "frame":
        return Single(*of, bytes.fromhex(line["data"]), tuple(line.get("explained", ())))
    course = (Place(**line["first"]), Place(**line["last"]), line["again"])
    if line["kind"] == "given":
        return Given(*of, *course, bytes.fromhex(line["data"]), tuple(line.get("explained", ())))
    if line["kind"] == "aborted":
        return Aborted(*of, *course, AbortReason(line["reason"]), line["by"])
    return Lost(*of, *course, line["length"], line["have"], line["cause"])


def find_program() -> List[str]:
    """The command of j1939bus: what the environment names, that of the PATH, or one that ./install put into ~/.local."""
    named = os.environ.get(PROGRAM_VARIABLE)
    if named:
        return [named]
    for found in (shutil.which("j1939bus"), *(str(Path(prefix) / "bin" / "j1939bus") for prefix in (sys.prefix, Path.home() / ".local"))):
        if found and os.access(found, os.X_OK):
            return [found]
    raise ProgramMissing(f"j1939bus isn't on the PATH, nor in ~/.local/bin, where ./install puts it; {PROGRAM_VARIABLE} names another one")


def _hexadecimal(word: str) -> int:
    return int(word, 16)


def main(words: Optional[Sequence[str]] = None) -> int:
    """`python -m fulwethi.decode`"""
    parser = argparse.ArgumentParser(prog="python -m fulwethi.decode", description="Prints the messages of logs that python-can reads, as j1939bus decode does.")
    parser.add_argument("files", metavar="FILE", nargs="+", help="a log: .asc, .blf, .trc, .csv, .db, .log, and each of them with .gz")
    parser.add_argument("--pgn", type=_hexadecimal, action="append", default=[], help="only messages of this PGN, hexadecimal")
    parser.add_argument("--from", type=_hexadecimal, action="append", default=[], dest="sources", metavar="A", help="only messages from this address, hexadecimal")
    parser.add_argument("--to", type=_hexadecimal, action="append", default=[], metavar="A", help="only messages to this address, FF for those to all")
    parser.add_argument("--all", action="store_true", help="prints frames that carry nothing of a message too")
    parser.add_argument("--explain", action="store_true", help="shows fault lists and identifications in words too, also those of a single frame")
    given = parser.parse_args(words)
    try:
        for file in given.files:
            for told in decode_file(file, pgns=given.pgn, sources=given.sources, destinations=given.to, singles=given.all, explain=given.explain):
                print(told)
        sys.stdout.flush()
    except BrokenPipeError:
        os.dup2(os.open(os.devnull, os.O_WRONLY), sys.stdout.fileno())
        return 1
    except (Error, ValueError, OSError) as error:
        print(f"fulwethi.decode: {error}", file=sys.stderr)
        return 1
    return 0


if __name__ == "__main__":
    sys.exit(main())
