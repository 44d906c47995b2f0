"""Logs of other tools, read by python-can and decoded by j1939bus: the messages of examples/five.log, and what happens to a log that goes wrong."""

from __future__ import annotations

import gzip
import os
import stat
import subprocess
import sys
from pathlib import Path
from typing import Iterator, List

import can
import pytest
from fulwethi import AbortReason, decode
from fulwethi.decode import Aborted, AnyTold, DecodeFailed, Given, Lost, Place, ProgramMissing, Single, decode_file

TOLD = [
    ("can0", 0x21, 0xFF, 0xFECA, bytes(range(1, 10))),
    ("can1", 0x21, 0xFF, 0xFEE3, bytes(range(1, 13))),
    ("can0", 0x21, 0x35, 0xFECA, bytes(range(1, 21))),
    ("can0", 0x35, 0x21, 0xEF00, bytes(range(1, 17))),
    ("can0", 0x90, 0x35, 0xFEDA, b"ABCDEFGHIJKLMNOP"),
]
"""What is told of examples/five.log."""


def frames(top: Path) -> List[can.Message]:
    with can.LogReader(str(top / "examples" / "five.log")) as reader:
        return list(reader)


def write(name: Path, messages: List[can.Message]) -> None:
    with can.Logger(str(name)) as logger:
        for message in messages:
            logger(message)


def said(told: List[AnyTold]) -> List[tuple]:
    assert all(isinstance(it, Given) for it in told)
    return [(it.interface, it.source, it.to, it.pgn, it.data) for it in told if isinstance(it, Given)]


@pytest.mark.parametrize("form", ["asc", "blf", "trc", "log", "log.gz"])
def test_formats_with_interfaces(top: Path, tmp_path: Path, form: str) -> None:
    name = tmp_path / f"it.{form}"
    if form == "log.gz":
        with gzip.open(name, "wt") as packed:
            packed.write((top / "examples" / "five.log").read_text())
    else:
        write(name, frames(top))
    told = list(decode_file(name))
    # (TRC counts interfaces from 1)
    names = {"can1": "can0", "can2": "can1"} if form == "trc" else {}
    assert [(names.get(it[0], it[0]), *it[1:]) for it in said(told)] == TOLD
    assert [it.time - told[0].time for it in told] == [0, 7500, 35000, 37500, 65000]
    first = told[0]
    assert isinstance(first, Given) and (first.first.number, first.last.number, first.again) == (1, 12, 0)


@pytest.mark.parametrize("form", ["csv", "db"])
@pytest.mark.parametrize("interface", ["can0", "can1"])
def test_formats_without_interfaces(top: Path, tmp_path: Path, form: str, interface: str) -> None:
    """They are taken of one interface at a time."""
    write(tmp_path / f"it.{form}", [message for message in frames(top) if message.channel == interface])
    assert [it[1:] for it in said(list(decode_file(tmp_path / f"it.{form}")))] == [it[1:] for it in TOLD if it[0] == interface]


def test_lines_are_those_of_the_program(top: Path) -> None:
    log = str(top / "examples" / "five.log")
    wanted = subprocess.run([*decode.find_program(), "decode", log], stdout=subprocess.PIPE, stderr=subprocess.PIPE, text=True, check=True).stdout
    ran = subprocess.run([sys.executable, "-m", "fulwethi.decode", log, log], stdout=subprocess.PIPE, text=True, check=True)
    assert ran.stdout == wanted * 2
    ran = subprocess.run([sys.executable, "-m", "fulwethi.decode", "--pgn", "FECA", "--from", "21", "--to", "FF", log], stdout=subprocess.PIPE, text=True, check=True)
    assert ran.stdout == wanted.splitlines(True)[0]


def frame(identifier: int, data: str, time: float) -> can.Message:
    return can.Message(timestamp=time, arbitration_id=identifier, data=bytes.fromhex(data), channel=3)


def test_what_is_told_beside_messages() -> None:
    log = [
        can.Message(timestamp=0.5, arbitration_id=0x123, is_extended_id=False, data=b"1"),
        can.Message(timestamp=0.6, is_error_frame=True),
        can.Message(timestamp=0.7, arbitration_id=0x1CECFF21, is_fd=True, data=bytes(8)),
        can.Message(timestamp=0.8, arbitration_id=0x1CECFF21, is_remote_frame=True, dlc=8),
        frame(0x18EA3521, "CAFE00", 1.0),
        frame(0x1CEC3521, "10140003FF00EF00", 1.1),
        frame(0x1CEC2135, "FF02FFFFFF00EF00", 1.2),
        frame(0x1CECFF21, "20090002FFCAFE00", 1.3),
        frame(0x1CEBFF21, "0101020304050607", 1.35),
    ]
    told = list(decode.decode(iter(log), singles=True))
    assert told == [
        Single(1_000_000, "can3", 0x21, 0x35, 0xEA00, b"\xca\xfe\x00"),
        Aborted(1_200_000, "can3", 0x21, 0x35, 0xEF00, Place(2, 1_100_000), Place(3, 1_200_000), 0, AbortReason.RESOURCES, 0x35),
        Lost(1_350_000, "can3", 0x21, 0xFF, 0xFECA, Place(4, 1_300_000), Place(5, 1_350_000), 0, 9, 7, "end of log"),
    ]
    assert [str(it) for it in told] == [
        "(0000000001.000000) can3 frame 21 35 0EA00 3 CAFE00",
        "(0000000001.200000) can3 aborted 21 35 0EF00 2 35",
        "(0000000001.350000) can3 lost 21 FF 0FECA 7 9 end of log",
    ]
    assert [type(it) for it in decode.decode(log, destinations=[0x35], pgns=[0xEF00], sources=[0x21])] == [Aborted]


def test_what_a_message_means_in_words(top: Path) -> None:
    lamps = "lamps: malfunction off, red stop off, amber warning on, protect off"
    log = [
        frame(0x18FECA21, "04FF5B020B01FFFF", 1.0),
        frame(0x1CECFF21, "20120003FFECFE00", 1.1),
        frame(0x1CEBFF21, "01314D3847444D39", 1.2),
        frame(0x1CEBFF21, "0241584B50303432", 1.3),
        frame(0x1CEBFF21, "033738382AFFFFFF", 1.4),
        frame(0x1CECFF21, "20090002FFE3FE00", 1.5),
        frame(0x1CEBFF21, "0101020304050607", 1.6),
        frame(0x1CEBFF21, "020809FFFFFFFFFF", 1.7),
    ]
    told = list(decode.decode(log, explain=True))
    assert [getattr(it, "explained") for it in told] == [(lamps, "fault: SPN 603 FMI 11 count 1"), ("vehicle identification: 1M8GDM9AXKP042788",), ()]
    assert [getattr(it, "explained") for it in decode.decode(log)] == [(), ()]
    words = str(top / "examples" / "words.log")
    wanted = subprocess.run([*decode.find_program(), "decode", "--explain", words], stdout=subprocess.PIPE, stderr=subprocess.PIPE, text=True, check=True).stdout
    ran = subprocess.run([sys.executable, "-m", "fulwethi.decode", "--explain", words], stdout=subprocess.PIPE, text=True, check=True)
    assert ran.stdout == wanted


def test_a_long_log_is_told_as_it_is_read() -> None:
    """A message is told before the log is read to its end: what a consumer leaves is never read."""
    read = []

    def endless() -> Iterator[can.Message]:
        while True:
            at = len(read) * 0.01
            read.append(at)
            yield from (frame(0x1CECFF21, "20090002FFCAFE00", at), frame(0x1CEBFF21, "0101020304050607", at), frame(0x1CEBFF21, "020809FFFFFFFFFF", at))

    told = decode.decode(endless())
    assert isinstance(next(told), Given)
    told.close()  # type: ignore[attr-defined]
    count = len(read)
    assert list(told) == [] and len(read) == count


def test_a_log_that_can_t_be_read_on() -> None:
    def broken() -> Iterator[can.Message]:
        yield frame(0x1CECFF21, "20090002FFCAFE00", 0)
        raise OSError("the disk is gone")

    with pytest.raises(OSError, match="the disk is gone"):
        list(decode.decode(broken()))


def program(folder: Path, text: str) -> str:
    name = folder / "program"
    name.write_text(f"#!/bin/sh\n{text}\n")
    name.chmod(name.stat().st_mode | stat.S_IXUSR)
    return str(name)


def test_a_program_that_fails(top: Path, tmp_path: Path, monkeypatch: pytest.MonkeyPatch, capsys: pytest.CaptureFixture[str]) -> None:
    log = top / "examples" / "five.log"
    with pytest.raises(DecodeFailed, match="^out of order$"):
        list(decode_file(log, program=[program(tmp_path, "cat > /dev/null; echo out of order >&2; exit 1")]))
    with pytest.raises(DecodeFailed, match="status 3"):
        list(decode.decode((frame(0x18FEF121, "00", number) for number in range(100_000)), program=[program(tmp_path, "exit 3")]))
    with pytest.raises(DecodeFailed, match="line 4"):
        list(decode_file(log, program=[program(tmp_path, """cat > /dev/null; echo '{"kind":"wrong line","line":4}'""")]))
    with pytest.raises(ProgramMissing, match="can't be started"):
        list(decode_file(log, program=[str(tmp_path / "none")]))
    monkeypatch.delenv(decode.PROGRAM_VARIABLE, raising=False)
    monkeypatch.setenv("PATH", str(tmp_path))
    monkeypatch.setenv("HOME", str(tmp_path))
    monkeypatch.setattr(sys, "prefix", str(tmp_path))
    with pytest.raises(ProgramMissing, match=decode.PROGRAM_VARIABLE):
        decode.find_program()
    assert decode.main([str(log)]) == 1
    assert "fulwethi.decode: j1939bus isn't on the PATH" in capsys.readouterr().err
    os.mkdir(tmp_path / "bin")
    (tmp_path / "bin" / "j1939bus").symlink_to(program(tmp_path, "exit 0"))
    assert decode.find_program() == [str(tmp_path / "bin" / "j1939bus")]


def test_a_file_of_another_kind(tmp_path: Path, capsys: pytest.CaptureFixture[str]) -> None:
    (tmp_path / "it.txt").write_text("nothing")
    assert decode.main([str(tmp_path / "it.txt")]) == 1
    assert "unknown log format" in capsys.readouterr().err
    assert decode.main([str(tmp_path / "none.log")]) == 1


def test_interfaces() -> None:
    assert [decode.interface_of(it) for it in (None, 0, "1", "vcan0", "PCAN USB 1", "")] == ["can0", "can0", "can1", "vcan0", "PCAN_USB_1", "can0"]
