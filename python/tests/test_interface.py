"""The package is compared with the headers, with examples/c/abi.txt and with VERSION."""

from __future__ import annotations

import re
from ctypes import Structure
from pathlib import Path
from typing import Dict, List, Type

import fulwethi
from fulwethi import Client, Inbox, Node, Outcome, Service, _inline, _raw, errors

STRUCTS = {
    "fulwethi": _raw.Handle,
    "fulwethi_frame": _raw.RawFrame,
    "fulwethi_event": _raw.RawEvent,
    "fulwethi_counts": _raw.RawCounts,
    "fulwethi_lane": _raw.RawLane,
}

SERVICE_STRUCTS = {
    "fulwethi_service": _raw.Handle,
    "fulwethi_client": _raw.Handle,
    "fulwethi_inbox": _raw.Handle,
    "fulwethi_note": _raw.RawNote,
    "fulwethi_message": _raw.RawMessage,
    "fulwethi_news": _raw.RawNews,
}

# The function of the header, and the call that stands for it where it has another name.
RENAMED = {"new": "__init__", "again": "__init__", "free": "close", "close": "close_port", "event": "take"}
SERVICE_RENAMED = {**RENAMED, "close_port": "close_port_of", "open_with": "open"}
NOT_CALLS = ("code_name", "strerror", "outcome_name", "service_code_name", "service_strerror")


def layout(name: str, struct: Type[Structure]) -> List[str]:
    """A struct as abi.c prints it."""
    lines = [f"struct {name}: {_size(struct)} bytes, aligned to {_alignment(struct)}"]
    for member, *_ in struct._fields_:
        field = getattr(struct, member)
        lines.append(f"  {member} at {field.offset}, {field.size} bytes")
    return lines


def _size(struct: Type[Structure]) -> int:
    from ctypes import sizeof

    return sizeof(struct)


def _alignment(struct: Type[Structure]) -> int:
    from ctypes import alignment

    return alignment(struct)


def interface(top: Path, name: str) -> List[str]:
    return (top / "examples" / "c" / name).read_text().splitlines()


def texts(top: Path, header: str, function: str) -> Dict[str, str]:
    """The text of each code in a function of a header."""
    text = (top / "examples" / "c" / header).read_text()
    body = re.search(rf"\b{function}\(uint32_t \w+\) {{\n(.*?)^}}", text, re.M | re.S)
    assert body
    return dict(re.findall(r'case FULWETHI_(\w+): return "(.*)";', body[1]))


def test_structs_and_exports(top: Path) -> None:
    for file, structs, exports in (("abi.txt", STRUCTS, _raw.NODE), ("abi_service.txt", SERVICE_STRUCTS, _raw.SERVICE)):
        lines = interface(top, file)
        assert f"abi {fulwethi._library.INTERFACE}" == lines[0]
        assert [line for line in lines if line.startswith(("struct", "  "))] == [line for name, it in structs.items() for line in layout(name, it)]
        assert sorted(line.split()[1] for line in lines if line.startswith("export")) == sorted(exports)


def test_codes(top: Path) -> None:
    lines = interface(top, "abi.txt") + interface(top, "abi_service.txt")
    named = {int(number): name for number, name in re.findall(r"^code (\d+) (\w+)$", "\n".join(lines), re.M)}
    assert named.pop(0) == "DONE"
    assert {code: it.name for code, it in errors.BY_CODE.items()} == named
    assert set(errors.BY_CODE.values()) == set(errors.Refused.__subclasses__())


def test_texts(top: Path) -> None:
    of_node, of_service = texts(top, "fulwethi.h", "fulwethi_strerror"), texts(top, "fulwethi_service.h", "fulwethi_service_strerror")
    assert len(of_node) == 27 and len(of_service) == 14
    for refused in errors.BY_CODE.values():
        assert refused.text == of_node.get(refused.name, of_service.get(refused.name)), refused
        assert refused.service_text == of_service.get(refused.name, of_node.get(refused.name)), refused
    assert str(errors.refusal(errors.BusFull.code)) == "BUS_FULL: the node has counted as many frames as it can"
    assert str(errors.refusal(errors.BusFull.code, of_service=True)) == "BUS_FULL: 4,096 frames wait for a station: make turns first"
    assert type(errors.refusal(999)) is fulwethi.Error
    assert isinstance(errors.NoMemory(), MemoryError)


def test_outcomes(top: Path) -> None:
    named = re.findall(r"^outcome (\d+) (\w+)$", "\n".join(interface(top, "abi.txt")), re.M)
    assert {outcome.value: outcome.name for outcome in Outcome} == {int(number): name for number, name in named}
    assert fulwethi.AbortReason(77).name == "REASON_77" and fulwethi.AbortReason(77) == 77


def test_each_function_of_the_headers_has_its_call(top: Path) -> None:
    found = []
    for header in ("fulwethi.h", "fulwethi_service.h"):
        found += re.findall(r"^static inline [\w ]+?\*?fulwethi_(\w+)\(", (top / "examples" / "c" / header).read_text(), re.M)
    assert len(found) == 56
    for name in found:
        if name in NOT_CALLS:
            continue
        kind, _, call = name.partition("_")
        owner = {"service": Service, "client": Client, "inbox": Inbox}.get(kind)
        renamed = SERVICE_RENAMED if owner else RENAMED
        owner, call = (owner, call) if owner else (Node, name)
        if name == "client_number":
            continue  # Client.number has it
        assert callable(getattr(owner, renamed.get(call, call))), name


def test_only_the_functions_of_the_header_with_more_than_a_call_are_mirrored(top: Path) -> None:
    """Of each function that does more than to call its export the text is known here: if it changes, _inline.py has to."""
    more = {}
    for header in ("fulwethi.h", "fulwethi_service.h"):
        text = (top / "examples" / "c" / header).read_text()
        for name, body in re.findall(r"^static inline (?:uint32_t|void) (fulwethi_\w+)\([^)]*\) {(.*?)}$", text, re.M | re.S):
            if not re.fullmatch(r"\s*return fulwethi_raw_\w+\([^;]*\);\s*", body) or "?" in body:
                more[name] = " ".join(body.split())
    free = "if ({0}->ptr) fulwethi_raw_{1}free(*{0}); {0}->ptr = NULL;"
    feed = "if (frame->len > 8) return frame->id >> 29 ? FULWETHI_ID_TOO_LARGE : FULWETHI_DATA_TOO_LONG; return fulwethi_raw_{1}feed(*{0}, frame->id, frame->bytes, frame->len, {0});"
    assert more == {
        "fulwethi_free": free.format("node", ""),
        "fulwethi_send": "static const uint8_t nothing = 0; return fulwethi_raw_send(*node, to, pgn, len ? bytes : &nothing, len, number, node);",
        "fulwethi_feed": feed.format("node", ""),
        "fulwethi_take": "uint8_t nothing = 0; return fulwethi_raw_take(*node, len ? room : &nothing, len, node);",
        "fulwethi_service_free": free.format("service", "service_"),
        "fulwethi_service_feed": feed.format("service", "service_"),
        "fulwethi_service_agrees": "uint32_t code = FULWETHI_DONE; "
        "for (size_t k = 0; k < client_count && code == FULWETHI_DONE; k++) code = fulwethi_raw_service_compare_client(*service, clients[k], service, &clients[k]); "
        "for (size_t k = 0; k < inbox_count && code == FULWETHI_DONE; k++) code = fulwethi_raw_service_compare_inbox(*service, inboxes[k], service, &inboxes[k]); return code;",
        "fulwethi_client_free": free.format("client", "client_"),
        "fulwethi_inbox_free": free.format("inbox", "inbox_"),
    }


def test_version(top: Path) -> None:
    version = (top / "VERSION").read_text().strip()
    assert fulwethi.__version__ == version
    assert fulwethi.library_version() == version


def test_numbers_are_not_cut() -> None:
    for limit, most in ((_inline.u8, 0xFF), (_inline.u32, 0xFFFF_FFFF), (_inline.u64, 0xFFFF_FFFF_FFFF_FFFF)):
        assert limit(0, "it") == 0 and limit(most, "it") == most
        for wrong, error in ((-1, ValueError), (most + 1, ValueError), (1.0, TypeError), ("1", TypeError)):
            try:
                limit(wrong, "it")  # type: ignore[arg-type]
            except error as said:
                assert str(said).startswith("it is")
            else:
                raise AssertionError(wrong)


def test_license(top: Path) -> None:
    """A wheel has the licence that the repository has."""
    assert (top / "python" / "LICENSE").read_text() == (top / "LICENSE").read_text()
