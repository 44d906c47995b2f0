"""Where the libraries are looked for, and what is said where one isn't found."""

from __future__ import annotations

import ctypes
import os
import subprocess
import sys
from pathlib import Path
from typing import Any

import fulwethi
import pytest
from fulwethi import LibraryMissing, _library, _raw


def test_order(monkeypatch: pytest.MonkeyPatch, tmp_path: Path) -> None:
    monkeypatch.setenv("HOME", str(tmp_path))
    monkeypatch.setenv(_library.FOLDER_VARIABLE, str(tmp_path / "named"))
    assert list(_library.candidates("it.so")) == [str(tmp_path / "named" / "it.so")]
    monkeypatch.delenv(_library.FOLDER_VARIABLE)
    package = Path(fulwethi.__file__).resolve().parent
    assert list(_library.candidates("it.so")) == [
        str(package / "it.so"),
        str(package.parents[1] / "out" / "lib" / os.uname().machine / "it.so"),
        "it.so",
        f"{sys.prefix}/lib/it.so",
        str(tmp_path / ".local" / "lib" / "it.so"),
        "/usr/local/lib/it.so",
    ]


def test_the_first_that_can_be_loaded_is_taken(monkeypatch: pytest.MonkeyPatch, tmp_path: Path) -> None:
    loaded = _library.node_library()._name
    (tmp_path / "wrong.so").write_text("no library")
    monkeypatch.setattr(_library, "candidates", lambda name: iter([str(tmp_path / "none.so"), str(tmp_path / "wrong.so"), loaded]))
    assert _library.load("fulwethi")._name == loaded


def test_none_is_found(monkeypatch: pytest.MonkeyPatch, tmp_path: Path) -> None:
    monkeypatch.setenv(_library.FOLDER_VARIABLE, str(tmp_path))
    with pytest.raises(LibraryMissing) as said:
        _library.load("fulwethi")
    assert f"{tmp_path}/libfulwethi.so.0: there is no such file" in str(said.value) and "./install" in str(said.value)
    (tmp_path / "libfulwethi.so.0").write_text("no library")
    with pytest.raises(LibraryMissing, match="invalid ELF header|file too short"):
        _library.load("fulwethi")


def test_an_older_library() -> None:
    with pytest.raises(LibraryMissing, match="lacks fulwethi_raw_later: it is older"):
        _library.declare(ctypes.CDLL(_library.node_library()._name), {"fulwethi_raw_later": ()})


def test_nothing_is_loaded_before_it_is_needed(tmp_path: Path) -> None:
    """The package is imported, and decodes logs, without a library."""
    program = "import fulwethi, fulwethi.can, fulwethi.decode\ntry: fulwethi.Node(1)\nexcept fulwethi.LibraryMissing: print('missing')"
    ran = subprocess.run([sys.executable, "-c", program], env={**os.environ, "FULWETHI_LIB": str(tmp_path)}, stdout=subprocess.PIPE, text=True, check=True)
    assert ran.stdout == "missing\n"


def test_a_call_takes_what_its_declaration_says() -> None:
    """Of each export ctypes knows its arguments, so that one too few is refused before the library is called."""
    for library, exports in ((_library.node_library(), _raw.NODE), (_library.service_library(), _raw.SERVICE)):
        for name, takes in exports.items():
            function: Any = getattr(library, name)
            assert tuple(function.argtypes) == takes
            if takes:
                with pytest.raises((TypeError, ctypes.ArgumentError)):
                    function()
