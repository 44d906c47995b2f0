"""Finds and loads the two shared libraries. Each is loaded once, when it is first needed."""

from __future__ import annotations

import ctypes
import functools
import os
import platform
import sys
from pathlib import Path
from typing import Any, Dict, Iterator, Tuple

from . import _raw
from .errors import LibraryMissing

FOLDER_VARIABLE = "FULWETHI_LIB"
"""The environment variable that names the folder of the libraries."""

INTERFACE = 0
"""The number of the C interface, by which a shared library is named."""


def folders() -> Iterator[Path]:
    """Where libraries are looked for before the loader is asked: in the package, as a wheel has them, and in the clone that it is of."""
    package = Path(__file__).resolve().parent
    yield package
    yield package.parent.parent / "out" / "lib" / platform.machine()


def prefixes() -> Iterator[Path]:
    """Where they are looked for after that: where ./install puts them."""
    for prefix in (sys.prefix, Path.home() / ".local", "/usr/local"):
        yield Path(prefix) / "lib"


def candidates(name: str) -> Iterator[str]:
    """What is tried in turn as a library of this file name. A folder that the environment names is the only one."""
    named = os.environ.get(FOLDER_VARIABLE)
    if named:
        yield str(Path(named) / name)
        return
    yield from (str(folder / name) for folder in folders())
    # The loader looks through LD_LIBRARY_PATH and the folders of the system.
    yield name
    yield from (str(folder / name) for folder in prefixes())


def load(stem: str) -> ctypes.CDLL:
    """The library lib`stem`. LibraryMissing says where it was looked for, and what was wrong with those that were found."""
    name = f"lib{stem}.so.{INTERFACE}"
    tried = []
    for candidate in candidates(name):
        if os.path.sep in candidate and not os.path.exists(candidate):
            tried.append(f"  {candidate}: there is no such file")
            continue
        try:
            return ctypes.CDLL(candidate)
        except OSError as error:
            tried.append(f"  {error}")
    raise LibraryMissing(
        f"no library {name} can be loaded:\n"
        + "\n".join(tried)
        + f"\n./install of Fulwethi's repository puts it into ~/.local, and a wheel of a release has it. {FOLDER_VARIABLE} names another folder."
    )


def declare(library: ctypes.CDLL, exports: Dict[str, Tuple[Any, ...]]) -> ctypes.CDLL:
    """Tells ctypes what each export takes and answers."""
    for name, takes in exports.items():
        try:
            function = getattr(library, name)
        except AttributeError:
            raise LibraryMissing(f"the library {library._name} lacks {name}: it is older than this package") from None
        function.argtypes = takes
        function.restype = _raw.answer_of(name)
    return library


@functools.lru_cache(maxsize=None)
def node_library() -> ctypes.CDLL:
    """libfulwethi, for nodes."""
    return declare(load("fulwethi"), _raw.NODE)


@functools.lru_cache(maxsize=None)
def service_library() -> ctypes.CDLL:
    """libfulwethi_service, for services, clients and inboxes."""
    return declare(load("fulwethi_service"), _raw.SERVICE)


def version() -> str:
    """The version of the library that is loaded for nodes, which may be another one than that of this package."""
    number = node_library().fulwethi_version()
    return f"{number >> 16}.{number >> 8 & 0xFF}.{number & 0xFF}"
