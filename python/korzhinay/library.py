"""Finds and loads the shared library."""

from __future__ import annotations

import ctypes
from pathlib import Path
from typing import Final, Iterable, List, Mapping

from .signatures import SIGNATURES

VARIABLE: Final = "KORZHINAY_LIBRARY"
"""The environment variable that may name the library."""

BUILT: Final = Path("target", "libkorzhinay.so")
INSTALLED: Final = "libkorzhinay.so.0.3"
"""The name that an installed library has for this version of the calls. One of another name may take other arguments, or give
other answers."""


def places(environment: Mapping[str, str], package: Path) -> List[str]:
    """Where the library may be, in the order in which it is looked for: the one place that the environment names; or what was built in the
    checkout that the package is in, if it is in one, and then what is installed."""
    named = environment.get(VARIABLE)
    if named:
        return [named]
    root = package.parent.parent
    if (root / "include" / "korzhinay.h").is_file():
        return [str(root / BUILT), INSTALLED]
    return [INSTALLED]


def load(paths: Iterable[str]) -> ctypes.CDLL:
    """The first library of these that can be loaded and has every function. An ImportError says why each of them was no such library."""
    faults = []
    for path in paths:
        try:
            return declared(ctypes.CDLL(path))
        except (OSError, AttributeError) as fault:
            faults.append("\n  %s" % fault)
    raise ImportError("the Korzhinay library cannot be loaded; %s can name its path. Tried:%s" % (VARIABLE, "".join(faults)))


def declared(library: ctypes.CDLL) -> ctypes.CDLL:
    """The library with the signatures of its functions; an AttributeError names one that it does not have."""
    for name, (result, *parameters) in SIGNATURES.items():
        function = getattr(library, name)
        function.restype, function.argtypes = result, parameters
    return library
