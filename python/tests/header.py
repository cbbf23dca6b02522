"""What include/korzhinay.h declares."""

from __future__ import annotations

import re
from ctypes import POINTER, c_char_p, c_size_t, c_uint8, c_uint16, c_uint64
from typing import Any, Dict, List

from .checkout import ROOT

TEXT = (ROOT / "include" / "korzhinay.h").read_text(encoding="utf-8")
CODE = re.sub(r"/\*.*?\*/", "", TEXT, flags=re.S)

ELEMENTS = {"uint8_t": c_uint8, "uint16_t": c_uint16, "uint64_t": c_uint64, "size_t": c_size_t}
PARAMETER = re.compile(r"(const )?(\w+) (\*?)(\w+)(?:\[(\w+)\])?")


def enums() -> List[str]:
    """The names of the enums, without `korzhinay_`."""
    return re.findall(r"^enum korzhinay_(\w+) \{", CODE, re.M)


def members(enum: str) -> Dict[str, int]:
    """The members of an enum."""
    (body,) = re.findall(r"^enum korzhinay_%s \{(.*?)^\};" % enum, CODE, re.M | re.S)
    return {name: int(number) for name, number in re.findall(r"(\w+) = (\d+)", body)}


def constants() -> Dict[str, int]:
    """The constants that are numbers."""
    return {name: int(number) for name, number in re.findall(r"^#define KORZHINAY_(\w+) (\d+) *$", CODE, re.M)}


def value(text: str) -> int:
    """A number, or a constant of the header."""
    return int(text) if text.isdigit() else constants()[text.replace("KORZHINAY_", "", 1)]


def meanings() -> Dict[int, str]:
    """What each refusal means, and 0."""
    numbers = members("refusal")
    cases = re.findall(r'^ +case (\w+): return "(.*)";$', CODE, re.M)
    return {int(case) if case.isdigit() else numbers[case]: meaning for case, meaning in cases}


def other_meaning() -> str:
    """What any other number means."""
    (found,) = re.findall(r'^ +default: return "(.*)";$', CODE, re.M)
    return str(found)


def in_ctypes(parameter: str) -> Any:
    """The type of a parameter, as the module has to declare it."""
    match = PARAMETER.fullmatch(parameter)
    if match is None:
        raise AssertionError("what is %r?" % parameter)
    is_read, element, is_pointer, _, count = match.groups()
    if is_pointer:
        return c_char_p if is_read else POINTER(ELEMENTS[element])
    return ELEMENTS[element] * value(count) if count else ELEMENTS[element]


def functions() -> Dict[str, List[Any]]:
    """The functions: of each its result and its parameters."""
    found = re.findall(r"^(uint8_t|void) (korzhinay_\w+)\(([^)]*)\);$", CODE, re.M)
    return {
        name: [ELEMENTS.get(result), *[in_ctypes(" ".join(each.split())) for each in parameters.split(",")]]
        for result, name, parameters in found
    }
