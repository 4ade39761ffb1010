"""The library's structs and calls, as hosts/c/cedar.h declares them."""

import ctypes
import os
from ctypes import POINTER, Structure, c_bool, c_char_p, c_size_t, c_uint32, c_void_p
from typing import Any, Dict, List

# Which cedar.h this file says.
_ABI = 1


class Text(Structure):
    _fields_ = [("at", c_void_p), ("len", c_size_t)]

    def read(self) -> str:
        if not self.len:
            return ""
        if self.len >= 1 << 31:  # string_at takes an int of C
            return bytes((ctypes.c_char * self.len).from_address(self.at)).decode()
        return ctypes.string_at(self.at, self.len).decode()


class Position(Structure):
    _fields_ = [("line", c_size_t), ("column", c_size_t), ("utf16_column", c_size_t)]


class Range(Structure):
    _fields_ = [("start", c_size_t), ("end", c_size_t), ("begins", Position), ("ends", Position)]


class Annotation(Structure):
    _fields_ = [("key", Text), ("value", Text)]


class Entity(Structure):
    _fields_ = [("type", Text), ("id", Text)]


class Scope(Structure):
    _fields_ = [
        ("op", Text),
        ("type", Text),
        ("entities", POINTER(Entity)),
        ("entity_count", c_size_t),
        ("is_slot", c_bool),
    ]


class Policy(Structure):
    _fields_ = [
        ("id", Text),
        ("printed", Text),
        ("annotations", POINTER(Annotation)),
        ("annotation_count", c_size_t),
        ("principal", Scope),
        ("action", Scope),
        ("resource", Scope),
        ("place", Range),
        ("is_template", c_bool),
        ("is_forbid", c_bool),
    ]


class Related(Structure):
    _fields_ = [("place", Range), ("text", Text)]


class Fault(Structure):
    _fields_ = [
        ("kind", Text),
        ("message", Text),
        ("label", Text),
        ("help", Text),
        ("expected", POINTER(Text)),
        ("expected_count", c_size_t),
        ("related", POINTER(Related)),
        ("related_count", c_size_t),
        ("place", Range),
        ("cause", Range),
        ("has_place", c_bool),
        ("follows", c_bool),
    ]


class Answer(Structure):
    _fields_ = [
        ("policies", POINTER(Policy)),
        ("policy_count", c_size_t),
        ("faults", POINTER(Fault)),
        ("fault_count", c_size_t),
        ("text", Text),
        ("status", c_uint32),
    ]


_SIZES = {Range: 64, Scope: 56, Policy: 288, Related: 80, Fault: 232, Answer: 56}

# The calls that answer policies or a text, each with the numbers that it takes behind its text.
_CALLS: Dict[str, List[Any]] = {
    "parse_policies": [],
    "parse_expression": [],
    "format_policies": [],
    "write_policies": [],
    "layout_policies": [c_size_t, c_size_t],
}


def _loaded() -> Any:
    """The shared library: that which CEDAR_LIBRARY names, else the one beside this file."""
    here = os.path.dirname(os.path.abspath(__file__))
    path = os.environ.get("CEDAR_LIBRARY") or os.path.join(here, "libcedar.so")
    try:
        library = ctypes.CDLL(path)
        library.cedar_abi.restype = c_uint32
        abi = library.cedar_abi()
    except (OSError, AttributeError) as error:
        told = "hosts/build makes libcedar.so, for the module's folder or for CEDAR_LIBRARY to name"
        raise ImportError(f"{error} ({told})") from error
    if abi != _ABI or any(ctypes.sizeof(struct) != size for struct, size in _SIZES.items()):
        raise ImportError(f"{path} is of another version, or of another machine")
    for name, numbers in _CALLS.items():
        call = getattr(library, "cedar_" + name)
        call.argtypes = [c_char_p, c_size_t, *numbers, POINTER(Answer)]
        call.restype = None
    library.cedar_answer_free.argtypes = [POINTER(Answer)]
    library.cedar_answer_free.restype = None
    library.cedar_position_of.argtypes = [c_char_p, c_size_t, c_size_t, POINTER(Position)]
    library.cedar_position_of.restype = c_uint32
    return library


LIBRARY = _loaded()
