"""The libraries libqlock and libqlock_plan, by ctypes. `include/qlock.h` and `include/qlock_plan.h` say what each call does."""
import ctypes
import os
from typing import Any, Dict, List, Optional

from .faults import KINDS, Fault, Refused
from .refusals import refusal_of

_BYTES = ctypes.c_char_p
_BUFFER = ctypes.c_void_p
_SIZE = ctypes.c_size_t
_U8 = ctypes.c_uint8
_U32 = ctypes.c_uint32
_U64 = ctypes.c_uint64
_SIZE_OUT = ctypes.POINTER(ctypes.c_size_t)
_U64_OUT = ctypes.POINTER(ctypes.c_uint64)
_I32_OUT = ctypes.POINTER(ctypes.c_int32)
_MASKS = [ctypes.POINTER(ctypes.c_uint64), ctypes.c_size_t]
_STATE = [_BUFFER, _SIZE]
_OUT = [_BUFFER, _SIZE, _SIZE_OUT]
_LINE = [_BYTES, _SIZE]

_CALLS: Dict[str, List[Any]] = {
    "voter_new": [_U8, _U64, *_STATE],
    "voter_take": [*_STATE, *_LINE, *_OUT],
    "voter_remind": [*_STATE, *_OUT],
    "voter_held": [*_STATE, _U64_OUT, _U64_OUT, _U64_OUT],
    "voter_reborn": [_U8, _U64, _U64, *_STATE],
    "voter_extend": [*_STATE, _U64],
    "voter_raise": [*_STATE, _U64],
    "voter_evict": [*_STATE, _U64, *_OUT],
    "voter_knows": [*_STATE, _U8, _U64_OUT, _U64_OUT, _U64_OUT],
    "voter_forget": _STATE,
    "voter_must_save": [*_LINE, *_STATE, _I32_OUT],
    "client_new": [_U8, _U64, *_STATE],
    "client_ask": [*_STATE, _U64, *_OUT],
    "client_take": [*_STATE, *_LINE, *_OUT, _I32_OUT],
    "client_leave": [*_STATE, *_OUT],
    "client_give_up": [*_STATE, *_OUT],
    "client_remind": [*_STATE, *_OUT],
    "client_forget": _STATE,
    "client_shows": [*_STATE, _I32_OUT, _U64_OUT, _U64_OUT],
    "client_grant": [*_STATE, _U8, _U64_OUT],
    "client_pass": [*_STATE, _BUFFER, _SIZE],
    "client_anew": [_U8, _U64, _U64, *_STATE],
    "client_raise": [*_STATE, _U64],
    "client_disclaim": [*_STATE, _U64, *_OUT],
    "client_renew": [*_STATE, *_OUT],
    "has_quorum": [*_MASKS, _U64, _I32_OUT],
    "bridge": [*_MASKS, *_MASKS, _I32_OUT],
    "fence_new": _STATE,
    "fence_admit": [*_STATE, _BYTES, _SIZE, _U64_OUT],
}

_TEXTS = [*_LINE, *_LINE]
_PLAN_CALLS: Dict[str, List[Any]] = {
    "names": [*_LINE, *_OUT],
    "plan": [*_LINE, *_OUT],
    "weights": [*_LINE, _U64, *_OUT],
    "check_weights": [*_TEXTS, _U64_OUT, _U64_OUT, _U64_OUT, _U64_OUT, _U64_OUT, *_OUT],
    "quorums": [*_TEXTS, _U32, _U64, _BUFFER, _SIZE, *_OUT],
    "slack": [*_TEXTS, _U64_OUT, _U64_OUT, _U64_OUT, *_OUT],
}

_library: Optional[ctypes.CDLL] = None
_plan_library: Optional[ctypes.CDLL] = None


def _opened(path: str, calls: Dict[str, List[Any]]) -> ctypes.CDLL:
    library = ctypes.CDLL(path)
    for name, arguments in calls.items():
        function = getattr(library, "qlock_" + name)
        function.argtypes = arguments
        function.restype = ctypes.c_int32
    return library


def _beside_this(name: str) -> str:
    """Returns the file of this name beside this module, where a wheel has it, or the name alone."""
    file = os.path.join(os.path.dirname(os.path.abspath(__file__)), name)
    return file if os.path.exists(file) else name


def load(path: Optional[str] = None) -> ctypes.CDLL:
    """Loads libqlock, once. `path` is its file; else QLOCK_LIBRARY, else the one of the wheel, else the name libqlock.so."""
    global _library
    if _library is None:
        _library = _opened(path or os.environ.get("QLOCK_LIBRARY") or _beside_this("libqlock.so"), _CALLS)
    return _library


def _plan_path() -> str:
    """Returns the file of libqlock_plan: QLOCK_PLAN_LIBRARY, else the one beside QLOCK_LIBRARY or of the wheel, else its name."""
    given, beside = os.environ.get("QLOCK_PLAN_LIBRARY"), os.environ.get("QLOCK_LIBRARY")
    if given:
        return given
    return os.path.join(os.path.dirname(beside), "libqlock_plan.so") if beside else _beside_this("libqlock_plan.so")


def load_plan(path: Optional[str] = None) -> ctypes.CDLL:
    """Loads libqlock_plan, once. `path` is its file; else QLOCK_PLAN_LIBRARY, else libqlock_plan.so beside QLOCK_LIBRARY
    or in the wheel, else that name alone."""
    global _plan_library
    if _plan_library is None:
        _plan_library = _opened(path or _plan_path(), _PLAN_CALLS)
    return _plan_library


def library_version() -> str:
    """Returns the version of libqlock, as in "0.2.0"."""
    number = load().qlock_version()
    return f"{number // 10000}.{number // 100 % 100}.{number % 100}"


def call(name: str, *arguments: Any) -> None:
    """Calls a function of libqlock, and raises the fault that it returns."""
    result = getattr(load(), "qlock_" + name)(*arguments)
    if result != 0:
        raise KINDS.get(result, Fault)(f"qlock_{name} returned {result}")


def call_plan(name: str, room: int, *arguments: Any) -> bytes:
    """Calls a function of libqlock_plan with this much room for its text, and returns the text. Raises the fault that it
    returns: for a text that is refused, that of the line."""
    out, written = ctypes.create_string_buffer(room), ctypes.c_size_t()
    result = getattr(load_plan(), "qlock_" + name)(*arguments, out, room, ctypes.byref(written))
    if result == Refused.number:
        raise refusal_of(out.raw[: written.value].decode("ascii"))
    if result != 0:
        raise KINDS.get(result, Fault)(f"qlock_{name} returned {result}")
    return out.raw[: written.value]
