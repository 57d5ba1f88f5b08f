"""The shared library: where it is, its structs, and its functions as ctypes sees them."""

import ctypes
import ctypes.util
import glob
import os
import shutil
from ctypes import POINTER, c_double, c_size_t, c_uint8, c_uint16, c_uint32, c_uint64
from typing import Iterator, List, Tuple

VERSION = (3, 0)  # of the header for which this package was written: major, minor
DOMAINS, THREADS, RECORDS, STRUCTS = 64, 256, 320, 32


class TreeWords(ctypes.Structure):
    _fields_ = [
        ("domains", c_uint32),
        ("threads", c_uint32),
        ("parents", c_uint8 * DOMAINS),
        ("thresholds", c_uint16 * DOMAINS),
        ("homes", c_uint8 * THREADS),
        ("ticket_root", c_uint32),
    ]


class Places(ctypes.Structure):
    _fields_ = [
        ("rows", c_uint8 * THREADS),
        ("domains", c_uint8 * THREADS),
        ("peers", c_uint16 * THREADS),
        ("words", c_uint64 * THREADS),
    ]


class State(ctypes.Structure):
    _fields_ = [
        ("tails", c_uint16 * DOMAINS),
        ("nexts", c_uint16 * RECORDS),
        ("statuses", c_uint64 * RECORDS),
        ("places", Places),
        ("ticket", c_uint16),
        ("grant", c_uint16),
        ("entries", c_uint64 * DOMAINS),
        ("tenures", c_uint64 * DOMAINS),
        ("longest", c_uint64 * DOMAINS),
    ]


_ANSWER = [("number", c_uint32), ("place", c_uint32)]
_COUNTS = [(name, c_uint32) for name in ("steps", "entries", "stays", "root", "passed", "crossed")]


class Answer(ctypes.Structure):
    _fields_ = _ANSWER


class StepAnswer(ctypes.Structure):
    _fields_ = _ANSWER + [("kind", c_uint32), ("domain", c_uint32)]


class FreshReply(ctypes.Structure):
    _fields_ = _ANSWER + [("state", State)]


class StepReply(ctypes.Structure):
    _fields_ = _ANSWER + [("kind", c_uint32), ("domain", c_uint32), ("state", State)]


class RunReply(ctypes.Structure):
    _fields_ = _ANSWER + _COUNTS + [("state", State)]


class WaitsReply(ctypes.Structure):
    _fields_ = _ANSWER + _COUNTS + [("rows", c_uint32), ("state", State)]


class ManyReply(ctypes.Structure):
    _fields_ = _ANSWER + [("rows", c_size_t)]


class RoundsReply(ctypes.Structure):
    _fields_ = _ANSWER + [("rounds", c_uint64), ("turns", c_uint64)]


class JournalAnswer(ctypes.Structure):
    _fields_ = [("number", c_uint32), ("place", c_size_t)]


class ReadReply(ctypes.Structure):
    _fields_ = _ANSWER + [("length", c_uint32), ("tree", TreeWords)]


class TextReply(ctypes.Structure):
    _fields_ = [("number", c_uint32), ("place", c_size_t), ("tree", TreeWords)]


class PassingTimes(ctypes.Structure):
    _fields_ = [("p1", c_double), ("p2", c_double), ("p3", c_double)]


class RateReply(ctypes.Structure):
    _fields_ = _ANSWER + [("rate", c_double)]


class KindsReply(ctypes.Structure):
    _fields_ = WaitsReply._fields_


class StepsReply(ctypes.Structure):
    _fields_ = [("number", c_uint32), ("place", c_size_t), ("checked", c_size_t), ("state", State)]


# In the order of the header's enum hmcs_struct.
STRUCT_ORDER = [TreeWords, State, Answer, StepAnswer, FreshReply, StepReply, RunReply, WaitsReply, ManyReply, RoundsReply, JournalAnswer, ReadReply, TextReply, PassingTimes, RateReply, KindsReply, StepsReply]

_bytes, _turns, _number = POINTER(c_uint8), POINTER(c_uint16), POINTER(c_uint32)
_large = POINTER(c_uint64)

# What each function returns and takes; hmcs.h says what it does.
FUNCTIONS = {
    "hmcs_version": (c_uint32, []),
    "hmcs_sizes": (None, [_number]),
    "hmcs_refusal_text": (ctypes.c_char_p, [c_uint32]),
    "hmcs_kind_text": (ctypes.c_char_p, [c_uint32]),
    "hmcs_row_name": (ctypes.c_char_p, [c_uint32]),
    "hmcs_row_text": (ctypes.c_char_p, [c_uint32]),
    "hmcs_fresh": (FreshReply, [TreeWords, c_uint16]),
    "hmcs_fresh_in_place": (Answer, [TreeWords, POINTER(State), c_uint16]),
    "hmcs_step": (StepReply, [TreeWords, State, c_uint16]),
    "hmcs_step_in_place": (StepAnswer, [TreeWords, POINTER(State), c_uint16]),
    "hmcs_run": (RunReply, [TreeWords, State, _turns, c_size_t, _turns, c_size_t]),
    "hmcs_run_waits": (WaitsReply, [TreeWords, State, _turns, c_size_t, _turns, c_size_t, _large, c_size_t]),
    "hmcs_run_waits_on": (WaitsReply, [TreeWords, State, _turns, c_size_t, _turns, c_size_t, _large, c_size_t, _large]),
    "hmcs_run_kinds": (KindsReply, [TreeWords, State, _turns, c_size_t, _turns, c_size_t, _turns, c_size_t]),
    "hmcs_check_state": (Answer, [TreeWords, State]),
    "hmcs_check_steps": (StepsReply, [TreeWords, State, _turns, c_size_t, _turns, c_size_t, _turns, c_size_t]),
    "hmcs_chain": (c_uint32, [TreeWords, State, c_uint16, _turns, c_size_t, _number, _number]),
    "hmcs_allowances": (Answer, [TreeWords, _large]),
    "hmcs_wait_bounds": (Answer, [TreeWords, _large]),
    "hmcs_rounds": (RoundsReply, [TreeWords]),
    "hmcs_run_many": (ManyReply, [TreeWords, _number, c_size_t, _turns, c_size_t, _number, c_size_t]),
    "hmcs_check_journal": (JournalAnswer, [TreeWords, _bytes, c_size_t]),
    "hmcs_run_file": (c_uint32, [_bytes, c_size_t, _bytes, c_size_t, _number, _number]),
    "hmcs_read_file": (ReadReply, [_bytes, c_size_t, _turns, c_size_t]),
    "hmcs_write_file": (c_uint32, [TreeWords, _turns, c_size_t, _bytes, c_size_t, _number, _number]),
    "hmcs_read_text": (TextReply, [_bytes, c_size_t]),
    "hmcs_rate": (RateReply, [c_uint16, c_uint16, PassingTimes]),
}


def command() -> str:
    """The path of the command: from HMCS_COMMAND, installed with this package, or in the search path."""
    named = os.environ.get("HMCS_COMMAND")
    found = named or next((path for path in (os.path.join(prefix, "bin", "hmcs") for prefix in _prefixes()) if os.path.exists(path)), None)
    found = found or shutil.which("hmcs")
    if not found:
        raise ImportError("the command hmcs was not found: install it with host/install, or set HMCS_COMMAND")
    return found


def _prefixes() -> Iterator[str]:
    folder = os.path.dirname(os.path.abspath(__file__))
    while os.path.dirname(folder) != folder:
        folder = os.path.dirname(folder)
        yield folder


def _candidates() -> Iterator[str]:
    if os.environ.get("HMCS_LIBRARY"):
        yield os.environ["HMCS_LIBRARY"]
        return
    prefixes = list(_prefixes())
    in_path = shutil.which("hmcs")
    if in_path:
        prefixes.append(os.path.dirname(os.path.dirname(os.path.realpath(in_path))))
    for prefix in prefixes:
        for folder in ("lib", "lib64", os.path.join("lib", "*-linux-gnu*")):
            yield from glob.glob(os.path.join(glob.escape(prefix), folder, "libhmcs.so.%d" % VERSION[0]))
    found = ctypes.util.find_library("hmcs")
    if found:
        yield found


def _load() -> Tuple[ctypes.CDLL, str]:
    for path in _candidates():
        try:
            return ctypes.CDLL(path), path
        except OSError as error:
            if os.environ.get("HMCS_LIBRARY"):
                raise ImportError("HMCS_LIBRARY: %s" % error) from None
    raise ImportError("libhmcs.so.%d was not found: install it with host/install, or set HMCS_LIBRARY" % VERSION[0])


def _declare(loaded: ctypes.CDLL, path: str) -> None:
    for name, (returned, taken) in FUNCTIONS.items():
        try:
            function = getattr(loaded, name)
        except AttributeError:
            raise ImportError("%s has no %s: it is not version %d.%d" % (path, name, *VERSION)) from None
        function.restype, function.argtypes = returned, taken


def _check(loaded: ctypes.CDLL, path: str) -> None:
    version = loaded.hmcs_version()
    if version // 10000 != VERSION[0] or version // 100 % 100 < VERSION[1]:
        raise ImportError("this package is for version %d.%d of the library, and %s is version %d.%d" % (*VERSION, path, version // 10000, version // 100 % 100))
    sizes: "ctypes.Array[c_uint32]" = (c_uint32 * STRUCTS)()
    loaded.hmcs_sizes(sizes)
    here: List[int] = [ctypes.sizeof(struct) for struct in STRUCT_ORDER]
    if list(sizes)[: len(here)] != here:
        raise ImportError("the structs of %s have other sizes than those of this package" % path)


library, library_path = _load()
_declare(library, library_path)
_check(library, library_path)
