"""Loads the shared objects of cubejobs, and declares their calls as the C headers do."""
import ctypes
import os
import platform
from typing import Any, Dict, List, Tuple

VERSION = "0.3.0-dev"
# The largest dimension of a machine, CUBEJOBS_REGIONS_MAX_DIM.
MAX_DIM = 20
# The version of the header of the lock-free library, CUBEJOBS_REGIONS_VERSION.
REGIONS_VERSION = 3
# The bytes of an image of first fit before its tree.
HEAD_BYTES = 96
# The most jobs of a planner, the time that is not known, and the version of the header of the planner.
MAX_JOBS, NEVER, PLAN_VERSION = 16777216, 2**64 - 1, 1
# The most workers of a scheduler, and the version of its header. It has as many jobs as a planner.
MAX_WORKERS, SCHED_VERSION = 65536, 1
DONE, BAD_VERSION = 0, 15


class Handle(ctypes.Structure):
    """The handle of a machine or of a block. Only the library reads or writes it."""

    _fields_ = [("tag", ctypes.c_uint64), ("at", ctypes.c_uint64)]


class _Answer(ctypes.Structure):
    _fields_ = [("code", ctypes.c_uint16), ("dim", ctypes.c_uint16), ("contended", ctypes.c_uint32),
                ("base", ctypes.c_uint64)]


class PlanOptions(ctypes.Structure):
    """What a planner is opened for."""

    _fields_ = [("dim", ctypes.c_uint32), ("jobs", ctypes.c_uint32), ("patience", ctypes.c_uint32),
                ("flags", ctypes.c_uint32)]


class PlanMemory(ctypes.Structure):
    """Memory that a caller lends: none here."""

    _fields_ = [("at", ctypes.c_void_p), ("words", ctypes.c_uint64)]


class PlanRequest(ctypes.Structure):
    """A job as it is submitted."""

    _fields_ = [("payload", ctypes.c_uint64), ("estimate", ctypes.c_uint64), ("processors", ctypes.c_uint32),
                ("job_class", ctypes.c_uint32)]


class _PlanJob(ctypes.Structure):
    _fields_ = [("code", ctypes.c_uint32), ("state", ctypes.c_uint32), ("ticket", ctypes.c_uint64),
                ("payload", ctypes.c_uint64), ("base", ctypes.c_uint64), ("time", ctypes.c_uint64),
                ("before", ctypes.c_uint64), ("arrival", ctypes.c_uint64), ("processors", ctypes.c_uint32),
                ("dim", ctypes.c_uint32), ("job_class", ctypes.c_uint32)]


class _PlanCounts(ctypes.Structure):
    _fields_ = [(name, ctypes.c_uint32)
                for name in ("code", "waiting", "running", "held", "asked", "occupied", "largest")]


class SchedOptions(ctypes.Structure):
    """What a scheduler is opened for."""

    _fields_ = [("dim", ctypes.c_uint32), ("jobs", ctypes.c_uint32), ("patience", ctypes.c_uint32),
                ("workers", ctypes.c_uint32)]


class SchedRequest(ctypes.Structure):
    """A job as it is submitted."""

    _fields_ = [("payload", ctypes.c_uint64), ("estimate", ctypes.c_uint64), ("processors", ctypes.c_uint32),
                ("job_class", ctypes.c_uint32)]


class _SchedAnswer(ctypes.Structure):
    _fields_ = [("code", ctypes.c_uint32), ("count", ctypes.c_uint32), ("woken", ctypes.c_uint32 * 4),
                ("more", ctypes.c_uint32), ("over", ctypes.c_uint32), ("ticket", ctypes.c_uint64),
                ("payload", ctypes.c_uint64), ("base", ctypes.c_uint64), ("processors", ctypes.c_uint32),
                ("worker", ctypes.c_uint32)]


class _SchedForecast(ctypes.Structure):
    _fields_ = [("code", ctypes.c_uint32), ("state", ctypes.c_uint32), ("base", ctypes.c_uint64),
                ("time", ctypes.c_uint64), ("dim", ctypes.c_uint32), ("unused", ctypes.c_uint32)]


class _SchedCounts(ctypes.Structure):
    _fields_ = [("code", ctypes.c_uint32), ("held", ctypes.c_uint32), ("occupied", ctypes.c_uint32),
                ("unused", ctypes.c_uint32), ("waiting", ctypes.c_uint64), ("running", ctypes.c_uint64),
                ("asked", ctypes.c_uint64)]


class _OccupancyAnswer(ctypes.Structure):
    _fields_ = [("code", ctypes.c_uint32), ("largest", ctypes.c_uint32), ("has_free", ctypes.c_bool),
                ("held", ctypes.c_uint64), ("free", ctypes.c_uint64 * (MAX_DIM + 1))]


class _FitAnswer(ctypes.Structure):
    _fields_ = [("code", ctypes.c_uint32), ("dim", ctypes.c_uint32), ("base", ctypes.c_uint64)]


_U32, _U64, _BOOL = ctypes.c_uint32, ctypes.c_uint64, ctypes.c_bool
_HANDLE = ctypes.POINTER(Handle)
# An image of first fit: its head, its tree, the bytes of the tree, and the dimension.
_IMAGE = [ctypes.c_void_p, ctypes.c_void_p, ctypes.c_size_t, _U32]
# The result of a call, and its arguments.
_Calls = Dict[str, Tuple[Any, List[Any]]]
_REGIONS_CALLS: _Calls = {
    "open_version": (_U32, [_HANDLE, _U32, _U32, _U64]),
    "take_exact": (_Answer, [_HANDLE, _HANDLE, _U32]),
    "take_at": (_Answer, [_HANDLE, _HANDLE, _U64, _U32]),
    "split": (_U32, [_HANDLE, _HANDLE, _HANDLE]),
    "join": (_U32, [_HANDLE, _HANDLE, _HANDLE]),
    "release": (_U32, [_HANDLE, _HANDLE]),
    "occupancy": (_OccupancyAnswer, [_HANDLE]),
    "free": (_U32, [_HANDLE]),
}
_FIT_CALLS: _Calls = {
    "open": (_U32, _IMAGE),
    "check": (_U32, _IMAGE),
    "take": (_FitAnswer, [*_IMAGE, _U32]),
    "take_at": (_FitAnswer, [*_IMAGE, _U64, _U32]),
    "release": (_U32, [*_IMAGE, _U64, _U32]),
    "split": (_U32, [*_IMAGE, _U64, _U32]),
    "join": (_U32, [*_IMAGE, _U64, _U32]),
    "first": (_FitAnswer, [*_IMAGE, _U32]),
    "first_apart": (_FitAnswer, [*_IMAGE, _U32, _U64, _U32]),
    "block_with": (_FitAnswer, [*_IMAGE, _U64]),
    "is_free": (_BOOL, [*_IMAGE, _U64, _U32]),
    "largest": (_FitAnswer, _IMAGE),
    "free_blocks": (_U64, [*_IMAGE, _U32]),
    "occupancy": (_OccupancyAnswer, _IMAGE),
}
_PLAN_CALLS: _Calls = {
    "open_version": (_U32, [_HANDLE, _U32, PlanOptions, PlanMemory, _U64]),
    "submit": (_PlanJob, [_HANDLE, PlanRequest]),
    "cancel": (_PlanJob, [_HANDLE, _U64]),
    "finish": (_PlanJob, [_HANDLE, _U64]),
    "occupy": (_U32, [_HANDLE, _U64, _U32]),
    "vacate": (_U32, [_HANDLE, _U64, _U32]),
    "next": (_PlanJob, [_HANDLE, _U64]),
    "forecast": (_PlanJob, [_HANDLE, _U64]),
    "after": (_PlanJob, [_HANDLE, _U64]),
    "counts": (_PlanCounts, [_HANDLE]),
    "close": (_U32, [_HANDLE]),
}
# The last argument of most is the time.
_SCHED_CALLS: _Calls = {
    "open_version": (_U32, [_HANDLE, _U32, SchedOptions]),
    "try_free": (_U32, [_HANDLE]),
    "try_submit": (_SchedAnswer, [_HANDLE, SchedRequest, _U64]),
    "try_cancel": (_SchedAnswer, [_HANDLE, _U64, _U64]),
    "try_worker": (_SchedAnswer, [_HANDLE]),
    "try_next": (_SchedAnswer, [_HANDLE, _U32, _U64]),
    "try_give_up": (_SchedAnswer, [_HANDLE, _U32, _U64]),
    "try_done": (_SchedAnswer, [_HANDLE, _U32, _U64]),
    "try_leave": (_SchedAnswer, [_HANDLE, _U32, _U64]),
    "try_occupy": (_SchedAnswer, [_HANDLE, _U64, _U32, _U64]),
    "try_vacate": (_SchedAnswer, [_HANDLE, _U64, _U32, _U64]),
    "try_close": (_SchedAnswer, [_HANDLE, _U32, _U64]),
    "try_rest": (_SchedAnswer, [_HANDLE, _U32]),
    "try_settle": (_SchedAnswer, [_HANDLE, _U64]),
    "try_forecast": (_SchedForecast, [_HANDLE, _U64]),
    "try_counts": (_SchedCounts, [_HANDLE]),
}


def _number() -> int:
    """Returns the number of the version: 10203 of 1.2.3."""
    first, second, third = (int(part) for part in VERSION.partition("-")[0].split("."))
    return 10000 * first + 100 * second + third


def _places(name: str) -> List[str]:
    """Returns the paths at which a shared object may be, the first one first."""
    named = os.environ.get("CUBEJOBS_LIB")
    if named:
        return [os.path.join(named, name)]
    here = os.path.dirname(os.path.abspath(__file__))
    versioned = f"{name}.{'.'.join(VERSION.split('.')[:2])}"
    folders = [os.path.join(here, "lib"), os.path.join(here, "..", "..", "release", f"linux-{platform.machine()}"),
               os.path.join(here, "..", "..", "..", "..", "lib")]
    found = [os.path.join(folder, file) for folder in folders for file in (versioned, name)]
    return [file for file in found if os.path.exists(file)] + [versioned]


def _opened(name: str, prefix: str, calls: _Calls) -> ctypes.CDLL:
    """Loads a shared object and declares its calls. Raises ImportError if it is not there."""
    try:
        library = ctypes.CDLL(_places(name)[0])
    except OSError as reason:
        raise ImportError(f"{reason}; set CUBEJOBS_LIB to the folder of {name}") from None
    for call, (result, arguments) in calls.items():
        function = getattr(library, f"{prefix}_{call}")
        function.restype, function.argtypes = result, arguments
        setattr(library, call, function)
    return library


def _must_fit(name: str, holds: bool) -> None:
    if not holds:
        raise ImportError(f"{name} is of another version than this module, which is of {VERSION}")


def _load(name: str, prefix: str, calls: _Calls) -> ctypes.CDLL:
    """Loads a shared object that says its version. Raises ImportError if it is not there, or of another one."""
    library = _opened(name, prefix, calls)
    version_number = getattr(library, f"{name[3:-3]}_version_number")
    version_number.restype, version_number.argtypes = _U32, []
    _must_fit(name, version_number() == _number())
    return library


def load() -> Tuple[ctypes.CDLL, ctypes.CDLL]:
    """Returns the lock-free library and the exact one, both of this version. Raises ImportError if one is missing."""
    return (_load("libcubejobs_regions.so", "cubejobs_regions", _REGIONS_CALLS),
            _load("libcubejobs_fit.so", "cubejobs_image", _FIT_CALLS))


def load_plan() -> ctypes.CDLL:
    """Returns the library of the planner. It says of what version of its header it is by what it refuses to open. Raises
    ImportError if it is missing, or of another one."""
    name = "libcubejobs_plan.so"
    library = _opened(name, "cubejobs_plan", _PLAN_CALLS)
    refused = library.open_version(Handle(), PLAN_VERSION, PlanOptions(), PlanMemory(), 0)
    _must_fit(name, refused != BAD_VERSION)
    return library


def load_sched() -> ctypes.CDLL:
    """Returns the library of the scheduler, which says its version as that of the planner does. Raises ImportError if it
    is missing, or of another one."""
    name = "libcubejobs_sched.so"
    library = _opened(name, "cubejobs_sched", _SCHED_CALLS)
    _must_fit(name, library.open_version(Handle(), SCHED_VERSION, SchedOptions()) != BAD_VERSION)
    return library
