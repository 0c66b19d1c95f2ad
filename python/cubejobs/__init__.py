"""Allocators of aligned blocks, a planner and a scheduler of jobs, over the proved shared objects of cubejobs.

A machine of dimension n has the processors 0 to 2^n - 1. A processor is only a number. A block of dimension k is 2^k
processors in a row, from a multiple of 2^k on.

`Regions` is the lock-free allocator: it finds some free block. `FirstFit` is exact: it finds the free block with the
least base. Both hold any number of blocks, on machines of dimension 0 to 20.

>>> with Regions(4) as machine:
...     with machine.take(2) as block:
...         print(len(block.processors), machine.occupancy().held)
...     machine.occupancy().held
4 4
0

`Planner` says which waiting job starts next, and on which processors: `help(cubejobs.Planner)`. `examples/day.py` plans a
day with it. `Scheduler` is an executor of `concurrent.futures` that runs the jobs itself, in threads:
`help(cubejobs.Scheduler)`. `examples/gang.py` runs five jobs with it.

Both machines have the methods of `Machine`, so one function serves both. Here it counts the blocks for which there is room:

>>> def fill(machine: Machine, dim: int) -> int:
...     blocks = []
...     try:
...         while True:
...             blocks.append(machine.take(dim))
...     except NoRoom:
...         return len(blocks)
>>> fill(Regions(4), 2), fill(FirstFit(4), 1)
(4, 8)

Blocks. Leave a `with`, or call `release`, to give a block back. A block that is forgotten stays held: `held()` lists all
blocks, and `release` also takes two numbers, as in `machine.release(Region(4, 2))`.

Ends. Leaving the `with` of a machine closes it, and raises StillHeld if a block is held. If the body ends by an
exception, that exception comes out. After a close, a take raises ValueError. A machine that you drop gives its memory
back, also if blocks of it were forgotten. As long as you have a block, its machine stays.

Threads. They may share a machine and its blocks: a lock lets them in one after the other.

Processes. A machine belongs to one process. In the child of a fork, each call on a machine or a block of the parent
raises OtherProcess: it would give out the same processors again. So let the parent take and release, and send
`block.region` to its workers: that is two plain numbers. `examples/processes.py` does so.

Copies. A `FirstFit` can be copied, pickled, and made an image of bytes. The copy is another machine: what it takes, the
first one may take too. So it is for plans, files and tests. Its blocks are held, and `held()` lists them.

This module is for experiments and notebooks: its calls are far slower than those of C. What is proved is the library,
and not this module. It loads the shared objects from the folder that CUBEJOBS_LIB names. If it names none, the module
looks into `lib` of this package, `release/` of a clone and `lib` of the installation. Last, the system looks.
"""
import abc
import ctypes
import threading
import weakref
from types import TracebackType
from typing import (Any, Callable, ContextManager, Dict, List, NamedTuple, NoReturn, Optional, Tuple, Type,
                    TypeVar, Union)

from cubejobs._common import OtherProcess, Process, Region, natural, region_of
from cubejobs._library import DONE, HEAD_BYTES, MAX_DIM, REGIONS_VERSION, Handle, load
from cubejobs._library import VERSION as __version__
from cubejobs._planner import Counts, Job, NoJob, Planner, PlannerFull, State, WrongState
from cubejobs._scheduler import Forecast, Scheduler, SchedulerCounts, SchedulerFuture, current_processors

__all__ = ["Block", "Counts", "FirstFit", "Forecast", "Job", "MAX_DIM", "Machine", "NoJob", "NoRoom", "NotHeld",
           "Occupancy", "OtherProcess", "Planner", "PlannerFull", "Region", "Regions", "Scheduler", "SchedulerCounts",
           "SchedulerFuture", "State", "StillHeld", "WrongState", "current_processors"]

_regions, _fit = load()
_Self = TypeVar("_Self", bound="Machine")
_Fit = TypeVar("_Fit", bound="FirstFit")


class NoRoom(Exception):
    """A refused take: no block of the dimension is free, or a processor of the given block is held."""


class NotHeld(Exception):
    """A refused use of a block: it was given back, or it is of another machine."""


class StillHeld(Exception):
    """A refused close: a block of the machine is held."""


class Occupancy(NamedTuple):
    """The number of held processors, and the dimension of the largest free block, or None. Then the number of free
    blocks of each dimension, at the dimension."""

    held: int
    largest: Optional[int]
    free: List[int]


class _Hold:
    """What a block holds: its region, or None once it was given back, and its handle in the library, if it has one.

    A block and its machine share it. The machine does not refer to the block: it would keep itself by that.
    """

    __slots__ = ("region", "handle")

    def __init__(self, region: Region, handle: Optional[Handle] = None) -> None:
        self.region: Optional[Region] = region
        self.handle = handle


def _must_be_done(code: int) -> None:
    if code != DONE:
        raise RuntimeError(f"the library refuses with the code {code}")


class Block:
    """A held block of a machine. Leave a `with`, or call `release`, to give it back. Any thread may do so."""

    __slots__ = ("_machine", "_hold", "__weakref__")

    def __init__(self, machine: "Machine", hold: _Hold) -> None:
        self._machine, self._hold = machine, hold

    @property
    def region(self) -> Region:
        """The first processor and the dimension, as plain numbers. Raises NotHeld if the block was given back."""
        with self._machine._turn():
            region = self._hold.region
        if region is None:
            raise NotHeld("the block was given back")
        return region

    @property
    def base(self) -> int:
        """The first processor."""
        return self.region.base

    @property
    def dim(self) -> int:
        """The dimension."""
        return self.region.dim

    @property
    def processors(self) -> range:
        """The numbers of the processors."""
        return self.region.processors

    def release(self) -> None:
        """Gives the block back. Raises NotHeld if it was given back before."""
        self._machine.release(self)

    def split(self) -> "Block":
        """Keeps the lower half and returns the upper one. Raises ValueError if the block is one processor, and NotHeld
        if it was given back.

        >>> machine = Regions(3)
        >>> lower = machine.take(3)
        >>> upper = lower.split()
        >>> lower.region, upper.region
        (Region(base=0, dim=2), Region(base=4, dim=2))
        >>> lower.join(upper)
        >>> lower.region
        Region(base=0, dim=3)
        """
        return self._machine.split(self)

    def join(self, upper: "Block") -> None:
        """Joins the upper half to this lower one, which then is the whole. Raises NotHeld if one of them was given back
        or is of another machine. Raises ValueError if they are not the two halves of a block."""
        self._machine.join(self, upper)

    def __enter__(self) -> "Block":
        return self

    def __exit__(self, kind: Optional[Type[BaseException]], value: Optional[BaseException],
                 trace: Optional[TracebackType]) -> None:
        try:
            self.release()
        except NotHeld:
            pass
        except Exception:
            if kind is None:
                raise

    def __reduce__(self) -> NoReturn:
        raise TypeError("a block cannot be copied or sent to another process: send its region")

    def __repr__(self) -> str:
        if not self._machine._is_here():
            return "Block(of another process)"
        region = self._hold.region
        return f"Block(base={region.base}, dim={region.dim})" if region else "Block(given back)"


class Machine(abc.ABC):
    """What `Regions` and `FirstFit` have in common: use it in annotations."""

    def __init__(self, dim: int) -> None:
        """Opens a machine of 2^dim processors, of which none is held. Raises ValueError or MemoryError."""
        self.dim = natural(dim, MAX_DIM, "the dimension of a machine")
        # A thread that a signal handler interrupts, or the garbage collector, may come here again.
        self._lock = threading.RLock()
        self._mark, self._is_open = Process.mark, True
        # All held blocks, by their first processors.
        self._holds: Dict[int, _Hold] = {}

    def take(self, dim: int) -> Block:
        """Takes a free block. Raises NoRoom if there is none, and ValueError if it is larger than the machine."""
        dim = natural(dim, self.dim, "the dimension of a block")
        with self._turn():
            self._must_be_open()
            hold = self._find(dim)
            if hold is None:
                raise NoRoom(f"a part of each block of dimension {dim} is held")
            return Block(self, hold)

    def take_at(self, base: int, dim: int) -> Block:
        """Takes the block that begins at a processor. Raises NoRoom if a processor of it is held, and ValueError if no
        block of the dimension begins there."""
        region = self._region(base, dim)
        with self._turn():
            self._must_be_open()
            hold = self._find_at(region)
            if hold is None:
                raise NoRoom(f"a processor of the block of dimension {region.dim} at {region.base} is held")
            return Block(self, hold)

    # The bookkeeping of a release, a split and a join comes before the call of the library. If Ctrl-C comes in between,
    # processors may stay held, and are never given out twice.

    def release(self, block: Union[Block, Region]) -> None:
        """Gives a block back, or the block that is a region. Raises NotHeld if the block was given back or is of
        another machine, or no held block is the region. Raises ValueError if the machine has no such region."""
        with self._turn():
            hold, region = self._held(block)
            hold.region = None
            del self._holds[region.base]
            self._give_back(region, hold)

    def split(self, block: Union[Block, Region]) -> Block:
        """Leaves a block its lower half, and returns the upper one. Raises ValueError if the block is one processor, or
        the machine has no such region. Raises NotHeld as a release does."""
        with self._turn():
            lower, (base, dim) = self._held(block)
            if dim == 0:
                raise ValueError("a block of one processor has no halves")
            middle = base + (1 << dim - 1)
            upper = _Hold(Region(middle, dim - 1), Handle() if lower.handle else None)
            lower.region, self._holds[middle] = Region(base, dim - 1), upper
            self._cut(lower, upper)
            return Block(self, upper)

    def join(self, lower: Union[Block, Region], upper: Union[Block, Region]) -> None:
        """Joins the upper half of a block to the lower one, which then is the whole. Raises ValueError if they are not
        the two halves of a block, or the machine has no such region. Raises NotHeld as a release does."""
        with self._turn():
            (whole, (base, dim)), (half, other) = self._held(lower), self._held(upper)
            if base % (2 << dim) or other != (base + (1 << dim), dim):
                raise ValueError("these are not the lower and the upper half of a block")
            whole.region, half.region = Region(base, dim + 1), None
            del self._holds[other.base]
            self._glue(whole, half)

    def held(self) -> List[Region]:
        """Returns the regions of all held blocks, in their order, also of those that were forgotten."""
        with self._turn():
            return sorted(hold.region for hold in [*self._holds.values()] if hold.region)

    @abc.abstractmethod
    def occupancy(self) -> Occupancy:
        """Counts what is held and what is free."""

    def close(self) -> None:
        """Frees the machine. Raises StillHeld if a block is held: then nothing changes. A second close does nothing."""
        with self._turn():
            if self._holds:
                raise StillHeld(f"blocks that are held: {len(self._holds)}")
            if self._is_open:
                self._is_open = False
                self._end()

    def __enter__(self: _Self) -> _Self:
        return self

    def __exit__(self, kind: Optional[Type[BaseException]], value: Optional[BaseException],
                 trace: Optional[TracebackType]) -> None:
        try:
            self.close()
        except Exception:
            if kind is None:
                raise

    def __reduce__(self) -> Any:
        raise TypeError("a machine cannot be copied or sent to another process: a copy would give out the same blocks")

    def __repr__(self) -> str:
        name = f"{type(self).__name__}(dim={self.dim}"
        if not self._is_here():
            return f"{name}, of another process)"
        held = sum(1 << region.dim for region in self.held())
        return f"{name}, held={held})" if self._is_open else f"{name}, closed)"

    def _is_here(self) -> bool:
        return self._mark is Process.mark

    def _turn(self) -> ContextManager[Any]:
        """Returns the lock of the machine. Raises OtherProcess in the child of a fork, where a thread that is gone may
        have it."""
        if self._mark is not Process.mark:
            raise OtherProcess("the machine belongs to the process that this one was forked from: open another one")
        return self._lock

    def _must_be_open(self) -> None:
        if not self._is_open:
            raise ValueError("the machine is closed")

    def _region(self, base: int, dim: int) -> Region:
        """Returns a region of the machine. Raises ValueError if it has no such region."""
        return region_of(base, dim, self.dim)

    def _held(self, block: Union[Block, Region]) -> Tuple[_Hold, Region]:
        """Returns what a block of this machine holds. Raises NotHeld, or ValueError if there is no such region."""
        if isinstance(block, Block):
            if block._machine is not self:
                raise NotHeld("the block is of another machine")
            if block._hold.region is None:
                raise NotHeld("the block was given back")
            return block._hold, block._hold.region
        region = self._region(*block)
        hold = self._holds.get(region.base)
        if hold is None or hold.region != region:
            raise NotHeld(f"no block that is held is {region}")
        return hold, region

    @abc.abstractmethod
    def _find(self, dim: int) -> Optional[_Hold]:
        """Takes a free block, and keeps it among the held ones. Returns None if there is none."""

    @abc.abstractmethod
    def _find_at(self, region: Region) -> Optional[_Hold]:
        """Takes a region, and keeps it among the held ones. Returns None if a processor of it is held."""

    @abc.abstractmethod
    def _give_back(self, region: Region, hold: _Hold) -> None:
        """Releases a block."""

    @abc.abstractmethod
    def _cut(self, lower: _Hold, upper: _Hold) -> None:
        """Splits a block, whose lower half has its region already."""

    @abc.abstractmethod
    def _glue(self, lower: _Hold, upper: _Hold) -> None:
        """Joins two blocks, of which the lower one is the whole already."""

    @abc.abstractmethod
    def _end(self) -> None:
        """Frees the machine, in which nothing is held."""


class Regions(Machine):
    """A machine with the lock-free allocator: a take finds some free block.

    >>> machine = Regions(3)
    >>> whole = machine.take(3)
    >>> whole, machine
    (Block(base=0, dim=3), Regions(dim=3, held=8))
    >>> machine.take(0)
    Traceback (most recent call last):
        ...
    cubejobs.NoRoom: a part of each block of dimension 0 is held
    >>> whole.release()
    >>> machine.take_at(4, 2).processors
    range(4, 8)
    >>> machine.release(Region(4, 2))
    """

    def __init__(self, dim: int) -> None:
        super().__init__(dim)
        self._handle = Handle()
        weakref.finalize(self, _drop, self._handle, self._holds, self._mark).atexit = False
        # The library takes a number that no other machine has: the address of the handle.
        if _regions.open_version(self._handle, REGIONS_VERSION, self.dim, ctypes.addressof(self._handle)) != DONE:
            raise MemoryError("there is no memory for the machine")

    def occupancy(self) -> Occupancy:
        with self._turn():
            self._must_be_open()
            found = _regions.occupancy(self._handle)
        _must_be_done(found.code)
        largest = found.largest if found.has_free else None
        return Occupancy(found.held, largest, list(found.free[: self.dim + 1]))

    def _find(self, dim: int) -> Optional[_Hold]:
        return self._filled(_regions.take_exact, dim)

    def _find_at(self, region: Region) -> Optional[_Hold]:
        return self._filled(_regions.take_at, *region)

    def _filled(self, take: Callable[..., Any], *numbers: int) -> Optional[_Hold]:
        handle, base = Handle(), -1
        try:
            found = take(self._handle, handle, *numbers)
            if found.code != DONE:
                return None
            base = found.base
            hold = _Hold(Region(base, found.dim), handle)
            self._holds[base] = hold
            return hold
        except BaseException:
            # Ctrl-C came in between. If the block is not kept yet, nobody has the handle.
            if base not in self._holds:
                _regions.release(self._handle, handle)
            raise

    def _give_back(self, region: Region, hold: _Hold) -> None:
        _must_be_done(_regions.release(self._handle, hold.handle))

    def _cut(self, lower: _Hold, upper: _Hold) -> None:
        _must_be_done(_regions.split(self._handle, lower.handle, upper.handle))

    def _glue(self, lower: _Hold, upper: _Hold) -> None:
        _must_be_done(_regions.join(self._handle, lower.handle, upper.handle))

    def _end(self) -> None:
        _must_be_done(_regions.free(self._handle))


def _drop(handle: Handle, holds: Dict[int, _Hold], mark: object) -> None:
    """Frees a machine that nobody has any more, with the blocks that were forgotten. Does nothing in the child of a
    fork: there the memory is a copy, in which a thread may have stopped inside a call."""
    if mark is Process.mark:
        for hold in holds.values():
            _regions.release(handle, hold.handle)
        _regions.free(handle)


class FirstFit(Machine):
    """A machine with exact first fit: a take gets the free block with the least base. It takes two bytes for each
    processor.

    >>> machine = FirstFit(3)
    >>> machine.take(0)
    Block(base=0, dim=0)
    >>> block = machine.take(2)
    >>> block
    Block(base=4, dim=2)
    >>> machine.largest()
    Region(base=2, dim=1)
    >>> machine.first_apart(0, Region(0, 1))
    Region(base=2, dim=0)
    >>> block.release()
    >>> machine.free_blocks(2)
    1

    A copy is another machine. It holds the same blocks:

    >>> import copy
    >>> plan = copy.copy(machine)
    >>> plan.take(2).region, plan.held()
    (Region(base=4, dim=2), [Region(base=0, dim=0), Region(base=4, dim=2)])
    >>> machine.held()
    [Region(base=0, dim=0)]
    """

    def __init__(self, dim: int) -> None:
        super().__init__(dim)
        self._give_memory()
        _must_be_done(_fit.open(*self._image))

    @classmethod
    def from_image(cls: Type[_Fit], dim: int, image: bytes) -> _Fit:
        """Makes a machine of the bytes that `image` has returned. `held` lists its blocks. Raises ValueError if they
        are not a sound image of this dimension."""
        image, machine = bytes(image), cls.__new__(cls)
        Machine.__init__(machine, dim)
        machine._give_memory()
        if len(image) != ctypes.sizeof(machine._memory):
            raise ValueError(f"an image of dimension {machine.dim} has {ctypes.sizeof(machine._memory)} bytes")
        machine._memory[:] = image
        if _fit.check(*machine._image) != DONE:
            raise ValueError(f"the bytes are not a sound image of dimension {machine.dim}")
        # A byte is 0 if its node was taken as one block.
        node = image.find(0, HEAD_BYTES + 1) - HEAD_BYTES
        while node > 0:
            size = machine.dim + 1 - node.bit_length()
            base = (node << size) - (1 << machine.dim)
            machine._holds[base] = _Hold(Region(base, size))
            node = image.find(0, HEAD_BYTES + node + 1) - HEAD_BYTES
        return machine

    def image(self) -> bytes:
        """Returns the machine as bytes, for a file: `from_image` makes a machine of them."""
        with self._turn():
            self._must_be_open()
            return bytes(self._memory)

    def occupancy(self) -> Occupancy:
        found = self._call(_fit.occupancy)
        largest = found.largest if found.has_free else None
        return Occupancy(found.held, largest, list(found.free[: self.dim + 1]))

    def is_free(self, base: int, dim: int) -> bool:
        """Returns whether all of the block that begins at a processor is free. Raises ValueError if there is no such
        block."""
        region = self._region(base, dim)
        return bool(self._call(_fit.is_free, *region))

    def free_blocks(self, dim: int) -> int:
        """Returns how many blocks of a dimension are free."""
        return int(self._call(_fit.free_blocks, natural(dim, self.dim, "the dimension of a block")))

    def largest(self) -> Optional[Region]:
        """Returns the first free block of the largest dimension that has one, or None. Takes nothing."""
        return self._found(_fit.largest)

    def first(self, dim: int) -> Optional[Region]:
        """Returns the block that a take would get, or None. Takes nothing."""
        return self._found(_fit.first, natural(dim, self.dim, "the dimension of a block"))

    def first_apart(self, dim: int, avoid: Union[Block, Region]) -> Optional[Region]:
        """Returns the first free block that does not overlap another one, or None. The other one may be free or held.
        Takes nothing. Raises ValueError if the machine has no such block."""
        dim = natural(dim, self.dim, "the dimension of a block")
        return self._found(_fit.first_apart, dim, *self._region(*avoid.region))

    def block_with(self, processor: int) -> Optional[Region]:
        """Returns the held block that has a processor, or None if it is free."""
        return self._found(_fit.block_with, natural(processor, (1 << self.dim) - 1, "a processor"))

    def __reduce__(self) -> Any:
        return type(self).from_image, (self.dim, self.image())

    def _give_memory(self) -> None:
        """Gives the machine memory at a multiple of 8, and the arguments of calls that use it."""
        count = 2 << self.dim
        words = (ctypes.c_uint64 * ((HEAD_BYTES + count + 7) // 8))()
        self._memory = (ctypes.c_char * (HEAD_BYTES + count)).from_buffer(words)
        head = ctypes.addressof(words)
        self._image = head, head + HEAD_BYTES, count, self.dim

    def _call(self, call: Callable[..., Any], *numbers: int) -> Any:
        with self._turn():
            self._must_be_open()
            return call(*self._image, *numbers)

    def _found(self, call: Callable[..., Any], *numbers: int) -> Optional[Region]:
        found = self._call(call, *numbers)
        return Region(found.base, found.dim) if found.code == DONE else None

    def _find(self, dim: int) -> Optional[_Hold]:
        return self._filled(_fit.take, dim)

    def _find_at(self, region: Region) -> Optional[_Hold]:
        return self._filled(_fit.take_at, *region)

    def _filled(self, take: Callable[..., Any], *numbers: int) -> Optional[_Hold]:
        found = take(*self._image, *numbers)
        if found.code != DONE:
            return None
        base = found.base
        hold = _Hold(Region(base, found.dim))
        self._holds[base] = hold
        return hold

    def _give_back(self, region: Region, hold: _Hold) -> None:
        _must_be_done(_fit.release(*self._image, *region))

    def _cut(self, lower: _Hold, upper: _Hold) -> None:
        if lower.region:
            _must_be_done(_fit.split(*self._image, lower.region.base, lower.region.dim + 1))

    def _glue(self, lower: _Hold, upper: _Hold) -> None:
        if lower.region:
            _must_be_done(_fit.join(*self._image, *lower.region))

    def _end(self) -> None:
        del self._memory, self._image
