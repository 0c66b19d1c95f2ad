"""What the allocators, the planner and the scheduler share: regions, numbers in a range, and the process that owns a
value."""
import operator
import os
from typing import NamedTuple


class OtherProcess(Exception):
    """A refused call in the child of a fork: the machine, the planner or the scheduler belongs to the parent."""


class Region(NamedTuple):
    """A block as two numbers: its first processor and its dimension."""

    base: int
    dim: int

    @property
    def processors(self) -> range:
        """The numbers of its processors."""
        return range(self.base, self.base + (1 << self.dim))

    @property
    def region(self) -> "Region":
        """The region itself. So code that reads a block also reads a region."""
        return self


class Process:
    """This process, by a mark that the child of a fork replaces."""

    mark = object()

    @classmethod
    def become_another(cls) -> None:
        cls.mark = object()


os.register_at_fork(after_in_child=Process.become_another)


def natural(number: int, most: int, what: str, least: int = 0) -> int:
    """Returns a whole number from the least to the most. Raises ValueError if it is none of these."""
    whole = operator.index(number)
    if not least <= whole <= most:
        raise ValueError(f"{what} is {least} to {most}, and not {whole}")
    return whole


def region_of(base: int, dim: int, machine_dim: int) -> Region:
    """Returns the block that begins at a processor, of a machine of this dimension. Raises ValueError if there is none."""
    dim = natural(dim, machine_dim, "the dimension of a block")
    base = natural(base, (1 << machine_dim) - 1, "a processor")
    if base % (1 << dim):
        raise ValueError(f"no block of dimension {dim} begins at the processor {base}")
    return Region(base, dim)


# A user sees them as parts of the module, in messages and in pickles too.
for _it in (OtherProcess, Region):
    _it.__module__ = "cubejobs"
