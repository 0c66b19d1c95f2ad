"""A plain model of the planner: its rules, word by word, with a list of processors and no tree.

It is slow and has nothing in common with the library. `checks/run plan` compares both on random events. The names, the
order of refusals and the numbers of codes are those of cubejobs_plan.h.
"""
from __future__ import annotations

from dataclasses import dataclass, field

NEVER = 2**64 - 1
CLASSES = 8
DONE, NO_JOB, OUT_OF_RANGE, FULL, WRONG_STATE, TIME_BACK = 0, 19, 45, 46, 47, 48
WAITS, RESERVED, RUNS = 1, 2, 3
# The latest end of a block that no job holds: earlier than any time.
NOBODY = -1


@dataclass
class Job:
    """A job that waits or runs: `base` is None while it waits."""

    arrival: int
    payload: int
    processors: int
    dim: int
    job_class: int
    estimate: int
    passed: int = 0
    base: int | None = None
    end: int = NEVER


@dataclass
class Model:
    """A planner of 2^dim processors, for at most `most` jobs."""

    dim: int
    most: int
    patience: int
    now: int = 0
    arrivals: int = 0
    jobs: dict = field(default_factory=dict)
    # The blocks out of service: their dimensions by their bases.
    out: dict = field(default_factory=dict)
    # The arrival of the job with the reservation and the base of its block, or None.
    reserved: tuple | None = None

    # ---- blocks

    def blocks(self, dim):
        """Returns the bases of all blocks of a dimension."""
        return range(0, 2**self.dim, 2**dim)

    def holders(self, base, dim):
        """Returns the jobs that hold a part of a block."""
        return [job for job in self.jobs.values()
                if job.base is not None and job.base < base + 2**dim and base < job.base + 2**job.dim]

    def is_usable(self, base, dim):
        return all(base + 2**dim <= at or at + 2**size <= base for at, size in self.out.items())

    def is_free(self, base, dim):
        return self.is_usable(base, dim) and not self.holders(base, dim)

    def has_usable(self, dim, start=0, size=None):
        """Returns whether a block of this dimension is usable, in the machine or in a block of it."""
        size = self.dim if size is None else size
        return any(self.is_usable(base, dim) for base in range(start, start + 2**size, 2**dim)) if dim <= size else False

    def latest(self, base, dim):
        """Returns the latest end of a block: NOBODY, a time, or NEVER."""
        return max((job.end for job in self.holders(base, dim)), default=NOBODY)

    def busy(self, base, dim):
        """Returns how many processors of a block are held or out of service."""
        return sum(not self.is_free(at, 0) for at in range(base, base + 2**dim))

    def first(self, dim, apart=None):
        """Returns the first free block, apart from that of the reservation if this is asked for, or None."""
        for base in self.blocks(dim):
            if self.is_free(base, dim) and (apart is None or base + 2**dim <= apart[0] or sum(apart) <= base):
                return base
        return None

    # ---- the policy

    def waiting(self):
        """Returns the waiting jobs in order."""
        return sorted((job for job in self.jobs.values() if job.base is None),
                      key=lambda job: (job.job_class, job.arrival))

    def head(self):
        if self.reserved:
            return self.jobs[self.reserved[0]]
        return next((job for job in self.waiting() if self.has_usable(job.dim)), None)

    def choose(self, dim):
        """Returns the base of the block that is reserved for a job of this dimension."""
        base, size = 0, self.dim
        while size > dim:
            size -= 1
            halves = [half for half in (base, base + 2**size) if self.has_usable(dim, half, size)]
            base = min(halves, key=lambda half: (self.latest(half, size), self.busy(half, size), half))
        return base

    def start(self, job, base):
        job.base = base
        end = self.now + job.estimate
        job.end = end if job.estimate and end < NEVER else NEVER
        if self.reserved and self.reserved[0] == job.arrival:
            self.reserved = None
        return job

    def place_beside(self, job, head):
        """Returns where a job that is not the head may start, or None."""
        if not self.reserved:
            return self.first(job.dim)
        base, size = self.reserved[1], 2**head.dim
        apart = self.first(job.dim, (base, size))
        promise = self.latest(base, head.dim)
        if apart is not None or promise == NEVER:
            return apart
        end = self.now + job.estimate
        return self.first(job.dim) if job.estimate and end < NEVER and end <= promise else None

    def decide(self):
        """Makes one decision. Returns the job that starts, or None."""
        head = self.head()
        if head is None:
            return None
        base = self.first(head.dim)
        if base is not None:
            return self.start(head, base)
        if not self.reserved:
            block = self.choose(head.dim)
            if self.latest(block, head.dim) < NEVER or head.passed >= self.patience * 2**self.dim:
                self.reserved = (head.arrival, block)
        for job in self.waiting():
            if job is not head:
                base = self.place_beside(job, head)
                if base is not None:
                    head.passed += 2**job.dim
                    return self.start(job, base)
        return None

    # ---- the calls

    def submit(self, payload, estimate, processors, job_class):
        """Returns a code, and the job if this is DONE."""
        if not 1 <= processors <= 2**self.dim or job_class >= CLASSES:
            return OUT_OF_RANGE, None
        if len(self.jobs) == self.most:
            return FULL, None
        job = Job(self.arrivals, payload, processors, (processors - 1).bit_length(), job_class, estimate)
        self.jobs[job.arrival] = job
        self.arrivals += 1
        return DONE, job

    def cancel(self, arrival):
        job = self.jobs.get(arrival)
        if job is None:
            return NO_JOB, None
        if job.base is not None:
            return WRONG_STATE, None
        answer = self.forecast(arrival)[1]
        if self.reserved and self.reserved[0] == arrival:
            self.reserved = None
        del self.jobs[arrival]
        return DONE, answer

    def finish(self, arrival):
        job = self.jobs.get(arrival)
        if job is None:
            return NO_JOB, None
        if job.base is None:
            return WRONG_STATE, None
        answer = self.forecast(arrival)[1]
        del self.jobs[arrival]
        return DONE, answer

    def is_block(self, base, dim):
        return dim <= self.dim and base % 2**dim == 0 and base < 2**self.dim

    def occupy(self, base, dim):
        if not self.is_block(base, dim):
            return OUT_OF_RANGE
        if not self.is_free(base, dim):
            return WRONG_STATE
        self.out[base] = dim
        if self.reserved:
            head = self.jobs[self.reserved[0]]
            if not self.is_usable(self.reserved[1], head.dim):
                self.reserved = None
        return DONE

    def vacate(self, base, dim):
        if not self.is_block(base, dim):
            return OUT_OF_RANGE
        if self.out.get(base) != dim:
            return WRONG_STATE
        del self.out[base]
        return DONE

    def next(self, now):
        if now == NEVER:
            return OUT_OF_RANGE, None
        if now < self.now:
            return TIME_BACK, None
        self.now = now
        job = self.decide()
        return (NO_JOB, None) if job is None else (DONE, self.forecast(job.arrival)[1])

    def forecast(self, arrival):
        """Returns a code, and a tuple: state, base, dim, time, before, processors, class, payload, arrival."""
        job = self.jobs.get(arrival)
        if job is None:
            return NO_JOB, None
        rest = job.processors, job.job_class, job.payload, job.arrival
        if job.base is not None:
            return DONE, (RUNS, job.base, job.dim, job.end, 0, *rest)
        if self.reserved and self.reserved[0] == arrival:
            return DONE, (RESERVED, self.reserved[1], job.dim, max(self.latest(self.reserved[1], job.dim), 0), 0, *rest)
        order = self.waiting()
        if self.reserved:
            order.sort(key=lambda other: other.arrival != self.reserved[0])
        return DONE, (WAITS, 0, job.dim, NEVER, order.index(job), *rest)

    def counts(self):
        """Returns waiting, running, held, asked, occupied, largest."""
        running = [job for job in self.jobs.values() if job.base is not None]
        sizes = [2**dim for dim in range(self.dim + 1) if self.first(dim) is not None]
        return (len(self.jobs) - len(running), len(running), sum(2**job.dim for job in running),
                sum(job.processors for job in running), sum(2**dim for dim in self.out.values()), max(sizes, default=0))
