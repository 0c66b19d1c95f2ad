"""Makes random calls of the Python module beside a model: `python3 random_calls.py alone|threads SEED CALLS`.

Alone, each answer and each refusal must be that of the model, which is a table with the owner of each processor. It
finds the first fit by looking at each block from the lowest on. Of the lock-free allocator it allows each free block.

Threads share machines over a table of owners. They pass blocks by queues, forget them, release them twice and by
machines of others, and leave them by exceptions.
"""
import collections
import copy
import pickle
import queue
import random
import sys
import threading
import traceback

from checks.lib.rows import must
from cubejobs import FirstFit, NoRoom, NotHeld, Region, Regions, StillHeld

MOST_DIM, FIT_DIM, MOST_BLOCKS, THREADS = 6, 10, 24, 6


class Model:
    """What a machine holds: the region that owns each processor, or None."""

    def __init__(self, kind, dim):
        self.kind, self.dim, self.owners, self.is_open = kind, dim, [None] * (1 << dim), True

    def has(self, region):
        base, dim = region
        return 0 <= dim <= self.dim and 0 <= base < len(self.owners) and base % (1 << dim) == 0

    def is_free(self, region):
        base, dim = region
        return not any(self.owners[base : base + (1 << dim)])

    def free(self, dim):
        """Returns the bases of all free blocks of a dimension."""
        return [base for base in range(0, len(self.owners), 1 << dim) if self.is_free((base, dim))]

    def held(self):
        return sorted({it for it in self.owners if it})

    def put(self, region, owner):
        for at in range(region[0], region[0] + (1 << region[1])):
            self.owners[at] = owner

    def occupancy(self):
        counts = [len(self.free(dim)) for dim in range(self.dim + 1)]
        largest = max((dim for dim, count in enumerate(counts) if count), default=None)
        return len(self.owners) - counts[0], largest, counts


class Entry:
    """A block that the program has, its machine, and the region that the model says, or None once it was given back."""

    def __init__(self, block, home, region):
        self.block, self.home, self.region = block, home, region


class Alone:
    """A random program of one thread."""

    def __init__(self, seed):
        self.random = random.Random(seed)
        self.homes = [self.opened(kind) for kind in (Regions, FirstFit) * 2]
        self.entries, self.seen = [], collections.Counter()

    def opened(self, kind):
        dim = self.random.randint(0, MOST_DIM)
        return kind(dim), Model(kind, dim)

    def expect(self, refusal, call, *arguments):
        """Makes a call, and sees that it raises this exception, or none."""
        name = getattr(call, "__name__", str(call))
        self.seen[name, refusal.__name__ if refusal else "done"] += 1
        try:
            result = call(*arguments)
        except (NoRoom, NotHeld, StillHeld, ValueError) as found:
            must(type(found) is refusal, f"{name}{arguments} raises {found!r}, and the model says {refusal}")
            return None
        must(refusal is None, f"{name}{arguments} returns {result!r}, and the model says {refusal}")
        return result

    def entry(self):
        return self.random.choice(self.entries) if self.entries else None

    def keep(self, block, home, region):
        home[1].put(region, region)
        self.entries.append(Entry(block, home, region))

    def take(self):
        home = machine, model = self.random.choice(self.homes)
        dim = self.random.randint(-1, self.random.randint(0, model.dim + 1))
        free = model.free(dim) if 0 <= dim <= model.dim else []
        refusal = ValueError if not model.is_open or not 0 <= dim <= model.dim else None if free else NoRoom
        block = self.expect(refusal, machine.take, dim)
        if block:
            allowed = free if model.kind is Regions else free[:1]
            must(block.base in allowed and block.dim == dim, f"{machine} gives {block}, and the model {allowed[:5]}")
            self.keep(block, home, (block.base, dim))

    def take_at(self):
        home = machine, model = self.random.choice(self.homes)
        dim = self.random.randint(-1, self.random.randint(0, model.dim + 1))
        base = self.random.randint(-1, len(model.owners)) >> max(dim, 0) << max(dim, 0)
        base += self.random.random() < 0.05
        is_region = model.is_open and model.has((base, dim))
        refusal = None if is_region and model.is_free((base, dim)) else NoRoom if is_region else ValueError
        block = self.expect(refusal, machine.take_at, base, dim)
        if block:
            must(block.region == (base, dim), f"{machine} gives {block}, and not {base}, {dim}")
            self.keep(block, home, (base, dim))

    def gone(self, home, region):
        """Notes that a region was given back, in the model and in the block that has it."""
        home[1].put(region, None)
        for entry in self.entries:
            if entry.home is home and entry.region == region:
                entry.region = None

    def release(self):
        entry = self.entry()
        if entry:
            home = entry.home if self.random.random() < 0.8 else self.random.choice(self.homes)
            refusal = None if entry.region and home is entry.home else NotHeld
            call, words = self.random.choice(((entry.block.release, ()), (home[0].release, (entry.block,))))
            if call == entry.block.release:
                refusal = None if entry.region else NotHeld
            self.expect(refusal, call, *words)
            if refusal is None:
                self.gone(entry.home, entry.region)

    def release_region(self):
        home = machine, model = self.random.choice(self.homes)
        region = self.random.randint(0, len(model.owners) - 1), self.random.randint(0, model.dim)
        if model.held() and self.random.random() < 0.7:
            region = self.random.choice(model.held())
        refusal = ValueError if not model.has(region) else None if model.owners[region[0]] == region else NotHeld
        self.expect(refusal, machine.release, Region(*region))
        if refusal is None:
            self.gone(home, region)

    def leave(self):
        """Leaves the `with` of a block, by an exception or without one."""
        entry = self.entry()
        if entry:
            try:
                with entry.block as block:
                    if self.random.random() < 0.5:
                        raise KeyError(block)
            except KeyError:
                pass
            if entry.region:
                self.gone(entry.home, entry.region)

    def split(self):
        entry = self.entry()
        if entry:
            region = entry.region
            upper = self.expect(NotHeld if not region else None if region[1] else ValueError, entry.block.split)
            if upper:
                base, dim = region
                entry.region = base, dim - 1
                entry.home[1].put(entry.region, entry.region)
                self.keep(upper, entry.home, (base + (1 << dim - 1), dim - 1))

    def join(self):
        lower, upper = self.entry(), self.entry()
        if lower and lower.region and self.random.random() < 0.7:
            base, dim = lower.region
            halves = [it for it in self.entries if it.home is lower.home and it.region == (base + (1 << dim), dim)]
            upper = halves[0] if halves else upper
        if lower:
            base, dim = lower.region or (0, 0)
            is_held = lower.region and upper.region and lower.home is upper.home
            are_halves = is_held and base % (2 << dim) == 0 and upper.region == (base + (1 << dim), dim)
            self.expect(None if are_halves else ValueError if is_held else NotHeld, lower.block.join, upper.block)
            if are_halves:
                lower.region, upper.region = (base, dim + 1), None
                lower.home[1].put(lower.region, lower.region)

    def forget(self):
        """Drops a block. What it holds stays held."""
        if self.entries:
            self.entries.pop(self.random.randrange(len(self.entries)))

    def close(self):
        machine, model = self.random.choice(self.homes)
        self.expect(StillHeld if model.held() else None, machine.close)
        model.is_open = model.is_open and bool(model.held())

    def renew(self):
        """Gives back all that a machine holds and closes it, or drops it, and opens another one."""
        at = self.random.randrange(len(self.homes))
        home = machine, model = self.homes[at]
        if self.random.random() < 0.5:
            for region in model.held():
                self.expect(None, machine.release, Region(*region))
                self.gone(home, region)
            self.expect(None, machine.close)
            for entry in self.entries:
                if entry.home is home:
                    self.expect(NotHeld, entry.block.release)
        self.entries = [it for it in self.entries if it.home is not home]
        self.homes[at] = self.opened(model.kind)

    def copy(self):
        """Replaces a machine of first fit by a copy. Its blocks are held, and no entry has them."""
        at = self.random.randrange(len(self.homes))
        home = machine, model = self.homes[at]
        if model.kind is FirstFit:
            make = self.random.choice((copy.copy, copy.deepcopy, lambda it: pickle.loads(pickle.dumps(it))))
            made = self.expect(None if model.is_open else ValueError, make, machine)
            if made:
                self.entries = [it for it in self.entries if it.home is not home]
                self.homes[at] = made, model

    def compare(self):
        machine, model = self.random.choice(self.homes)
        must(machine.held() == model.held(), f"{machine} holds {machine.held()}, and the model {model.held()}")
        occupancy = self.expect(None if model.is_open else ValueError, machine.occupancy)
        must(not occupancy or occupancy == model.occupancy(), f"{occupancy}, and the model {model.occupancy()}")
        said = f"held={model.occupancy()[0]}" if model.is_open else "closed"
        must(repr(machine) == f"{model.kind.__name__}(dim={model.dim}, {said})", repr(machine))
        for entry in self.entries:
            must(repr(entry.block) == ("Block(base={}, dim={})".format(*entry.region) if entry.region
                                       else "Block(given back)"), f"{entry.block}, and the model {entry.region}")
        if model.kind is FirstFit and model.is_open:
            self.compare_fit(machine, model)

    def compare_fit(self, machine, model):
        _, largest, counts = model.occupancy()
        must([machine.free_blocks(dim) for dim in range(model.dim + 1)] == counts, f"{counts}")
        wanted = None if largest is None else (model.free(largest)[0], largest)
        must(machine.largest() == wanted, f"{machine.largest()}, and the model {wanted}")
        dim = self.random.randint(0, model.dim)
        base = self.random.randrange(len(model.owners)) >> dim << dim
        must(machine.is_free(base, dim) == model.is_free((base, dim)), f"is_free({base}, {dim})")
        size = self.random.randint(0, model.dim)
        apart = [it for it in model.free(size) if it + (1 << size) <= base or it >= base + (1 << dim)]
        looks = (machine.first(size), model.free(size)), (machine.first_apart(size, Region(base, dim)), apart)
        for found, bases in looks:
            must(found == ((bases[0], size) if bases else None), f"{machine} finds {found}, and the model {bases[:1]}")
        must(machine.block_with(base) == model.owners[base], f"block_with({base}), and the model {model.owners[base]}")

    def run(self, calls):
        acts = (self.take,) * 6 + (self.take_at,) * 3 + (self.release,) * 6 + (self.split,) * 3 + (self.join,) * 3
        acts += (self.release_region, self.leave, self.forget)
        while sum(self.seen.values()) < calls:
            self.random.choice(acts)()
            if len(self.entries) > MOST_BLOCKS:
                self.forget()
            if self.random.random() < 0.05:
                self.compare()
            if self.random.random() < 0.02:
                self.random.choice((self.close, self.close, self.renew, self.copy))()
        for name, refusal in (("take", "NoRoom"), ("take_at", "NoRoom"), ("split", "ValueError"), ("join", "done"),
                              ("join", "NotHeld"), ("join", "ValueError"), ("release", "NotHeld"), ("take", "done"),
                              ("close", "StillHeld"), ("close", "done"), ("take", "ValueError"), ("split", "NotHeld")):
            must(self.seen[name, refusal] > calls // 5000, f"only {self.seen[name, refusal]} of {name}: {refusal}")


class Crew:
    """Threads that share machines, over tables of owners."""

    def __init__(self, seed, calls):
        self.homes = [(it, [None] * (1 << it.dim)) for it in (Regions(MOST_DIM), FirstFit(FIT_DIM))]
        # A first fit looks past this block, so it takes its time: more threads meet at the machine.
        self.first = self.homes[1][0].take(FIT_DIM - 1)
        self.queues, self.left = [queue.SimpleQueue() for _ in range(THREADS)], queue.SimpleQueue()
        self.seed, self.calls, self.wrong = seed, calls, []

    def run(self):
        threads = [threading.Thread(target=self.guarded, args=(number,)) for number in range(THREADS)]
        for thread in threads:
            thread.start()
        for thread in threads:
            thread.join()
        must(not self.wrong, "\n".join(self.wrong))
        rest = Member(self, 0)
        for it in (*self.queues, self.left):
            while not it.empty():
                rest.give_back(*it.get())
        self.first.release()
        for machine, owners in self.homes:
            must(not any(owners) and not machine.held() and machine.occupancy().held == 0, f"{machine} is not empty")
            machine.close()

    def guarded(self, number):
        try:
            Member(self, number).run()
        except BaseException:
            self.wrong.append(traceback.format_exc())


class Member:
    """A thread. What it has is a list of machines with their owners, regions, and blocks or None."""

    def __init__(self, crew, number):
        self.crew, self.number, self.has = crew, number, []
        self.random = random.Random(crew.seed * THREADS + number)

    def mark(self, home, region, was, now):
        """Changes the owner of the processors of a region, each of which must have had this one."""
        for at in Region(*region).processors:
            must(home[1][at] is was, f"the processor {at} of {home[0]} is owned twice")
            home[1][at] = now

    def refused(self, refusal, call, *arguments):
        try:
            result = call(*arguments)
        except refusal:
            return
        must(False, f"{call.__name__}{arguments} returns {result!r}")

    def give_back(self, home, region, block):
        """Gives a block back, itself or by its region, and then once more."""
        self.mark(home, region, home, None)
        it = block if block and self.random.random() < 0.8 else Region(*region)
        home[0].release(it)
        if block:
            self.refused(NotHeld, self.random.choice((block.release, block.split)))

    def take(self):
        home = self.random.choice(self.crew.homes)
        dim = min(self.random.randrange(MOST_DIM), self.random.randrange(MOST_DIM))
        try:
            if self.random.random() < 0.7:
                block = home[0].take(dim)
            else:
                last = 1 << home[0].dim
                base = self.random.randrange(last - (1 << MOST_DIM), last)
                block = home[0].take_at(base >> dim << dim, dim)
        except NoRoom:
            return
        self.mark(home, block.region, None, home)
        self.has.append((home, block.region, block))

    def take_and_leave(self):
        """Leaves a `with` by an exception, which must come out."""
        home = self.random.choice(self.crew.homes)
        try:
            with home[0].take(self.random.randrange(3)) as block:
                self.mark(home, block.region, None, home)
                self.mark(home, block.region, home, None)
                if self.random.random() < 0.5:
                    block.release()
                raise KeyError(self.number)
        except (KeyError, NoRoom):
            return

    def pop(self):
        return self.has.pop(self.random.randrange(len(self.has)))

    def release(self):
        if self.has:
            self.give_back(*self.pop())

    def send(self):
        if self.has:
            self.random.choice(self.crew.queues).put(self.pop())

    def receive(self):
        for it in (self.crew.queues[self.number], self.crew.left):
            try:
                self.has.append(it.get_nowait())
            except queue.Empty:
                pass

    def forget(self):
        """Drops a block. Any thread may give it back by its region."""
        if self.has:
            home, region, _ = self.pop()
            self.crew.left.put((home, region, None))

    def split(self):
        if self.has:
            home, region, block = self.pop()
            if block and region.dim:
                upper = block.split()
                self.has.append((home, upper.region, upper))
                region = block.region
            self.has.append((home, region, block))

    def join(self):
        """Joins a block and the next one that it has, if they are halves of a block of one machine."""
        if len(self.has) < 2:
            return
        pair = (home, region, lower), (other, second, upper) = self.pop(), self.pop()
        self.has += pair
        if not lower or not upper:
            return
        if home is not other:
            self.refused(NotHeld, lower.join, upper)
            self.refused(NotHeld, home[0].release, upper)
        elif second == (region.base + (1 << region.dim), region.dim) and not region.base % (2 << region.dim):
            lower.join(upper)
            del self.has[-2:]
            self.has.append((home, lower.region, lower))
        else:
            self.refused(ValueError, lower.join, upper)

    def close(self):
        """Tries to close a machine of which this thread has a block, and closes one of its own."""
        if self.has:
            self.refused(StillHeld, self.has[-1][0][0].close)
        with self.random.choice((Regions, FirstFit))(2) as machine:
            machine.take(1).release()
        self.refused(ValueError, machine.take, 0)
        repr(self.random.choice(self.crew.homes)[0])

    def run(self):
        acts = (self.take,) * 6 + (self.release,) * 3 + (self.split, self.join) * 3
        acts += (self.send, self.receive, self.forget, self.take_and_leave)
        for _ in range(self.crew.calls // THREADS):
            self.random.choice(acts)()
            if self.random.random() < 0.02:
                self.close()
        for it in self.has:
            self.give_back(*it)


def main(part, seed, calls):
    try:
        if part == "alone":
            Alone(int(seed)).run(int(calls))
        else:
            Crew(int(seed), int(calls)).run()
    except BaseException:
        print(f"{part}, with the seed {seed}:", file=sys.stderr)
        raise


if __name__ == "__main__":
    main(*sys.argv[1:])
