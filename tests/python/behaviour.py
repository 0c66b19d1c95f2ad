"""What the Python module promises of blocks and machines, in small programs: `python3 behaviour.py NAME` runs one."""
import copy
import gc
import pickle
import random
import signal
import sys
import threading

from checks.lib.rows import must
from cubejobs import FirstFit, NoRoom, NotHeld, Region, Regions, StillHeld

MACHINES = (Regions, FirstFit)
KEPT = 50 * 2**20


def raises(kind, call, *arguments):
    """Sees that a call raises an exception of this kind."""
    try:
        result = call(*arguments)
    except kind:
        return
    must(False, f"{call} returns {result!r}, and does not raise {kind.__name__}")


def a_block_reads_as_its_region():
    for make in MACHINES:
        block = make(4).take(2)
        for it in (block, block.region):
            found = it.base, it.dim, it.processors, it.region
            must(found == (0, 2, range(4), Region(0, 2)), f"{make.__name__}: {found}")


def both_machines_take_the_same_code():
    for make in MACHINES:
        with make(4) as machine:
            with machine.take(3) as block:
                must(machine.occupancy() == (8, 3, [8, 4, 2, 1, 0]), f"{make.__name__}: {machine.occupancy()}")
                other = machine.take_at(12, 2)
                must(machine.held() == [block.region, (12, 2)], f"{make.__name__}: {machine.held()}")
                raises(NoRoom, machine.take, 3)
                raises(NoRoom, machine.take_at, 8, 3)
            machine.release(other)
            must(machine.occupancy() == (0, 4, [16, 8, 4, 2, 1]), f"{make.__name__}: {machine.occupancy()}")


def both_machines_split_and_join():
    for make in MACHINES:
        machine, foreign = make(3), make(3)
        lower = machine.take(3)
        upper = lower.split()
        must((lower.region, upper.region) == ((0, 2), (4, 2)), f"{make.__name__}: {lower}, {upper}")
        raises(ValueError, upper.join, lower)
        raises(ValueError, lower.join, lower)
        raises(NotHeld, lower.join, foreign.take(2))
        lower.join(upper)
        must(lower.region == (0, 3), f"{make.__name__}: {lower}")
        for call in (upper.release, upper.split):
            raises(NotHeld, call)
        raises(NotHeld, lower.join, upper)
        lower.release()
        raises(ValueError, machine.take(0).split)


def a_region_gives_a_block_back():
    for make in MACHINES:
        machine = make(4)
        block = machine.take_at(8, 2)
        for wrong in (Region(8, 1), Region(8, 3), Region(0, 0)):
            raises(NotHeld, machine.release, wrong)
        for wrong in (Region(8, 5), Region(9, 1), Region(16, 0)):
            raises(ValueError, machine.release, wrong)
        machine.release(Region(8, 2))
        raises(NotHeld, block.release)
        raises(NotHeld, machine.release, Region(8, 2))


def a_forgotten_block_is_listed():
    for make in MACHINES:
        machine = make(3)
        machine.take(2)
        raises(StillHeld, machine.close)
        for region in machine.held():
            machine.release(region)
        machine.close()


def a_block_is_of_its_machine():
    for make in MACHINES:
        one, other = make(3), make(3)
        block, twin = one.take(1), other.take(1)
        raises(NotHeld, other.release, block)
        must(block.region == twin.region == (0, 1), f"{make.__name__}: {block}, {twin}")
        block.release()
        block = one.take(1)
        raises(NotHeld, other.release, block)


def a_second_release_takes_nothing_from_others():
    for make in MACHINES:
        machine = make(2)
        first = machine.take(1)
        first.release()
        second = machine.take_at(0, 1)
        raises(NotHeld, first.release)
        must(second.region == (0, 1) and machine.held() == [(0, 1)], f"{make.__name__}: {machine.held()}")


def the_exit_of_a_released_block_does_nothing():
    for make in MACHINES:
        machine = make(2)
        with machine.take(1) as block:
            block.release()
            other = machine.take_at(0, 1)
        must(other.region == (0, 1), f"{make.__name__}: {other}")
        lower = machine.take_at(2, 1)
        with lower.split() as upper:
            lower.join(upper)
        must(lower.region == (2, 1), f"{make.__name__}: {lower}")
        with machine.take(0) if machine.occupancy().free[0] else other as block:
            machine.release(block)
            lower.release()
            machine.close()


def the_exception_of_a_body_comes_out():
    for make in MACHINES:
        machine = make(2)

        def released():
            with machine.take(1) as block:
                block.release()
                raise KeyError(make.__name__)

        def still_held():
            with machine:
                machine.take(0)
                raise KeyError(make.__name__)

        raises(KeyError, released)
        raises(KeyError, still_held)
        must(machine.held() == [(0, 0)], f"{make.__name__}: {machine}")


def the_exit_of_a_machine_closes_it():
    for make in MACHINES:
        with make(2) as machine:
            machine.take(1).release()
        for call, arguments in ((machine.take, (0,)), (machine.take_at, (0, 0)), (machine.occupancy, ())):
            raises(ValueError, call, *arguments)
        machine.close()

        def still_held():
            with make(2) as machine:
                machine.take(0)

        raises(StillHeld, still_held)


def machines_show_what_they_hold():
    for make in MACHINES:
        name, machine = make.__name__, make(4)
        block = machine.take(2)
        machine.take(0)
        must((repr(machine), repr(block)) == (f"{name}(dim=4, held=5)", "Block(base=0, dim=2)"), f"{machine}, {block}")
        for region in machine.held():
            machine.release(region)
        machine.close()
        must((repr(machine), repr(block)) == (f"{name}(dim=4, closed)", "Block(given back)"), f"{machine}, {block}")


def what_has_handles_is_not_copied():
    for make in MACHINES:
        machine = make(2)
        block = machine.take(1)
        for it in (machine, block) if make is Regions else (block,):
            for call in (copy.copy, copy.deepcopy, pickle.dumps):
                raises(TypeError, call, it)
        must(pickle.loads(pickle.dumps(block.region)) == Region(0, 1), "a region is sent as another one")


def sent(machine):
    return pickle.loads(pickle.dumps(machine))


def a_copy_of_first_fit_is_another_machine():
    for make in (copy.copy, copy.deepcopy, sent, lambda it: FirstFit.from_image(it.dim, it.image())):
        for dim in range(5):
            machine = FirstFit(dim)
            blocks = [machine.take(it) for it in range(dim)]
            other = make(machine)
            must(other.held() == machine.held() == [it.region for it in blocks], f"{other} holds {other.held()}")
            must(other.occupancy() == machine.occupancy(), f"{other.occupancy()}, and not {machine.occupancy()}")
            first = machine.take(0)
            must(other.take(0).region == first.region, f"{other} does not give {first}")
            for block in blocks:
                raises(NotHeld, other.release, block)
                other.release(block.region)
            other.release(first.region)
            must(other.take(dim).region == (0, dim), f"{other} is not whole")
            must(len(machine.held()) == len(blocks) + 1, f"{machine} has {machine.held()}")


def a_closed_machine_is_not_copied():
    machine = FirstFit(3)
    machine.close()
    for call in (copy.copy, copy.deepcopy, pickle.dumps, FirstFit.image):
        raises(ValueError, call, machine)


def damaged_images_and_pickles_are_refused():
    machine = FirstFit(3)
    machine.take(0)
    machine.take(1)
    image, pickled = machine.image(), pickle.dumps(machine)
    must(len(image) == 112 and pickled.count(image) == 1, f"{len(image)} bytes")
    begin = pickled.index(image)
    for at in range(len(image)):
        for value in {0, 1, 255, image[at] ^ 1, (image[at] + 1) % 256} - {image[at]}:
            changed = bytes([*image[:at], value, *image[at + 1 :]])
            raises(ValueError, FirstFit.from_image, 3, changed)
            raises(ValueError, pickle.loads, pickled[:begin] + changed + pickled[begin + len(image) :])
    for dim, bad in ((2, image), (4, image), (-1, image), (21, image), (3, image[:-1]), (3, image + b"\0"), (3, b"")):
        raises(ValueError, FirstFit.from_image, dim, bad)
    must(FirstFit.from_image(3, image).held() == machine.held(), "the image itself is refused")


def first_fit_looks_and_takes_nothing():
    machine = FirstFit(4)
    four, one = machine.take(2), machine.take(0)
    must((machine.first(0), machine.first(2), machine.first(4)) == ((5, 0), (8, 2), None), f"{machine.first(2)}")
    for avoid in (Region(8, 3), Region(0, 4), four):
        wanted = {(8, 3): (6, 1), (0, 4): None, (0, 2): (6, 1)}[avoid.region]
        must(machine.first_apart(1, avoid) == wanted, f"{machine.first_apart(1, avoid)} apart from {avoid}")
    found = [machine.block_with(it) for it in range(6)]
    must(found == [four.region] * 4 + [one.region, None], f"{found}")
    must(machine.largest() == (8, 3) and machine.is_free(8, 3) and not machine.is_free(4, 1), f"{machine.largest()}")
    for call, bad in ((machine.first, (5,)), (machine.first, (-1,)), (machine.first_apart, (5, four)),
                      (machine.first_apart, (0, Region(1, 1))), (machine.first_apart, (0, Region(0, 5))),
                      (machine.block_with, (16,)), (machine.block_with, (-1,)), (machine.free_blocks, (5,))):
        raises(ValueError, call, *bad)
    must(machine.held() == [four.region, one.region], f"{machine.held()}")


def regions_are_split_and_joined():
    for make in MACHINES:
        machine = make(3)
        block = machine.take_at(0, 2)
        upper = machine.split(block.region)
        must((block.region, upper.region) == ((0, 1), (2, 1)), f"{make.__name__}: {block}, {upper}")
        raises(NotHeld, machine.split, Region(0, 2))
        raises(ValueError, machine.split, Region(1, 1))
        raises(ValueError, machine.join, upper.region, block.region)
        machine.join(Region(0, 1), upper)
        raises(NotHeld, machine.join, block, upper)
        must(machine.held() == [(0, 2)] and block.region == (0, 2), f"{make.__name__}: {machine.held()}")
        block.release()
        must(machine.take(3).region == (0, 3), f"{make.__name__} is not whole")


def a_block_keeps_its_machine():
    for make in MACHINES:
        block = make(3).take(1)
        gc.collect()
        upper = block.split()
        must((block.region, upper.region) == ((0, 0), (1, 0)), f"{make.__name__}: {block}, {upper}")
        upper.release()
        block.release()


def threads_take_turns():
    """Has threads take from machines of which half is held, so that each take lasts long: no two get one processor."""
    for make in MACHINES:
        machine, found = make(16), []
        machine.take_at(0, 15)

        def work():
            found.extend(machine.take(0).base for _ in range(2000))

        threads = [threading.Thread(target=work) for _ in range(8)]
        for thread in threads:
            thread.start()
        for thread in threads:
            thread.join()
        must(len({*found}) == 16_000, f"{make.__name__}: {len({*found})} of {len(found)}")
        must(len(machine.held()) == 16_001, f"{make.__name__} lists {len(machine.held())} blocks")


def ctrl_c_loses_no_block():
    """Interrupts takes at random moments. The machine lists each block that it holds then."""
    machine, turns, is_on, interrupts = Regions(10), random.Random(7), False, 0

    def interrupt(*_):
        if is_on:
            raise KeyboardInterrupt

    signal.signal(signal.SIGALRM, interrupt)
    for _ in range(2000):
        try:
            is_on = True
            signal.setitimer(signal.ITIMER_REAL, turns.uniform(1e-6, 1e-4))
            while True:
                machine.take(0)
        except KeyboardInterrupt:
            interrupts += 1
        except NoRoom:
            pass
        is_on = False
        must(machine.occupancy().held == len(machine.held()), f"{machine} holds {machine.occupancy().held} processors")
        for region in machine.held():
            machine.release(region)
    must(interrupts > 100, f"only {interrupts} interrupts")


def _resident():
    with open("/proc/self/statm", encoding="ascii") as it:
        return int(it.read().split()[1]) * 4096


def dropped_machines_keep_no_memory():
    before = _resident()
    for _ in range(1000):
        Regions(20)
        # Blocks that are forgotten, joined and split too.
        machine = Regions(20)
        machine.take(0)
        lower = machine.take(7)
        lower.split()
        machine.take(3).split().split()
    del machine, lower
    kept = _resident() - before
    must(kept < KEPT, f"2,000 machines keep {kept:,} bytes")


if __name__ == "__main__":
    globals()[sys.argv[1]]()
