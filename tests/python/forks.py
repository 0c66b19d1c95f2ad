"""What the Python module promises of processes, in small programs: `python3 forks.py NAME` runs one."""
import copy
import multiprocessing
import os
import pickle
import signal
import sys
import threading

from checks.lib.rows import must
from cubejobs import FirstFit, NoRoom, OtherProcess, Planner, Region, Regions
from tests.python.behaviour import raises

SECONDS = 60
# The machines that a forked child finds.
FOUND = {}


def in_a_child(act):
    """Runs something in a forked child, which must end well in time."""
    child = os.fork()
    if not child:
        signal.alarm(SECONDS)
        try:
            act()
            os._exit(0)
        except BaseException as wrong:
            print(repr(wrong), file=sys.stderr, flush=True)
        finally:
            os._exit(1)
    _, status = os.waitpid(child, 0)
    must(status == 0, f"a child ends with {status}")


def leave(it):
    with it:
        pass


def calls_on(machine, block):
    """Yields each call on a machine and a block, with its arguments."""
    yield from ((machine.take, (0,)), (machine.take_at, (4, 0)), (machine.release, (block,)), (machine.held, ()),
                (machine.release, (Region(0, 1),)), (machine.occupancy, ()), (machine.close, ()), (leave, (machine,)))
    yield from ((block.release, ()), (block.split, ()), (block.join, (block,)), (leave, (block,)))
    yield from ((machine.split, (block,)), (machine.join, (block, block)))
    yield from ((getattr, (block, name)) for name in ("region", "base", "dim", "processors"))
    if isinstance(machine, FirstFit):
        yield from ((machine.largest, ()), (machine.is_free, (0, 0)), (machine.free_blocks, (0,)))
        yield from ((machine.first, (0,)), (machine.first_apart, (0, Region(0, 1))), (machine.block_with, (0,)))
        yield from ((machine.image, ()), (copy.copy, (machine,)), (pickle.dumps, (machine,)))


def a_new_machine_works():
    for make in (Regions, FirstFit):
        with make(2) as machine:
            found = sorted(machine.take(0).base for _ in range(4))
            must(found == [0, 1, 2, 3], f"{make.__name__} gives out {found}")
            raises(NoRoom, machine.take, 0)
            for region in machine.held():
                machine.release(region)


def all_is_shut(pairs):
    for machine, block in pairs:
        for call, arguments in calls_on(machine, block):
            raises(OtherProcess, call, *arguments)
        for it in (machine, block):
            must("of another process" in repr(it), repr(it))
    a_new_machine_works()


def _opened():
    machines = Regions(3), FirstFit(3)
    return [(machine, machine.take(1)) for machine in machines]


def a_child_finds_all_shut():
    pairs = _opened()

    def act():
        all_is_shut(pairs)
        more = _opened()
        in_a_child(lambda: all_is_shut(pairs + more))
        for machine, block in more:
            machine.release(block)
            machine.close()
        # A dropped machine of the parent is left alone.
        pairs.clear()

    in_a_child(act)
    for machine, block in pairs:
        must((block.region, machine.held()) == (Region(0, 1), [(0, 1)]), f"the parent has {machine}, {block}")
        block.release()
        machine.close()


def a_child_finds_planners_shut():
    planner = Planner(2)
    ticket = planner.submit("kept", processors=1)

    def act():
        calls = ((planner.next, (0,)), (planner.cancel, (ticket,)), (planner.finish, (ticket,)),
                 (planner.forecast, (ticket,)),
                 (lambda: planner.submit(processors=1), ()), (planner.occupy, (0, 0)), (planner.vacate, (0, 0)),
                 (planner.counts, ()), (lambda: next(planner.jobs()), ()), (planner.close, ()), (leave, (planner,)))
        for call, arguments in calls:
            raises(OtherProcess, call, *arguments)
        must(repr(planner) == "Planner(dim=2, of another process)", repr(planner))
        must(Planner(1).submit(processors=1) > 0, "a planner of its own")

    in_a_child(act)
    must(planner.next(0).payload == "kept" and planner.finish(ticket) == "kept", "the parent has lost its job")


def the_exception_of_a_body_comes_out():
    for it in (*_opened()[0], *_opened()[1]):

        def act(it=it):
            with it:
                raise KeyError(repr(it))

        in_a_child(lambda: raises(KeyError, act))


def children_come_while_threads_call():
    pairs, has_ended = _opened(), threading.Event()

    def work(machine):
        while not has_ended.is_set():
            with machine.take(0), Regions(0), FirstFit(0):
                repr(machine)

    workers = [threading.Thread(target=work, args=(machine,)) for machine, _ in pairs * 2]
    for worker in workers:
        worker.start()
    try:
        for _ in range(60):
            in_a_child(lambda: all_is_shut(pairs))
    finally:
        has_ended.set()
        for worker in workers:
            worker.join()
    for machine, block in pairs:
        machine.release(block)
        machine.close()


def locks_of_a_thread_that_is_gone_stop_nothing():
    pairs, is_held, may_go = _opened(), threading.Event(), threading.Event()

    def hold():
        with pairs[0][0]._lock, pairs[1][0]._lock:
            is_held.set()
            may_go.wait()

    thread = threading.Thread(target=hold)
    thread.start()
    is_held.wait()
    try:
        in_a_child(lambda: all_is_shut(pairs))
    finally:
        may_go.set()
        thread.join()


def take_here(number):
    """Takes blocks in a worker: of its own machine, and of those that a fork gave it."""
    a_new_machine_works()
    if FOUND:
        all_is_shut(FOUND.values())
    return number, os.getpid()


def give_back_all(machine):
    """Releases all blocks of a copy. Returns them."""
    found = machine.held()
    for region in found:
        machine.release(region)
    must(machine.take(machine.dim).region == (0, machine.dim), f"{machine} is not whole")
    return found


def processors_of(region):
    return list(region.processors)


def workers_have_machines_of_their_own(method):
    """Has workers of a start method open machines. What a fork gave them is shut, and nothing else is sent."""
    FOUND.update(enumerate(_opened()))
    with multiprocessing.get_context(method).Pool(4) as pool:
        done = pool.map(take_here, range(16), chunksize=1)
        must([number for number, _ in done] == [*range(16)], f"{done}")
        for machine, block in FOUND.values():
            must(pool.apply(processors_of, (block.region,)) == [0, 1], "a region is sent as another one")
            raises(TypeError, pool.apply, repr, (block,))
            if isinstance(machine, FirstFit):
                must(pool.apply(give_back_all, (machine,)) == [(0, 1)], "a machine is sent as another one")
            else:
                raises(TypeError, pool.apply, repr, (machine,))
            must(machine.held() == [(0, 1)], f"a worker has changed {machine}")
    for machine, block in FOUND.values():
        block.release()
        machine.close()


if __name__ == "__main__":
    globals()[sys.argv[1]](*sys.argv[2:])
