"""Random programs over planners beside the plain model of their rules, and small programs on what the module promises
of them: `python3 plans.py SEED CALLS`, and `python3 plans.py NAME`."""
import copy
import gc
import pickle
import random
import sys
import threading
import weakref

from checks.lib.rows import must
from cubejobs import Counts, Job, NoJob, Planner, PlannerFull, Region, State, WrongState
from tests.models.plan_model import DONE, FULL, NEVER, NO_JOB, RESERVED, WAITS, Model
from tests.python.behaviour import raises


class Payload:
    """A payload. The planner must give back this very one."""


class Player:
    """Makes random calls of a planner and of the model, and compares the answers."""

    def __init__(self, seed):
        self.random, self.now, self.tickets, self.payloads = random.Random(seed), 0, [], []
        one = self.random
        dim, jobs, patience = one.randrange(7), one.choice((1, 3, 10, 1000)), one.choice((0, 1, 4, 16))
        self.planner, self.model = Planner(dim, jobs=jobs, patience=patience), Model(dim, jobs, patience)

    def wanted(self, told):
        """Returns the answer of the model as the planner gives it."""
        state, base, dim, time, before, size, job_class, _, arrival = told
        region = None if state == WAITS else Region(base, dim)
        return Job(self.tickets[arrival], self.payloads[arrival], State(state), size, job_class, region,
                   None if time == NEVER else time, before, arrival)

    def agree(self, call, got, wanted):
        must(got == wanted, f"{call}: {got}, and the model says {wanted}")

    def submit(self):
        one, size, payload = self.random, 2**self.model.dim, Payload()
        processors = one.randint(1, size) if one.random() < 0.4 else min(size, one.choice((1, 1, 2, 3, 4)))
        estimate, job_class = one.choice((None, one.randint(1, 20), one.randint(1, 200), NEVER)), one.randrange(8)
        code, job = self.model.submit(0, estimate or 0, processors, job_class)
        words = {"processors": processors, "estimate": estimate, "job_class": job_class}
        if code == FULL:
            raises(PlannerFull, lambda: self.planner.submit(payload, **words))
            return
        ticket = self.planner.submit(payload, **words)
        must(ticket not in self.tickets and job.arrival == len(self.tickets), f"{ticket} is no new ticket")
        self.tickets.append(ticket)
        self.payloads.append(payload)

    def some_arrival(self, is_waiting):
        """Returns the number of a job, most often of one that is there."""
        there = [it.arrival for it in self.model.jobs.values() if (it.base is None) == is_waiting]
        anything = range(len(self.tickets)) if self.tickets else [None]
        return self.random.choice(there if there and self.random.random() < 0.9 else anything)

    def end(self, call, other, is_waiting):
        arrival = self.some_arrival(is_waiting)
        if arrival is None:
            return
        code, ticket = other(arrival)[0], self.tickets[arrival]
        if code == DONE:
            self.agree("an end", call(ticket), self.payloads[arrival])
            self.payloads[arrival] = None
        else:
            raises(NoJob if code == NO_JOB else WrongState, call, ticket)

    def finish(self):
        self.end(self.planner.finish, self.model.finish, False)

    def cancel(self):
        self.end(self.planner.cancel, self.model.cancel, True)

    def starts(self):
        self.now += self.random.choice((0, 1, 3, 10))
        for job in self.planner.starts(self.now):
            self.agree("a start", job, self.wanted(self.model.next(self.now)[1]))
            self.agree("processors", job.processors, range(job.region.base, job.region.base + job.size))
        self.agree("no start", self.model.next(self.now)[0], NO_JOB)
        if self.now:
            raises(ValueError, self.planner.next, self.now - 1)

    def use_block(self):
        dim = self.random.randint(0, self.model.dim)
        base = self.random.randrange(0, 2**self.model.dim, 2**dim)
        if self.model.out and self.random.random() < 0.5:
            base, dim = self.random.choice([*self.model.out.items()])
        is_out = self.random.random() < 0.5
        call, other = (self.planner.occupy, self.model.occupy) if is_out else (self.planner.vacate, self.model.vacate)
        if other(base, dim) == DONE:
            call(base, dim)
        else:
            raises(WrongState, call, base, dim)

    def look(self):
        arrival = self.some_arrival(self.random.random() < 0.7)
        if arrival is not None:
            code, told = self.model.forecast(arrival)
            if code == DONE:
                self.agree("a forecast", self.planner.forecast(self.tickets[arrival]), self.wanted(told))
            else:
                raises(NoJob, self.planner.forecast, self.tickets[arrival])
        self.agree("counts", self.planner.counts(), Counts(*self.model.counts()))
        all_jobs = [self.wanted(self.model.forecast(it)[1]) for it in self.model.jobs]
        self.agree("all jobs", sorted(self.planner.jobs(), key=lambda it: it.arrival), all_jobs)
        self.agree("their number", len(self.planner), len(all_jobs))

    def run(self, calls):
        acts = (self.submit,) * 5 + (self.finish,) * 3 + (self.starts,) * 3 + (self.cancel, self.use_block, self.look)
        for _ in range(calls):
            self.random.choice(acts)()
        self.planner.close()


def numbers_out_of_range_are_refused():
    planner = Planner(3, jobs=2)
    for words in ({"processors": 0}, {"processors": 9}, {"processors": 1, "estimate": 0},
                  {"processors": 1, "job_class": 8},
                  {"processors": 1, "estimate": 2**64}):
        raises(ValueError, lambda words=words: planner.submit(**words))
    raises(TypeError, lambda: planner.submit(processors=1.5))
    raises(TypeError, planner.next, 0.5)
    for call, words in ((planner.next, (NEVER,)), (planner.next, (-1,)), (planner.occupy, (1, 1)),
                        (planner.occupy, (8, 0)),
                        (planner.vacate, (0, 4)), (Planner, (21,)), (lambda: Planner(3, jobs=0), ()),
                        (lambda: Planner(3, jobs=2**24 + 1), ()), (lambda: Planner(3, patience=-1), ())):
        raises(ValueError, call, *words)
    must(len(planner) == 0, "a refused call changed something")


def foreign_tickets_are_refused():
    planner = Planner(3, jobs=2)
    for ticket in (0, 1, 2**24, NEVER):
        for call in (planner.cancel, planner.finish, planner.forecast):
            raises(NoJob, call, ticket)
    raises(ValueError, planner.cancel, -1)


def a_closed_planner_is_shut():
    with Planner(3) as planner:
        ticket = planner.submit(processors=1)
    for call in (lambda: planner.submit(processors=1), lambda: planner.next(0), lambda: planner.cancel(ticket),
                 planner.counts,
                 lambda: next(planner.jobs())):
        raises(ValueError, call)
    planner.close()
    must(repr(planner) == "Planner(dim=3, closed)", repr(planner))


def the_exception_of_a_body_comes_out():
    try:
        with Planner(1) as planner:
            planner.submit(processors=2)
            raise KeyError(7)
    except KeyError:
        return
    must(False, "it is lost")


def a_planner_is_not_copied():
    planner = Planner(1)
    for call in (copy.copy, copy.deepcopy, pickle.dumps):
        raises(TypeError, call, planner)


def payloads_are_kept_and_let_go():
    planner, kept = Planner(2, jobs=3), [Payload() for _ in range(3)]
    tickets = [planner.submit(it, processors=4) for it in kept]
    seen = [weakref.ref(it) for it in kept]
    del kept
    gc.collect()
    must(all(it() for it in seen), "a payload is gone")
    planner.next(0)
    planner.finish(tickets[0])
    planner.cancel(tickets[1])
    must(not seen[0]() and not seen[1]() and seen[2](), "a payload stays, or is gone")
    planner.close()
    must(not seen[2](), "a closed planner keeps a payload")


def a_reserved_job_has_a_promise():
    planner = Planner(2)
    first = planner.submit("first", processors=2, estimate=8)
    wide = planner.submit("wide", processors=4, estimate=1)
    must([it.payload for it in planner.starts(3)] == ["first"], "another start")
    job = planner.forecast(wide)
    must((job.state, job.region, job.time, job.processors) == (State.RESERVED, Region(0, 2), 11, range(0)), str(job))
    must(State.RESERVED.value == RESERVED and planner.finish(first) == "first", "an end")
    must([it.payload for it in planner.starts(4)] == ["wide"], "it does not start")


def threads_take_turns():
    """Each thread submits, starts and ends jobs. In the end all are over, and no two had one processor."""
    planner, turn, used, failed = Planner(4, jobs=64), threading.Lock(), set(), []

    def work():
        try:
            for _ in range(300):
                planner.submit(processors=3)
                with turn:
                    job = planner.next(0)
                    must(not job or not used.intersection(job.processors), "two jobs have one processor")
                    used.update(job.processors if job else ())
                if job:
                    with turn:
                        used.difference_update(job.processors)
                        planner.finish(job.ticket)
        except BaseException as wrong:
            failed.append(wrong)

    threads = [threading.Thread(target=work) for _ in range(4)]
    for it in threads:
        it.start()
    for it in threads:
        it.join()
    must(not failed and len(used) == 0, str(failed))


def main(words):
    if words[0].isdigit():
        seed, calls = map(int, words)
        for part in range(calls // 500):
            try:
                Player(f"{seed} {part}").run(500)
            except BaseException:
                print(f"plans, with the seed {seed} {part}:", file=sys.stderr)
                raise
    else:
        globals()[words[0]]()


if __name__ == "__main__":
    main(sys.argv[1:])
