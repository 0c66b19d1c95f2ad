"""Slips in the source form (`rust/src/source`), each of which a check must see when it puts it into a copy."""
from typing import NamedTuple


class Slip(NamedTuple):
    """A slip: its name, a file below `rust/src/source` or of the tree, a text of it, and what is put there. Then a text
    of the error that it must cause, for those of `steps`."""

    name: str
    file: str
    old: str
    new: str
    seen: str = " stated"


# Those of `checks/run beside`: an answer must differ.
OF_ANSWERS = (
    Slip("the exchange says that it won", "kit/atomic_table.rs", "Ok(found) | Err(found) => found,",
         "Ok(_) | Err(_) => old,"),
    Slip("the swap returns the new word", "kit/atomic_table.rs", "(self.0[word].swap(new, SeqCst), ",
         "(self.0[word].swap(new, SeqCst).max(new), "),
    Slip("a slot stays taken", "kit/counted_slot.rs", "self.0.word.store(new, SeqCst);",
         "self.0.word.store(new | TAKEN, SeqCst);"),
    Slip("a queue returns its last job first", "kit/collections.rs", "self.0.pop_front()", "self.0.pop_back()"),
    Slip("a mask is one bit short", "bitmap_tree/mask.rs", "(64 - (1u32 << k))) << offset",
         "(64 - (1u32 << k))) << offset >> (k / 5)"),
    Slip("a search forgets where it begins", "bitmap_tree/marks.rs", "words & (u64::MAX << (from % 64))", "words"),
    Slip("a descent goes right too soon", "fit_tree/walks.rs", "if rooms[node] < least {", "if rooms[node] <= least {"),
    Slip("a full block is released", "fit_tree/image.rs", "let held = rooms[node] == 0;",
         "let held = rooms[node] <= 1;"),
    Slip("a lane takes a job more", "lanes/submits.rs", "count - taken < self.plan", "count - taken <= self.plan"),
    Slip("a worker that sleeps is not noticed", "wake_calls/steps.rs", "SEARCH {\n        return Noticed",
         "1 {\n        return Noticed"),
    Slip("an end that is late is not known", "sched_core/small.rs", "now.saturating_add(estimate)",
         "now.wrapping_add(estimate)"),
    Slip("a closed scheduler takes jobs", "sched_board/board.rs", "            return Err(BoardRefusal::Closed);\n",
         ""),
    Slip("the whole machine is refused", "cubejobs_fit/faults.rs", "fault == DONE && k > n", "fault == DONE && k >= n"),
)
# Those that the driver must see. It does not call what the others are in, or has one thread, which does not meet them.
SEEN_BY_THE_DRIVER = [it for it in OF_ANSWERS if it.name not in (
    "the swap returns the new word", "a slot stays taken", "an end that is late is not known",
    "a closed scheduler takes jobs")]

# Those of `checks/run steps`: a call must make too many accesses. The gate tries each second one: one of each
# structure, and the last.
OF_STEPS = (
    Slip("a release loads a word often", "bitmap_tree/releases.rs", "        self.release_region(&mut seat, region);\n",
         "        for _ in 0..200 { self.peek(0); }\n        self.release_region(&mut seat, region);\n"),
    Slip("a refused take loads a word often", "bitmap_tree/takes.rs", "        if !self.shut_spares(seat, k / 6) {\n",
         "        for _ in 0..1_000_000 { self.peek(0); }\n        if !self.shut_spares(seat, k / 6) {\n"),
    Slip("a submit loads its word once more", "lanes/submits.rs", "        let cell = self.cell(count);\n",
         "        let cell = self.cell(count);\n        self.table.shared.peek(0);\n        self.table.shared.peek(0);\n"),
    Slip("a wake looks twice", "wake_calls/steps.rs",
         "    let found = shared.load::<Notices<K, R>>(seat, word as usize);\n",
         "    shared.peek(0);\n    let found = shared.load::<Notices<K, R>>(seat, word as usize);\n"),
    Slip("a scan makes its rounds twice", "collectives/collective.rs", "    for round in 0..k {\n        scan_round(",
         "    for round in (0..k).chain(0..k) {\n        scan_round("),
    Slip("a release in the tree loads once more", "tree_steps/takes.rs", "        self.zero_held(seat, node);\n",
         "        self.table.shared.peek(0);\n        self.zero_held(seat, node);\n"),
    Slip("a worker that has lost a job says that it took it", "lanes/searching.rs",
         "compare_exchange::<Take>(&mut sleeper.seat, head, job.seq, job.seq + 1);\n        found == job.seq",
         "compare_exchange::<Take>(&mut sleeper.seat, head, job.seq, job.seq + 1);\n        found >= job.seq",
         "take_idle"),
)

# Those of `checks/run plan`: an answer of the scheduler must differ from that of the model.
OF_THE_PLANNER = (
    Slip("a job without an estimate is brief", "sched_core/small.rs", "return 0;", "return NEVER;"),
    Slip("the front of a queue stays", "sched_jobs/queues.rs", "first_after(queue.front, next, slot)",
         "queue.front"),
    Slip("each usable half is chosen", "sched_blocks/blocks.rs", "if !self.out.has_fit_at(k, upper) {", "if false {"),
    Slip("a free slot is not linked back", "sched_jobs/line_table.rs", "self.set_rank(next, slot as u64 + 1);", ""),
    Slip("all jobs come before", "sched_core/forecast.rs", "before + 1", "before + 2"),
)
