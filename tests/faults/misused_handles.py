"""Functions in Rattle that misuse handles, each with the error by which the compiler must refuse it."""

# The errors by which a function is refused. FINE is one that the compiler takes.
FINE, DROPPED, TWICE, TYPES, FIELD = None, "linear-value-let-go", "borrow-e0382", "mismatched-types", "private-field"

# Functions: the name, the error, the signature and the body. Those of one list are compiled together, in this file.
LIB = "src/lib.rt"
OVER_TREES = """#![tactic(auto)]
use bitmap_tree::{BitmapTree, BlankSeat, BlockSeat, HeldBlock, HiddenSeat, Permit};
use cube_tree::{Cube, Solo, TreeStation, StillOut, Subcube};
"""
OF_TREES = ["bitmap_tree", "cube_tree"]
RELEASE, RETIRE = "subcube.release(cube).retire(cube);", "station.retire(cube);"
OF_SUBCUBE, OF_STATION = "(cube: &Cube, subcube: Subcube)", "(cube: &Cube, station: TreeStation)"
PASS_ON = "(out: StillOut, station: TreeStation) -> (Cube, TreeStation)"
OF_BLOCK = "(tree: &BitmapTree, held: HeldBlock)"
GOOD = [
    ("subcube_released", FINE, OF_SUBCUBE, RELEASE),
    ("solo_closed", FINE, "(solo: Solo)", "solo.close();"),
    ("cube_passed_on", FINE, PASS_ON, "let StillOut { cube, missing: _ } = out; (cube, station)"),
    ("block_released", FINE, OF_BLOCK, "tree.release(held);"),
    ("seat_without_a_bit_dropped", FINE, "(_seat: BlankSeat)", ""),
]
DROPS = [
    ("subcube_dropped", DROPPED, "(_subcube: Subcube)", ""),
    ("station_dropped", DROPPED, "(_station: TreeStation)", ""),
    ("station_of_a_release_dropped", DROPPED, OF_SUBCUBE, "let _station = subcube.release(cube);"),
    ("cube_dropped", DROPPED, "(_cube: Cube)", ""),
    ("cube_of_a_refused_close_dropped", DROPPED, "(_out: StillOut)", ""),
    ("solo_dropped", DROPPED, "(_solo: Solo)", ""),
    ("block_dropped", DROPPED, "(_held: HeldBlock)", ""),
    ("seat_of_a_block_dropped", DROPPED, "(held: HeldBlock)", "let (_region, _dim, _seat) = held.into_parts();"),
    ("seat_that_may_have_bits_dropped", DROPPED, "(_seat: BlockSeat)", ""),
    ("block_of_a_take_dropped", DROPPED, "(tree: &BitmapTree)", "let _taken = tree.take(0, 0);"),
    ("hidden_seat_dropped", DROPPED, "(_seat: HiddenSeat)", ""),
    ("permit_dropped", DROPPED, "(_permit: Permit)", ""),
]
APART = [
    ("hidden_seat_taken_apart", FIELD, "(seat: HiddenSeat)", "let HiddenSeat { seal: _ } = seat;"),
    ("block_taken_apart", FIELD, "(held: HeldBlock)", "let HeldBlock { region: _, dim: _, seat: _ } = held;"),
]
USES = [
    ("subcube_released_twice", TWICE, OF_SUBCUBE, f"{RELEASE} {RELEASE}"),
    ("station_retired_twice", TWICE, OF_STATION, f"{RETIRE} {RETIRE}"),
    ("solo_closed_twice", TWICE, "(solo: Solo)", "solo.close(); solo.close();"),
    ("block_released_twice", TWICE, OF_BLOCK, "tree.release(held); tree.release(held);"),
]

# Takes under a lock. The first has another signature than `try_take`, and compiles.
OVER_LOCK = """#![tactic(auto)]
use cube_tree::{Cube, Refusal, Subcube, TreeStation};
use std::sync::{Mutex, Wait};
"""
TRY_TAKE = "(cube: &Cube, door: &Mutex<u8>, station: TreeStation) -> Result<Subcube, (TreeStation, Refusal)>"
LENT, UNDER = "<R: Wait>(rt: &R, " + TRY_TAKE[1:], "let _held = door.lock({}); station.try_take(cube, 0)"
LOCKED = [
    ("takes_under_a_lock_by_a_runtime_that_it_is_lent", FINE, LENT, UNDER.format("rt")),
    ("takes_under_a_lock_with_no_runtime", "mismatched-argument-count", TRY_TAKE, UNDER.format("")),
    ("takes_under_a_lock_by_a_name", "unknown-name", TRY_TAKE, UNDER.format("&HostRuntime")),
    ("takes_under_a_lock_by_another_value", "unsatisfied-bound", TRY_TAKE, UNDER.format("&()")),
]

# Functions over the members of a shop: those that read them, and those that would put one together.
OVER_SHOP = """#![tactic(auto)]
use dispatcher::{CloseNote, Closer, Stop, Worker, WorkerEnd};
use floors::Floor;
use job_queue::JobLine;
use job_types::Reply;
"""
OF_SHOP = ["dispatcher", "floors", "job_queue", "job_types"]
SHOP, PARTS = "<L: JobLine, F: Floor>", "pass: L::Pass, station: F::Station"
MEMBERS = [(name, error, SHOP + signature, body) for name, error, signature, body in (
    ("reads_the_replies", FINE, "(end: &WorkerEnd<L, F>) -> usize", "end.replies().len()"),
    ("reads_the_stop", FINE, "(end: &WorkerEnd<L, F>) -> Stop", "end.stop()"),
    ("reads_the_number", FINE, "(note: &CloseNote<L, F>) -> u64", "note.number()"),
    ("makes_an_end", FIELD, f"({PARTS}, replies: Vec<Reply>) -> WorkerEnd<L, F>",
     "WorkerEnd { pass, station, replies, stop: Stop::Ended }"),
    ("puts_other_replies_into_it", FIELD, "(end: &mut WorkerEnd<L, F>, replies: Vec<Reply>)", "end.replies = replies;"),
    ("takes_its_station", FIELD, "(end: WorkerEnd<L, F>) -> F::Station", "end.station"),
    ("tells_another_stop", FIELD, "(end: &mut WorkerEnd<L, F>)", "end.stop = Stop::Ended;"),
    ("makes_a_worker", FIELD, f"({PARTS}) -> Worker<L, F>", "Worker { pass, station }"),
    ("takes_the_line_of_a_closer", FIELD, "(closer: Closer<L, F>) -> L::Closer", "closer.line"),
    ("takes_the_line_of_a_note", FIELD, "(note: CloseNote<L, F>) -> L::Note", "note.line"),
)]

# Wrong functions beside the line with no lock, in the file in which they stand. A wrong take stands where `take` does.
# A wrong put stands where the line's own witnesses are made, so that none is refused for their private fields.
TAKES, PUTS = "src/job_line.rt", "src/line.rt"
END, ENDED = " -> Taken<RuledEnd>", "Taken::Ended(RuledEnd(()))"
READING = "(line: &RuledLine, gate: &mut line_gate::GatePass, saw: line_ring::SawEmpty)" + END
SETTLE = "line.gate.settle_accepted(gate, RingTook({}));".format
PUT = "DidPut<Entered>"
PUSHED = f"{{}} -> Result<{PUT}, (QueuedJob, SawFull<Entered>)>"
PUSH = PUSHED.format("<R: Wait>(line: &RuledLine, rt: &R, ring: &mut RingLane<QueuedJob>, queued: QueuedJob)")
LATE_PUSH = PUSH.replace("queued: QueuedJob)", "queued: QueuedJob, late: line_gate::EnteredLate)")
PUSH_OF = "line.ring.push(rt, ring, queued, {})".format


def entry(named="entered: Entered"):
    return f"(line: &RuledLine, gate: &mut GateLane, {named})"


STEPS = [
    {
        TAKES: [
            ("ends_on_the_reading", TYPES, READING,
             "match line.read(gate, saw) { Some(sealed) => Taken::Ended(sealed), None => Taken::EmptyNow }"),
            ("ends_on_an_early_pop", TYPES, "(saw: line_ring::SawEmpty)" + END, "Taken::Ended(saw)"),
            ("ends_on_nothing", "unknown-name", "()" + END, ENDED),
            ("makes_an_end_of_its_own", "private-item", "(empty: line_ring::WasEmpty)" + END,
             "Taken::Ended(crate::line::RuledEnd(empty))"),
        ],
        PUTS: [
            ("settles_before_it_pushes", TYPES, entry(), SETTLE("entered")[:-1]),
            ("settles_each_64th_before_it_pushes", TYPES, entry() + " -> Option<Entered>",
             f"if entered.number() % 64 != 0 {{ return Some(entered); }} {SETTLE('entered')} None"),
            ("makes_a_put_of_its_own", FIELD, entry(), SETTLE("DidPut { entry: entered }")[:-1]),
            ("settles_a_full_one_as_accepted", TYPES, entry("saw: SawFull<Entered>"), SETTLE("saw")[:-1]),
            ("settles_as_full_with_no_push", TYPES, entry(), "line.gate.settle_full(gate, RingWasFull(entered))"),
            ("pushes_before_it_enters", FIELD, PUSH, PUSH_OF("Entered { number: 0 }")),
            ("pushes_with_no_entry", TYPES, PUSH, PUSH_OF("()")),
            ("pushes_a_late_entry", TYPES, LATE_PUSH, PUSH_OF("late")),
            ("takes_an_entry_back", TYPES, entry() + " -> u64", "line.gate.undo(gate, entered)"),
            ("ends_without_the_last_pop", TYPES, "(sealed: Sealed) -> RuledEnd",
             "let Sealed(()) = sealed; RuledEnd(())"),
            ("ends_by_an_empty_ring_of_its_own", "unknown-name", "(sealed: Sealed) -> RuledEnd",
             "let Sealed(()) = sealed; RuledEnd(line_ring::WasEmpty(()))"),
        ],
    },
    {
        TAKES: [
            ("lets_the_reading_go", DROPPED, READING, "let _sealed = line.read(gate, saw); Taken::EmptyNow"),
            ("lets_the_pop_go", DROPPED, "(_saw: line_ring::SawEmpty)" + END, "Taken::EmptyNow"),
        ],
        PUTS: [
            ("lets_the_entry_go", DROPPED, "(_entered: Entered)", ""),
            ("lets_the_late_entry_go", DROPPED, "(_late: line_gate::EnteredLate)", ""),
            ("lets_the_put_go", DROPPED, f"(_put: {PUT})", ""),
        ],
    },
    {PUTS: [("settles_twice", TWICE, entry(f"put: {PUT}"), f"{SETTLE('put')} {SETTLE('put')}")]},
]
