// Made from crates/cubejobs_regions/src/law.rt by checks/lib/erase.py. Change that file.
//! The law of the machine for two handles.

use crate::source::cubejobs_regions::block_handle::BlockHandle;
use crate::source::cubejobs_regions::codes::DONE;
use crate::source::cubejobs_regions::gives::{refusal, take_out};
use crate::source::cubejobs_regions::handle::Handle;
use crate::source::cubejobs_regions::machine::Machine;
use crate::source::cubejobs_regions::places::machine_at;

// States that two blocks of a machine that are held at one moment are apart, if there are two.
fn compare(machine: &Machine, a: &mut BlockHandle, b: &mut BlockHandle) -> bool {
    let number = machine.number();
    if refusal(number, a) != DONE {
        return false;
    }
    if refusal(number, b) != DONE {
        return false;
    }
    let first = take_out(machine, a);
    let second = take_out(machine, b);
    let (first, second) = machine.tree().apart(first, second);
    a.put(first, number);
    b.put(second, number);
    true
}

/// Returns whether two handles hold blocks of the machine. These are apart, at whatever moment the
/// call comes. The call changes nothing. This is a law for any two handles, and no function for C.
///
/// # Clauses of the proved source
///
/// - requires first: `AreNumbered (machine_of thread.old) a.old`
/// - requires second: `AreNumbered (machine_of thread.old) b.old`
/// - ensures both: `refusal_of_call (machine_of thread.old) (hold_of a.old) ≡ DONE → refusal_of_call (machine_of thread.old) (hold_of b.old) ≡ DONE → result ≡ true`
/// - ensures apart: `IsTrue result → HoldApart a.old b.old a.new b.new`
/// - ensures machine: `machine_of thread.new ≡ machine_of thread.old`
/// - ensures unchanged: `result ≡ false → (a.new ≡ a.old) × (b.new ≡ b.old)`
pub fn apart(thread: &mut Handle, a: &mut BlockHandle, b: &mut BlockHandle) -> bool {
    if !thread.is_open() {
        return false;
    }
    compare(machine_at(thread.ptr.get_mut()), a, b)
}
