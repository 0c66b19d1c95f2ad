// Made from crates/sched_threads/src/plays.rt by checks/lib/erase.py. Change that file.

use crate::source::sched_threads::clocked::ClockedDesk;
use crate::source::sched_threads::view::View;
use crate::source::kit::atomic_table::{Play, TableRule};
use crate::source::sched_board::ThreadSizes;

pub(crate) struct ThreadRule;

impl TableRule<ClockedDesk, View, ThreadSizes> for ThreadRule {}

// The step that makes a seat.
pub(crate) struct Arrive;

impl Play<ClockedDesk, View> for Arrive {}

// The step by which a seat tries to get the turn.
pub(crate) struct Enter;

impl Play<ClockedDesk, View> for Enter {}

// The step by which a seat ends its turn.
pub(crate) struct Leave;

impl Play<ClockedDesk, View> for Leave {}
