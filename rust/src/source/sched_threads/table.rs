// Made from crates/sched_threads/src/table.rt by checks/lib/erase.py. Change that file.

use crate::source::kit::prelude::{Vec};

use crate::source::sched_threads::clocked::ClockedDesk;
use crate::source::sched_threads::desk::Desk;
use crate::source::sched_threads::plays::{Arrive, Enter, Leave, ThreadRule};
use crate::source::sched_threads::receipt::{NotNow, TurnReceipt};
use crate::source::sched_threads::view::View;
use crate::source::kit::atomic_table::{Refused, Table};
use crate::source::sched_board::ThreadSizes;
use crate::source::kit::alloc::{AllocError, Global};

pub(crate) type Seat = crate::source::kit::atomic_table::Seat<ClockedDesk, View>;

/// The table that threads share.
pub(crate) struct TurnTable {
    pub table: Table<ClockedDesk, View, ThreadSizes, ThreadRule, Global>,
}

impl TurnTable {
    // Makes a table with a new desk.
    ///
    /// # Clauses of the proved source
    ///
    /// - requires fresh: `IsFresh sizes.now desk.board`
    /// - ensures sizes: `IfOk result (λ made. sizes_of made ≡ sizes.now)`
    pub fn new(alloc: Global, desk: Desk, sizes: &ThreadSizes) -> Result<TurnTable, AllocError> {
        let mut slots = Vec::new(alloc);
        slots.push(ClockedDesk { desk, clock: 0 })?;
        let made = Table::<ClockedDesk, View, ThreadSizes, ThreadRule, Global>::new(
            alloc,
            &[0],
            slots,
            sizes,
        );
        match made {
            Ok((table, _)) => Ok(TurnTable { table }),
            Err(Refused { slots: _ }) => Err(AllocError),
        }
    }

    // Makes a seat that has the turn, unless another seat has it.
    ///
    /// # Clauses of the proved source
    ///
    /// - ensures table: `IfOk result (λ seat. seat.table_id ≡ table_of self.now)`
    /// - ensures took: `IfOk result (λ seat. (x : Clocked) × IsOut seat.me x x)`
    /// - ensures same_table: `IfErr result (λ not_now. not_now.receipt.table_id ≡ table_of self.now)`
    /// - ensures barred: `IfErr result (λ not_now. IsBarred not_now.receipt.me)`
    pub fn arrive(&self) -> Result<Seat, NotNow> {
        let (found, mut seat) = self.table.shared.load_new_seat::<Arrive>(0);
        if found == 0
            && self
                .table
                .shared
                .compare_exchange::<Enter>(&mut seat, 0, 0, 1)
                == 0
        {
            return Ok(seat);
        }
        Err(NotNow {
            receipt: TurnReceipt::of(seat),
        })
    }

    // Ends the turn of a seat, which notes it.
    ///
    /// # Clauses of the proved source
    ///
    /// - requires table: `seat.table_id ≡ table_of self.now`
    /// - requires out: `(x : Clocked) × (y : Clocked) × IsOut seat.me x y × IsTurn x y`
    /// - ensures table: `result.table_id ≡ table_of self.now`
    /// - ensures noted: `(x y : Clocked) → IsOut seat.me x y → (at : ℕ) × (result.me ≡ (view (turn at x y ∷ []) None, []))`
    pub fn leave(&self, seat: Seat) -> TurnReceipt {
        let mut seat = seat;
        self.table.shared.store::<Leave>(&mut seat, 0, 0);
        TurnReceipt::of(seat)
    }

    // Ends the table. Returns the desk, unless a seat with the turn was dropped.
    ///
    /// # Clauses of the proved source
    ///
    /// - ensures: `IfSome result (IsEnd (sizes_of self))`
    pub fn end(self) -> Option<Desk> {
        let TurnTable { table } = self;
        let mut closed = table.close();
        let word = closed.word(0);
        let ClockedDesk { desk, clock: _ } = closed.take(0);
        closed.free();
        if word != 0 {
            return None;
        }
        Some(desk)
    }
}
