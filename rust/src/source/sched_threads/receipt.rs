// Made from crates/sched_threads/src/receipt.rt by checks/lib/erase.py. Change that file.
//! What a thread knows of its try to make a turn.

use crate::source::sched_threads::table::Seat;
use crate::source::sched_threads::view::View;
use crate::source::kit::atomic_table::Badge;

/// What a thread knows of its try to make a turn: the turn that it made, or that another thread had
/// the turn. It has no bytes.
pub struct TurnReceipt {
    seat: Seat,
}

impl TurnReceipt {
    // Makes a receipt of a seat that has no desk.
    pub(crate) fn of(seat: Seat) -> TurnReceipt {
        TurnReceipt { seat }
    }
}

/// Another thread had the turn. The call did nothing.
pub struct NotNow {
    /// What the thread knows of its try.
    pub receipt: TurnReceipt,
}

// Only this file has one. So no other file takes a hidden receipt apart.
#[repr(C)]
#[derive(Clone, Copy)]
struct Seal {}

/// A receipt, or none: then it has no view. It cannot be dropped. It has no bytes, so a struct that
/// C keeps may have it.
#[repr(C)]
#[must_use = "the proved source spends each value of this type by a call"]
pub struct HiddenReceipt {
    seal: Seal,
}

impl HiddenReceipt {
    /// Makes a place for a receipt, with none in it.
    #[inline(always)]
    ///
    /// # Clauses of the proved source
    ///
    /// - ensures: `result.views ≡ []`
    pub fn blank() -> HiddenReceipt {
        HiddenReceipt { seal: Seal {} }
    }

    // Puts another seat in its place, and returns the seat that was there. No bytes move.
    #[inline(always)]
    fn exchange(self, badge: Badge<View>) -> (HiddenReceipt, Badge<View>) {
        let HiddenReceipt { seal: _ } = self;
        (HiddenReceipt { seal: Seal {} }, badge)
    }

    // Takes a place apart in which there is no receipt.
    #[inline(always)]
    fn vanish(self) {
        let HiddenReceipt { seal: _ } = self;
    }

    /// Hides a receipt. No bytes move.
    #[inline(always)]
    ///
    /// # Clauses of the proved source
    ///
    /// - ensures: `seat_in result ≡ receipt`
    pub fn of(receipt: TurnReceipt) -> HiddenReceipt {
        let TurnReceipt { seat } = receipt;
        let (hidden, none) = HiddenReceipt::blank().exchange(seat.into_badge());
        drop(none);
        hidden
    }

    /// Lets a receipt go, or none.
    #[inline(always)]
    pub fn leave(self) {
        let (none, last) = self.exchange(Badge::blank());
        none.vanish();
        drop(last);
    }
}
