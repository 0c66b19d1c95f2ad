// Made from crates/bitmap_tree/src/steps.rt by checks/lib/erase.py. Change that file.
//! The words of a machine, the seats at them, and the single steps. No other module reaches the
//! words, or lets go of a seat.
//!
//! A seat that may have bits cannot be dropped, so no block is forgotten.

use crate::source::kit::prelude::{Vec};

use crate::source::bitmap_tree::handles::BitmapTree;
use crate::source::bitmap_tree::rule::{
    Begin, BitmapRule, Claim, ClearRun, Compare, CutFirst, CutHalf, Deal, Enter, Glue, Load, Merge,
    OpenWhole, OpenWord, ShutWhole,
};
use crate::source::bitmap_tree::view::{Run, Size, View};
use crate::source::kit::atomic_table::{Badge, Seat, Table};
use crate::source::kit::alloc::{AllocError, Global};

/// The words of a machine, which only the steps below reach.
pub struct Words {
    table: Table<Run, View, Size, BitmapRule, Global>,
}

/// A seat at the words of a machine, which may have bits and permits. It cannot be dropped. It has
/// no bytes.
#[must_use = "the proved source spends each value of this type by a call"]
pub struct BlockSeat {
    seat: Seat<Run, View>,
}

/// A seat that has no bit, and knows what the steps of a call found and left. It may be dropped. It
/// has no bytes.
pub struct BlankSeat {
    seat: Seat<Run, View>,
}

impl BlockSeat {
    /// Returns a seat that has no bit as one that may be dropped.
    ///
    /// # Clauses of the proved source
    ///
    /// - requires: `HasNoBit self.me`
    /// - ensures: `result ≡ self`
    pub fn leave(self) -> BlankSeat {
        let BlockSeat { seat } = self;
        BlankSeat { seat }
    }
}

impl BlankSeat {
    /// Returns the same seat as one that may not be dropped.
    ///
    /// # Clauses of the proved source
    ///
    /// - ensures same: `result ≡ self`
    /// - ensures no_bit: `HasNoBit result.me`
    pub fn into_block_seat(self) -> BlockSeat {
        let BlankSeat { seat } = self;
        BlockSeat { seat }
    }
}

// Only this file has one. So no other file takes a hidden seat apart.
#[repr(C)]
#[derive(Clone, Copy)]
struct Seal {}

/// A seat at the words of a machine, or none: then it has no view. It cannot be dropped. It has no
/// bytes, so a struct that C keeps may have it.
#[repr(C)]
#[must_use = "the proved source spends each value of this type by a call"]
pub struct HiddenSeat {
    seal: Seal,
}

impl HiddenSeat {
    /// Makes a place for a seat, with none in it.
    #[inline(always)]
    ///
    /// # Clauses of the proved source
    ///
    /// - ensures: `result.views ≡ []`
    pub const fn blank() -> HiddenSeat {
        HiddenSeat { seal: Seal {} }
    }

    // Puts another seat in its place, and returns the seat that was there. No bytes move.
    #[inline(always)]
    fn exchange(self, badge: Badge<View>) -> (HiddenSeat, Badge<View>) {
        let HiddenSeat { seal: _ } = self;
        (HiddenSeat { seal: Seal {} }, badge)
    }

    // Takes a place apart in which there is no seat.
    #[inline(always)]
    fn vanish(self) {
        let HiddenSeat { seal: _ } = self;
    }

    /// Hides a seat. No bytes move.
    #[inline(always)]
    ///
    /// # Clauses of the proved source
    ///
    /// - requires: `seat.me.1 ≡ []`
    /// - ensures seat: `seat_in result ≡ seat`
    /// - ensures one: `length result.views ≡ 1`
    pub fn of(seat: BlockSeat) -> HiddenSeat {
        let BlockSeat { seat } = seat;
        let (hidden, none) = HiddenSeat::blank().exchange(seat.into_badge());
        drop(none);
        hidden
    }

    /// Returns the seat, of which there must be one.
    #[inline(always)]
    ///
    /// # Clauses of the proved source
    ///
    /// - requires: `length self.views ≡ 1`
    /// - ensures: `result ≡ seat_in self`
    pub fn into_seat(self) -> BlockSeat {
        let (none, badge) = self.exchange(Badge::blank());
        none.vanish();
        BlockSeat {
            seat: badge.into_seat(),
        }
    }

    /// Lets a seat go that has no bit, or none.
    #[inline(always)]
    ///
    /// # Clauses of the proved source
    ///
    /// - requires: `HasNoBit (seat_in self).me`
    pub fn leave(self) {
        let (none, last) = self.exchange(Badge::blank());
        none.vanish();
        drop(last);
    }
}

impl Words {
    // Makes the words of a machine. The seat has all its permits.
    pub(crate) fn open(
        alloc: Global,
        words: &[u64],
        size: &Size,
    ) -> Result<(Words, BlockSeat), AllocError> {
        let (table, seat) = Table::of_words(alloc, words, size)?;
        Ok((Words { table }, BlockSeat { seat }))
    }

    // Ends the words by a seat. Returns them in a row, which has a place for each.
    pub(crate) fn end(self, seat: BlockSeat, mut row: Vec<u64>) -> Vec<u64> {
        let Words { table } = self;
        let BlockSeat { seat } = seat;
        let closed = table.close_with(seat);
        for word in 0..row.len() {
            row[word] = closed.word(word);
        }
        closed.free();
        row
    }
}

impl BitmapTree {
    // Makes a new seat, with an empty run, by a load of a word.
    pub(crate) fn enter(&self, word: u32) -> BlockSeat {
        let (_found, seat) = self.bits.table.shared.load_new_seat::<Enter>(word as usize);
        BlockSeat { seat }
    }

    // Loads a word at the beginning of a call.
    pub(crate) fn begin(&self, seat: &mut BlockSeat, word: u32) {
        self.bits
            .table
            .shared
            .load::<Begin>(&mut seat.seat, word as usize);
    }

    // Loads a word.
    pub(crate) fn load_word(&self, seat: &mut BlockSeat, word: u32) -> u64 {
        self.bits
            .table
            .shared
            .load::<Load>(&mut seat.seat, word as usize)
    }

    // Loads a word for a hint. Nothing is known of it.
    pub(crate) fn peek(&self, word: u32) -> u64 {
        self.bits.table.shared.peek(word as usize)
    }

    // One exchange, after which the seat has another run in place of its first. Returns what it
    // found.
    pub(crate) fn claim(
        &self,
        seat: &mut BlockSeat,
        word: u32,
        old: u64,
        new: u64,
        said: &Run,
    ) -> u64 {
        self.bits
            .table
            .shared
            .compare_exchange_with::<Claim>(&mut seat.seat, word as usize, old, new, said)
    }

    // One exchange, which shuts a word that is 0. Returns what it found.
    pub(crate) fn shut(&self, seat: &mut BlockSeat, word: u32, said: &Run) -> u64 {
        self.bits
            .table
            .shared
            .compare_exchange_with::<Claim>(&mut seat.seat, word as usize, 0, u64::MAX, said)
    }

    // One exchange, which opens the word under a unit that the seat has.
    pub(crate) fn open_word(&self, seat: &mut BlockSeat, word: u32, new: u64, said: &Run) {
        self.bits
            .table
            .shared
            .compare_exchange_with::<OpenWord>(&mut seat.seat, word as usize, u64::MAX, new, said);
    }

    // Clears the bits of a mask in a word, all of which are set. Returns what it found.
    pub(crate) fn clear_run(&self, seat: &mut BlockSeat, word: u32, mask: u64) -> u64 {
        self.bits
            .table
            .shared
            .fetch_sub::<ClearRun>(&mut seat.seat, word as usize, mask)
    }

    // Adds the runs of another seat to those of this one.
    pub(crate) fn merge(&self, seat: &mut BlockSeat, other: BlockSeat) {
        let BlockSeat { seat: other } = other;
        self.bits
            .table
            .shared
            .join_seat::<Merge>(&mut seat.seat, other);
    }

    // Loads a word. Then it is known that the runs of the seat are apart.
    pub(crate) fn compare(&self, seat: &mut BlockSeat) {
        self.bits.table.shared.load::<Compare>(&mut seat.seat, 0);
    }

    // Gives the first run a seat of its own, with a permit.
    pub(crate) fn cut(&self, seat: &mut BlockSeat) -> BlockSeat {
        BlockSeat {
            seat: self
                .bits
                .table
                .shared
                .split_seat::<CutFirst>(&mut seat.seat),
        }
    }

    // Gives one permit a seat of its own.
    pub(crate) fn deal(&self, seat: &mut BlockSeat) -> BlockSeat {
        BlockSeat {
            seat: self.bits.table.shared.split_seat::<Deal>(&mut seat.seat),
        }
    }

    // Loads a word under a unit that the seat has. The seat then has its bits instead of the unit.
    pub(crate) fn open_whole(&self, seat: &mut BlockSeat, word: u32) {
        self.bits
            .table
            .shared
            .load::<OpenWhole>(&mut seat.seat, word as usize);
    }

    // Loads a word of which the seat has all bits. The seat then has the unit over it instead.
    pub(crate) fn shut_whole(&self, seat: &mut BlockSeat, word: u32) {
        self.bits
            .table
            .shared
            .load::<ShutWhole>(&mut seat.seat, word as usize);
    }

    // Gives the upper half of the first run a seat of its own, with a permit.
    pub(crate) fn cut_half(&self, seat: &mut BlockSeat) -> BlockSeat {
        BlockSeat {
            seat: self.bits.table.shared.split_seat::<CutHalf>(&mut seat.seat),
        }
    }

    // Makes one run of the run of this seat and that of another, which is next to it.
    pub(crate) fn glue(&self, seat: &mut BlockSeat, other: BlockSeat) {
        let BlockSeat { seat: other } = other;
        self.bits
            .table
            .shared
            .join_seat::<Glue>(&mut seat.seat, other);
    }

    /// Loads the top word. Returns what it found, and a new seat that has no bit and knows of this
    /// load alone.
    ///
    /// # Clauses of the proved source
    ///
    /// - ensures table: `result.1.table_id ≡ id_of self.now`
    /// - ensures read: `result.1.me.0.trail ≡ saw 0 result.0 ∷ []`
    /// - ensures no_bit: `HasNoBit result.1.me`
    pub fn read_top(&self) -> (u64, BlankSeat) {
        let (found, seat) = self.bits.table.shared.load_new_seat::<Enter>(0);
        (found, BlankSeat { seat })
    }

    /// Loads a word. Returns what it found, which the seat then knows. The seat has no bit, so it
    /// can change none.
    ///
    /// # Clauses of the proved source
    ///
    /// - requires table: `seat.old.table_id ≡ id_of self.now`
    /// - requires word: `word < word_count (dim_of self.now)`
    /// - ensures table: `seat.new.table_id ≡ id_of self.now`
    /// - ensures read: `seat.new.me.0.trail ≡ saw word result ∷ seat.old.me.0.trail`
    /// - ensures runs: `seat.new.me.0.runs ≡ seat.old.me.0.runs`
    /// - ensures permits: `seat.new.me.0.permits ≡ seat.old.me.0.permits`
    /// - ensures slots: `seat.new.me.1 ≡ seat.old.me.1`
    pub fn read(&self, seat: &mut BlankSeat, word: u32) -> u64 {
        self.bits
            .table
            .shared
            .load::<Load>(&mut seat.seat, word as usize)
    }
}
