// Made from crates/bitmap_tree/src/spares.rt by checks/lib/erase.py. Change that file.
//! Spares: empty words of each level that stay open. No proof rests on what they say.

use crate::source::kit::prelude::{vec};

use crate::source::bitmap_tree::marks::{AnyMarks, MarkStep};
use crate::source::bitmap_tree::view::Run;
use crate::source::kit::atomic_table::Table;
use crate::source::cube_shape::MAX_BITMAP_DIM;
use crate::source::kit::alloc::{AllocError, Global};

/// The number of spares that a level has at most.
pub(crate) const SPARES: u32 = 8;

// For each level, some words that became empty last and stay open. Without them a take and its
// release would open a word and shut it each time. Words near each other have different places, so
// each of several threads keeps a spare.
pub struct Spares {
    table: Table<Run, u64, u64, AnyMarks, Global>,
}

impl Spares {
    pub(crate) fn open(alloc: Global) -> Result<Spares, AllocError> {
        let room = vec![in alloc; 0; SPARES as usize * (MAX_BITMAP_DIM as usize / 6 + 1)]?;
        let (table, _seat) = Table::of_words(alloc, &room, &0u64)?;
        Ok(Spares { table })
    }

    // Makes a word a spare of its level. Returns the spare before it, where that is another word.
    pub(crate) fn keep(&self, level: u32, word: u32) -> Option<u32> {
        let place = SPARES * level + (word / 8).wrapping_add(word.wrapping_mul(2)) % SPARES;
        let mine = word as u64 + 1;
        if self.table.shared.peek(place as usize) == mine {
            return None;
        }
        let (found, _seat) = self
            .table
            .shared
            .swap_new_seat::<MarkStep>(place as usize, mine);
        if found == 0 || found == mine {
            return None;
        }
        Some(((found - 1) % (1 << 32)) as u32)
    }

    // Takes a spare away from a place of its level. Returns its word.
    pub(crate) fn drain(&self, level: u32, place: u32) -> Option<u32> {
        let place = (SPARES * level + place) as usize;
        if self.table.shared.peek(place) == 0 {
            return None;
        }
        let (found, _seat) = self.table.shared.swap_new_seat::<MarkStep>(place, 0);
        if found == 0 {
            return None;
        }
        Some(((found - 1) % (1 << 32)) as u32)
    }
}
