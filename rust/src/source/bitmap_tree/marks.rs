// Made from crates/bitmap_tree/src/marks.rt by checks/lib/erase.py. Change that file.
//! Summary bits (marks): where a search need not look. No proof rests on what they say.
//!
//! For each dimension below 6 a word has a mark: it had no room for a block of this dimension when
//! a call last looked. The marks of 64 words are one number. The numbers of the six dimensions are
//! side by side in a line of eight. A second level of numbers has a bit for each number that is all
//! ones. The top level is one word, and has no marks.

use crate::source::kit::prelude::{vec};

use crate::source::bitmap_tree::mask::{WORD_DIM, doubled, starts};
use crate::source::bitmap_tree::view::Run;
use crate::source::kit::atomic_table::{Play, Table, TableRule};
use crate::source::cube_shape::MAX_BITMAP_DIM;
use crate::source::kit::alloc::{AllocError, Global};

// The rule of marks and spares, which says nothing.
pub struct AnyMarks;

impl TableRule<Run, u64, u64> for AnyMarks {}

// A step on marks or spares, which says nothing.
pub struct MarkStep;

impl Play<Run, u64> for MarkStep {}

// The marks of a level.
pub struct Marks {
    table: Table<Run, u64, u64, AnyMarks, Global>,
    // The count of numbers of 64 marks for a dimension, and of those of the second level.
    groups: u32,
    tops: u32,
}

// In how many groups of 64 words a search looks for one where it splits no larger block.
const TIGHT_GROUPS: u32 = 64 / 4;

// The first of some words of a group, from one on if there is such a word.
pub(crate) fn word_in(group: u32, words: u64, from: u32) -> u32 {
    let later = words & (u64::MAX << (from % 64));
    let chosen = if later != 0 { later } else { words };
    group.wrapping_mul(64).wrapping_add(chosen.trailing_zeros())
}

// Whether one half of a word is free. Then the word has no mark, since it has room for each
// dimension below 6.
pub(crate) fn has_half(word: u64) -> bool {
    word >> 32 == 0 || word << 32 == 0
}

// The least dimension for which a word has no room, or 6.
fn rooms_of(word: u64) -> u32 {
    let mut free = !word;
    for k in 0..WORD_DIM {
        if free & starts(k) == 0 {
            return k;
        }
        free = doubled(free, k);
    }
    WORD_DIM
}

// The number of groups of 64 words of a level of `2^n` units, and of groups of 64 groups.
fn groups_of(n: u32) -> u32 {
    1 << n.saturating_sub(2 * WORD_DIM)
}

fn tops_of(n: u32) -> u32 {
    1 << n.saturating_sub(3 * WORD_DIM)
}

impl Marks {
    // Makes the marks of a level of `2^n` units, in which each word has all its marks.
    pub(crate) fn open(alloc: Global, n: u32) -> Result<Marks, AllocError> {
        let groups = groups_of(n);
        let tops = tops_of(n);
        let room = vec![in alloc; u64::MAX; 8 * (groups as usize + tops as usize)]?;
        let (table, _seat) = Table::of_words(alloc, &room, &0u64)?;
        Ok(Marks {
            table,
            groups,
            tops,
        })
    }

    // The marks of one group of 64 words for a dimension, and those of 64 groups.
    fn group(&self, k: u32, group: u32) -> u64 {
        self.table.shared.peek(8 * group as usize + k as usize)
    }

    fn top(&self, k: u32, top: u32) -> u64 {
        self.table
            .shared
            .peek(8 * (self.groups as usize + top as usize) + k as usize)
    }

    // Sets marks in a number, and returns what it was; or clears them.
    fn set(&self, place: usize, marks: u64) -> u64 {
        let (_found, mut seat) = self.table.shared.load_new_seat::<MarkStep>(place);
        self.table
            .shared
            .fetch_or::<MarkStep>(&mut seat, place, marks)
    }

    fn clear(&self, place: usize, marks: u64) {
        let (_found, mut seat) = self.table.shared.load_new_seat::<MarkStep>(place);
        self.table
            .shared
            .fetch_and::<MarkStep>(&mut seat, place, !marks);
    }

    // Whether each word has its mark for the dimension, by the second level.
    pub(crate) fn is_full(&self, k: u32) -> bool {
        for top in 0..self.tops {
            if self.top(k, top) != u64::MAX {
                return false;
            }
        }
        true
    }

    // The words of a group that have no mark for the dimension.
    pub(crate) fn unmarked(&self, k: u32, group: u32) -> u64 {
        if group >= self.groups {
            return 0;
        }
        !self.group(k, group)
    }

    // The next word without a mark for the dimension: of the group of one word, or of a later
    // group. One with the mark of dimension `k + 1` comes first, if the next groups have it: there
    // a block splits no larger one. Where there is no word, the result is a number that is no
    // word's.
    #[inline(never)]
    pub(crate) fn next(&self, k: u32, from: u32) -> u32 {
        let mut group = from / 64;
        let mut begin = from;
        let mut first = u32::MAX;
        for looks in 0..self.groups {
            if group >= self.groups {
                return first;
            }
            let open = !self.group(k, group);
            let larger = self.larger(k, group);
            if open & larger != 0 {
                return word_in(group, open & larger, begin);
            }
            if first == u32::MAX && open != 0 {
                first = word_in(group, open, begin);
            }
            if first != u32::MAX && (larger == 0 || looks + 1 >= TIGHT_GROUPS) {
                return first;
            }
            group = self.next_group(k, group + 1);
            begin = 0;
        }
        first
    }

    // The marks of a group of words for dimension `k + 1`, if there is such a mark.
    fn larger(&self, k: u32, group: u32) -> u64 {
        if k + 1 < WORD_DIM {
            self.group(k + 1, group)
        } else {
            0
        }
    }

    // The next group, from one on, that is not marked as a whole.
    fn next_group(&self, k: u32, from: u32) -> u32 {
        for top in from / 64..self.tops {
            let marks = !self.top(k, top);
            let open = if top == from / 64 {
                marks & (u64::MAX << (from % 64))
            } else {
                marks
            };
            if open != 0 {
                return 64 * top + open.trailing_zeros();
            }
        }
        u32::MAX
    }

    // Marks a word for a dimension, and its group where all 64 words of it have the mark.
    pub(crate) fn mark(&self, k: u32, word: u32) {
        let group = word / 64;
        if group >= self.groups || group / 64 >= self.tops {
            return;
        }
        let mark = 1u64 << (word % 64);
        if self.group(k, group) & mark != 0 {
            return;
        }
        let place = 8 * group as usize + k as usize;
        if self.set(place, mark) | mark == u64::MAX {
            let above = 8 * (self.groups as usize + (group / 64) as usize) + k as usize;
            self.set(above, 1 << (group % 64));
            if self.group(k, group) != u64::MAX {
                self.clear(above, 1 << (group % 64));
            }
        }
    }

    // Marks a word for each dimension for which it has no room, unless this is `k` alone. Returns
    // whether it did.
    pub(crate) fn mark_lost(&self, k: u32, number: u32, word: u64) -> bool {
        let group = number / 64;
        let lost = rooms_of(word);
        let next = if lost == k { k.wrapping_add(1) } else { lost };
        if next >= WORD_DIM || self.unmarked(next, group) & (1 << (number % 64)) == 0 {
            return false;
        }
        self.mark_from(lost, number);
        true
    }

    // Marks a word for each dimension from one on.
    fn mark_from(&self, lost: u32, number: u32) {
        for dim in lost..WORD_DIM {
            self.mark(dim, number);
        }
    }

    // Clears the marks of a word for all dimensions for which it has room.
    pub(crate) fn unmark(&self, number: u32, word: u64) {
        let group = number / 64;
        if group >= self.groups || group / 64 >= self.tops {
            return;
        }
        let mark = 1 << (number % 64);
        let mut free = !word;
        for k in 0..WORD_DIM {
            if free & starts(k) == 0 {
                return;
            }
            if self.group(k, group) & mark != 0 {
                self.clear_mark(k, group, mark);
            }
            free = doubled(free, k);
        }
    }

    // Clears marks of a group for a dimension, and the mark of the group.
    fn clear_mark(&self, k: u32, group: u32, marks: u64) {
        self.clear(8 * group as usize + k as usize, marks);
        if self.top(k, group / 64) & (1 << (group % 64)) != 0 {
            let above = 8 * (self.groups as usize + (group / 64) as usize) + k as usize;
            self.clear(above, 1 << (group % 64));
        }
    }
}
