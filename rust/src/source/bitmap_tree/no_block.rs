// Made from crates/bitmap_tree/src/no_block.rt by checks/lib/erase.py. Change that file.
//! Why a search found no block.

// Why a search found no block.
#[derive(Clone, Copy)]
pub(crate) enum NoBlock {
    // Nothing in which it looked had room.
    Full,
    // It gave up a word, in which it lost its exchanges to other calls.
    Disturbed,
}

impl NoBlock {
    // Why neither of two searches found a block.
    #[inline(always)]
    pub(crate) fn and(self, other: NoBlock) -> NoBlock {
        match self {
            NoBlock::Full => other,
            NoBlock::Disturbed => NoBlock::Disturbed,
        }
    }

    // Whether the search gave up a word.
    #[inline(always)]
    pub(crate) fn is_disturbed(self) -> bool {
        match self {
            NoBlock::Full => false,
            NoBlock::Disturbed => true,
        }
    }
}
