// Made from crates/cubejobs_regions/src/common.rt by checks/lib/erase.py. Change that file.
//! What the handles of a machine have in common.

use crate::source::bitmap_tree::BitmapTree;

/// The bitmaps of a machine, and its number.
pub(crate) struct Common {
    pub(crate) tree: BitmapTree,
    pub(crate) number: u64,
}
