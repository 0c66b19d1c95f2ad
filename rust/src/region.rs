//! A block as two numbers.

use core::fmt;
use core::ops::Range;

/// An aligned block: the `2^dim` processors from `base` on. Blocks are ordered by their first
/// processor, then by their dimension.
///
/// Both fields are public, so a value may have any two numbers. No method panics. [`contains`] and
/// [`overlaps`] go by the whole block, as if a number had no limit. [`len`] and [`range`] stop at
/// [`u64::MAX`]. The blocks of a machine are far from these limits.
///
/// ```
/// use cubejobs::Region;
///
/// let block = Region { base: 8, dim: 2 };
/// assert_eq!((block.len(), block.range(), block.to_string()), (4, 8..12, "8..12".to_string()));
/// assert!(block.contains(11) && !block.contains(12));
/// let (lower, upper) = block.halves().unwrap();
/// assert_eq!((lower, upper), (Region { base: 8, dim: 1 }, Region { base: 10, dim: 1 }));
/// assert!(block.overlaps(upper) && !lower.overlaps(upper) && lower < upper);
/// ```
///
/// [`contains`]: Region::contains
/// [`overlaps`]: Region::overlaps
/// [`len`]: Region::len
/// [`range`]: Region::range
#[derive(Clone, Copy, Debug, PartialEq, Eq, PartialOrd, Ord, Hash)]
pub struct Region {
    /// The first processor of the block.
    pub base: u64,
    /// The dimension of the block.
    pub dim: u32,
}

#[allow(clippy::len_without_is_empty)] // no block is empty
impl Region {
    /// Returns the number of processors, `2^dim`. It is [`u64::MAX`] for a dimension above 63.
    #[must_use]
    pub const fn len(self) -> u64 {
        match 1_u64.checked_shl(self.dim) {
            Some(len) => len,
            None => u64::MAX,
        }
    }

    /// Returns the numbers of the processors, from `base` on. The end is at most [`u64::MAX`], so
    /// that of a block which goes further is cut off.
    #[must_use]
    pub const fn range(self) -> Range<u64> {
        self.base..self.base.saturating_add(self.len())
    }

    /// Returns whether the block has this processor.
    #[must_use]
    pub const fn contains(self, processor: u64) -> bool {
        match processor.checked_sub(self.base) {
            // A number of 64 bits is below `2^dim` for each dimension above 63.
            Some(place) => self.dim > 63 || place < self.len(),
            None => false,
        }
    }

    /// Returns whether a processor is in both blocks.
    #[must_use]
    pub const fn overlaps(self, other: Region) -> bool {
        self.contains(other.base) || other.contains(self.base)
    }

    /// Returns the lower and the upper half. Returns `None` if the block has one processor, or if
    /// the upper half would begin after [`u64::MAX`].
    #[must_use]
    pub const fn halves(self) -> Option<(Region, Region)> {
        let Some(dim) = self.dim.checked_sub(1) else { return None };
        let Some(len) = 1_u64.checked_shl(dim) else { return None };
        let Some(base) = self.base.checked_add(len) else { return None };
        Some((Region { base: self.base, dim }, Region { base, dim }))
    }
}

/// Writes the block as a range, as in `8..12`. Writes `BASE..BASE+2^DIM` if the end is above
/// [`u64::MAX`].
impl fmt::Display for Region {
    fn fmt(&self, f: &mut fmt::Formatter<'_>) -> fmt::Result {
        let Region { base, dim } = *self;
        match 1_u64.checked_shl(dim).and_then(|len| base.checked_add(len)) {
            Some(end) => write!(f, "{base}..{end}"),
            None => write!(f, "{base}..{base}+2^{dim}"),
        }
    }
}
