// Made from crates/cube_shape/src/limits.rt by checks/lib/erase.py. Change that file.

/// The largest dimension of a machine: it has at most `2^MAX_DIM` processors.
pub const MAX_DIM: u32 = 12;

/// The largest dimension of a machine of the bitmap tree: it has at most `2^MAX_BITMAP_DIM`
/// processors.
pub const MAX_BITMAP_DIM: u32 = 20;

/// The largest number of stations (allocator handles). Each holds at most one block; their numbers
/// are `0` to `MAX_STATIONS - 1`.
pub const MAX_STATIONS: u32 = 48;

/// The largest number of lanes (producer handles of a queue). Their numbers are `0` to
/// `MAX_LANES - 1`.
pub const MAX_LANES: u32 = 16;

/// The largest number of passes (consumer handles of a queue).
pub const MAX_PASSES: u32 = 16;

/// The largest number of workers of a dispatcher. Each takes jobs by its own pass.
pub const MAX_DISPATCHERS: u32 = MAX_PASSES;

/// The largest capacity of a queue, in jobs.
pub const MAX_CAPACITY: usize = 1024;

/// The largest number of entries (tickets) that a lane can make.
pub const MAX_ENTRIES: u64 = 1 << 48;

/// The dimension of a machine or of a block: `Dim(k)` is `2^k` processors.
#[derive(Clone, Copy, Debug, PartialEq, Eq, PartialOrd, Ord, Hash)]
pub struct Dim(pub u32);

impl Dim {
    /// Returns whether a machine of dimension `n` has blocks of this dimension.
    ///
    /// `Dim(n).fits(MAX_DIM)` tests whether a machine of dimension `n` is within the limits.
    ///
    /// # Clauses of the proved source
    ///
    /// - ensures: `IsTrue result ↔ (self.0 ≤ n)`
    pub fn fits(self, n: u32) -> bool {
        self.0 <= n
    }
}
