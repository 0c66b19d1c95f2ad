// Made from crates/bitmap_tree/src/opening.rt by checks/lib/erase.py. Change that file.
//! How a machine is opened.

use crate::source::kit::prelude::{Vec, vec};

use crate::source::bitmap_tree::handles::BitmapTree;
use crate::source::bitmap_tree::layout::words_of;
use crate::source::bitmap_tree::marks::Marks;
use crate::source::bitmap_tree::spares::Spares;
use crate::source::bitmap_tree::steps::{BlockSeat, Words};
use crate::source::bitmap_tree::view::Size;
use crate::source::cube_shape::MAX_BITMAP_DIM;
use crate::source::kit::alloc::{AllocError, Global};

// The number of processors of a word of the lowest level, and of a cache line of such words.
const WORD_SIZE: u64 = 64;

const LINE_SIZE: u64 = 8 * WORD_SIZE;

// How many threads have a start of their own: one for each cache line of 128 words.
const STARTS: u32 = 128 / 8;

// Makes the marks of all levels below the top one.
fn marks_of(alloc: Global, n: u32) -> Result<Vec<Marks>, AllocError> {
    let mut marks = Vec::new(alloc);
    for level in 0..n / 6 {
        marks.push(Marks::open(alloc, n - 6 * level)?)?;
    }
    Ok(marks)
}

impl BitmapTree {
    /// Opens a machine of dimension `n` in which nothing is held, and where any caller may take.
    ///
    /// # Clauses of the proved source
    ///
    /// - requires: `n ≤ MAX_BITMAP_DIM`
    /// - ensures dim: `IfOk result (λ made. dim_of made ≡ n)`
    /// - ensures anyone: `IfOk result (λ made. permits_of made ≡ 0)`
    pub fn open(alloc: Global, n: u32) -> Result<BitmapTree, AllocError> {
        let (machine, seat) = BitmapTree::open_sized(alloc, Size { dim: n, permits: 0 })?;
        drop(seat.leave());
        Ok(machine)
    }

    // Opens a machine of this size. The seat has all its permits.
    pub(crate) fn open_sized(
        alloc: Global,
        size: Size,
    ) -> Result<(BitmapTree, BlockSeat), AllocError> {
        let mut words = vec![in alloc; u64::MAX; words_of(size.dim) as usize]?;
        words[0] = 0;
        let marks = marks_of(alloc, size.dim)?;
        let spares = Spares::open(alloc)?;
        let (bits, seat) = Words::open(alloc, &words, &size)?;
        Ok((
            BitmapTree {
                bits,
                size,
                marks,
                spares,
                room: words,
            },
            seat,
        ))
    }

    /// Returns a processor at which the searches of a thread may begin. Threads of different
    /// numbers begin in different cache lines near the front, for 16 threads, as far as the machine
    /// has them. So they seldom meet, and large blocks stay whole.
    ///
    /// # Clauses of the proved source
    ///
    /// - ensures: `result < 2 ^ dim_of self.now`
    pub fn start_of(&self, thread: u32) -> u64 {
        let size = 1u64 << self.size.dim;
        let first = LINE_SIZE * (thread % STARTS) as u64;
        (first + WORD_SIZE * (first / size)) % size
    }

    /// Returns the dimension of the machine.
    ///
    /// # Clauses of the proved source
    ///
    /// - ensures dim: `result ≡ dim_of self.now`
    /// - ensures limit: `dim_of self.now ≤ MAX_BITMAP_DIM`
    pub fn dim(&self) -> u32 {
        self.size.dim
    }
}
