// Made from crates/cubejobs_rounds/src/shapes.rt by checks/lib/erase.py. Change that file.
//! The numbers that callers in C give the shapes of a collective.

use crate::source::collectives::Shape;

/// From one rank to all.
pub const BROADCAST: u32 = 0;

/// From all ranks to one.
pub const REDUCE: u32 = 1;

/// From all ranks to all.
pub const ALLREDUCE: u32 = 2;

/// From all ranks to all, and each keeps a prefix: a scan and an exclusive scan.
pub const SCAN: u32 = 3;

/// How many shapes there are. Their numbers are below it.
pub const SHAPES: u32 = 4;

/// Returns the shape that has this number.
pub(crate) fn shape_at(number: u32) -> Shape {
    match number {
        BROADCAST => Shape::Broadcast,
        REDUCE => Shape::Reduce,
        ALLREDUCE => Shape::AllReduce,
        _ => Shape::Scan,
    }
}
