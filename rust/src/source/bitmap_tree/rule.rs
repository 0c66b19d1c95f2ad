// Made from crates/bitmap_tree/src/rule.rt by checks/lib/erase.py. Change that file.
//! The rule of the table, what its steps say, and how its seats are cut and joined.

use crate::source::bitmap_tree::view::{Run, Size, View};
use crate::source::kit::atomic_table::{Join, Play, Split, TableRule};

/// The rule that holds between any two steps.
pub struct BitmapRule;

impl TableRule<Run, View, Size> for BitmapRule {}

// The load by which a new seat is made.
pub struct Enter;

impl Play<Run, View> for Enter {}

// The load with which a call begins.
pub struct Begin;

impl Play<Run, View> for Begin {}

// Another load.
pub struct Load;

impl Play<Run, View> for Load {}

// The exchange that claims a run, or shuts a word.
pub struct Claim;

impl Play<Run, View> for Claim {}

// The exchange that opens a word.
pub struct OpenWord;

impl Play<Run, View> for OpenWord {}

// The subtraction that clears the bits of a run.
pub struct ClearRun;

impl Play<Run, View> for ClearRun {}

// The load after which the runs of a seat are known to be apart.
pub struct Compare;

impl Play<Run, View> for Compare {}

// The first run gets a seat of its own.
pub struct CutFirst;

impl Split<View> for CutFirst {}

// One permit gets a seat of its own.
pub struct Deal;

impl Split<View> for Deal {}

// The runs of two seats become those of one.
pub struct Merge;

impl Join<View> for Merge {}

// A load of a word under a unit, whose bits the seat then has.
pub struct OpenWhole;

impl Play<Run, View> for OpenWhole {}

// A load of a word of which the seat has all bits, for which it then has the unit.
pub struct ShutWhole;

impl Play<Run, View> for ShutWhole {}

// The upper half of the first run gets a seat of its own.
pub struct CutHalf;

impl Split<View> for CutHalf {}

// Two runs that are next to each other become one.
pub struct Glue;

impl Join<View> for Glue {}
