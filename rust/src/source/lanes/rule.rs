// Made from crates/lanes/src/rule.rt by checks/lib/erase.py. Change that file.

use crate::source::lanes::sizes::Plan;
use crate::source::lanes::view::Both;
use crate::source::kit::atomic_table::{Join, Play, Split, TableRule};
use crate::source::wake_calls::WakeRule;

pub struct LanesRule;

impl TableRule<(), Both, Plan> for LanesRule {}

impl WakeRule<Both, Plan> for LanesRule {}

// The producer reads how many jobs its lane has accepted, and the closed mark.
pub struct ReadCount;

impl Play<(), Both> for ReadCount {}

// The producer reads how many jobs were taken.
pub struct Look;

impl Play<(), Both> for Look {}

// The producer puts a payload in its next cell.
pub struct PutPayload;

impl Play<(), Both> for PutPayload {}

// The producer puts a dimension in the cell after it.
pub struct PutDim;

impl Play<(), Both> for PutDim {}

// The producer counts the job.
pub struct Accept;

impl Play<(), Both> for Accept {}

// The closer sets the closed mark of a lane.
pub struct Close;

impl Play<(), Both> for Close {}

// A worker reads how many jobs were taken in a lane.
pub struct ReadHead;

impl Play<(), Both> for ReadHead {}

// A worker reads how many jobs were accepted, and the closed mark.
pub struct ReadTail;

impl Play<(), Both> for ReadTail {}

// A worker that has rested, or was the searcher, looks whether a lane is empty.
pub struct LookOn;

impl Play<(), Both> for LookOn {}

// A worker reads the payload of the job at the head.
pub struct ReadPayload;

impl Play<(), Both> for ReadPayload {}

// A worker reads the dimension of the job at the head.
pub struct ReadDim;

impl Play<(), Both> for ReadDim {}

// A worker counts the job as taken.
pub struct Take;

impl Play<(), Both> for Take {}

// The searcher counts the job as taken.
pub struct FindJob;

impl Play<(), Both> for FindJob {}

// The record of one producer is dealt out.
pub struct DealLane;

impl Split<Both> for DealLane {}

// The record of one worker is dealt out.
pub struct DealWorker;

impl Split<Both> for DealWorker {}

// The records of two seats are joined.
pub struct Gather;

impl Join<Both> for Gather {}
