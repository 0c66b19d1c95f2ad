// Made from crates/cubejobs_lanes/src/opening.rt by checks/lib/erase.py. Change that file.
//! How lanes are opened.

use crate::source::kit::prelude::{Vec};

use crate::source::cubejobs_lanes::common::Common;
use crate::source::cubejobs_lanes::kept::{KeptLane, KeptWorker};
use crate::source::cubejobs_lanes::owner::Owner;
use crate::source::cubejobs_lanes::returns::named_places;
use crate::source::cubejobs_lanes::stage::Stage;
use crate::source::lanes::{Lanes, Members, Sizes};
use crate::source::kit::alloc::{AllocError, Global};
use crate::source::kit::sync::Arc;

// Deals out all lanes of new ones.
fn deal_lanes(
    alloc: Global,
    lanes: &Lanes,
    members: &mut Members,
    count: u32,
) -> Result<Vec<Option<KeptLane>>, AllocError> {
    let mut places = Vec::with_capacity(alloc, count as usize)?;
    for _ in 0..count {
        let lane = lanes.deal_lane(members);
        places.push_reserved(Some(KeptLane { lane }));
    }
    Ok(places)
}

// Deals out all workers of new lanes.
fn deal_workers(
    alloc: Global,
    lanes: &Lanes,
    members: &mut Members,
    count: u32,
) -> Result<Vec<Option<KeptWorker>>, AllocError> {
    let mut places = Vec::with_capacity(alloc, count as usize)?;
    for _ in 0..count {
        let worker = lanes.deal_worker(alloc, members)?;
        places.push_reserved(Some(KeptWorker { worker }));
    }
    Ok(places)
}

impl Owner {
    // Opens lanes of which nothing was asked. Each lane and each worker is in its place.
    pub(crate) fn open(alloc: Global, sizes: Sizes) -> Result<Owner, AllocError> {
        let (lanes, mut members) = Lanes::open_with_sleepers(alloc, sizes)?;
        let kept_lanes = deal_lanes(alloc, &lanes, &mut members, sizes.lanes)?;
        let kept_workers = deal_workers(alloc, &lanes, &mut members, sizes.workers)?;
        let lane_places = named_places(alloc, &lanes, sizes.lanes)?;
        let worker_places = named_places(alloc, &lanes, sizes.workers)?;
        let common = Common {
            lanes,
            sizes,
            lane_places,
            worker_places,
        };
        match Arc::new(alloc, common) {
            Ok(common) => Ok(Owner {
                common,
                stage: Stage::Open(members),
                lanes: kept_lanes,
                workers: kept_workers,
            }),
            Err(failed) => {
                drop(failed);
                Err(AllocError)
            }
        }
    }
}
