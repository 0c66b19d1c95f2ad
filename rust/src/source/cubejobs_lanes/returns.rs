// Made from crates/cubejobs_lanes/src/returns.rt by checks/lib/erase.py. Change that file.
//! Places by which what handles had comes back to its owner, from any thread.

use crate::source::kit::prelude::{Vec};

use crate::source::cubejobs_lanes::kept::{KeptLane, KeptWorker};
use crate::source::cubejobs_lanes::name::PlaceName;
use crate::source::cubejobs_lanes::places::put_into;
use crate::source::kit::counted_slot::{Counted, FREE, Fits, PRESENT, TAKEN};
use crate::source::lanes::Lanes;
use crate::source::kit::alloc::{AllocError, Global};
use crate::source::kit::snapshot::Snapshot;

/// A place of one content, which any thread fills, and which the owner empties. Contracts see its
/// name: what is in it has the name's property `fits`.
pub type ReturnPlace<X> = Counted<Option<X>>;

impl Fits for KeptLane {
    type Tag = PlaceName;
}

impl Fits for KeptWorker {
    type Tag = PlaceName;
}

/// Makes this number of empty places for lanes or workers, named from 0 on.
///
/// # Clauses of the proved source
///
/// - ensures names: `IfOk result (λ places. AreNamed lanes.now count places.items)`
/// - ensures length: `IfOk result (λ places. length places.items ≡ count)`
pub fn named_places<X: Fits<Tag = PlaceName>>(
    alloc: Global,
    lanes: &Lanes,
    count: u32,
) -> Result<Vec<ReturnPlace<X>>, AllocError> {
    let mut name = PlaceName {
        lanes: Snapshot::of(lanes),
        number: 0,
    };
    let mut places = Vec::with_capacity(alloc, count as usize)?;
    for number in 0..count {
        name.number = number;
        places.push_reserved(Counted::new(None, &name));
    }
    Ok(places)
}

/// Puts a content into an empty place. Gives the content back if another call is at the place.
///
/// # Clauses of the proved source
///
/// - requires fits: `X.fits place.now content`
/// - ensures refused: `IfErr result (λ given. given ≡ content)`
pub fn leave<X: Fits>(place: &ReturnPlace<X>, content: X) -> Result<(), X> {
    let (found, claim) = place.turn(FREE, TAKEN);
    if found != FREE {
        claim.done();
        return Err(content);
    }
    drop(claim.put(Some(content), PRESENT));
    Ok(())
}

// Takes the content of a place, if it has one.
fn collect<X: Fits>(place: &ReturnPlace<X>) -> Option<X> {
    if place.load() != PRESENT {
        return None;
    }
    let (found, claim) = place.turn(PRESENT, TAKEN);
    if found != PRESENT {
        claim.done();
        return None;
    }
    claim.put(None, FREE)
}

// Takes what has come back to a place, if the owner's place is empty.
fn collect_at<X: Fits>(from: &Vec<ReturnPlace<X>>, places: &mut Vec<Option<X>>, place: usize) {
    if places[place].is_some() {
        return;
    }
    if let Some(content) = collect(&from[place]) {
        put_into(places, place, content);
    }
}

/// Takes what has come back into the owner's empty places.
///
/// # Clauses of the proved source
///
/// - requires: `length from.now.items ≡ length places.old.items`
/// - ensures: `HaveComeBack X.fits from.now.items places.old.items places.new.items`
pub fn collect_all<X: Fits>(from: &Vec<ReturnPlace<X>>, places: &mut Vec<Option<X>>) {
    for place in 0..places.len() {
        collect_at(from, places, place);
    }
}
