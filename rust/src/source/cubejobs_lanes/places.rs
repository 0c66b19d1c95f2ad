// Made from crates/cubejobs_lanes/src/places.rt by checks/lib/erase.py. Change that file.
//! Places for producers and workers that no handle has.

use crate::source::kit::prelude::{Vec};

use core::mem::replace;

/// Takes the content of a place, which is empty then.
///
/// # Clauses of the proved source
///
/// - requires inside: `place < length places.old.items`
/// - ensures taken: `result ≡ slice_index_or places.old.items place None`
/// - ensures empty: `places.new.items ≡ slice_set places.old.items place None`
pub fn take_from<T>(places: &mut Vec<Option<T>>, place: usize) -> Option<T> {
    replace(&mut places[place], None)
}

// Puts a content into a place.
pub(crate) fn put_into<T: >(places: &mut Vec<Option<T>>, place: usize, content: T) {
    places[place] = Some(content);
}

/// Returns the first empty place.
///
/// # Clauses of the proved source
///
/// - ensures inside: `IfSome result (λ place. place < length places.now.items)`
/// - ensures empty: `IfSome result (λ place. slice_index_or places.now.items place None ≡ None)`
/// - ensures first: `IfSome result (λ place. AreFullBelow place places.now.items)`
/// - ensures none: `IfNone result (AreFullBelow (length places.now.items) places.now.items)`
pub fn first_empty<T>(places: &Vec<Option<T>>) -> Option<usize> {
    for place in 0..places.len() {
        if places[place].is_none() {
            return Some(place);
        }
    }
    None
}

/// Returns the first full place.
///
/// # Clauses of the proved source
///
/// - ensures inside: `IfSome result (λ place. place < length places.now.items)`
/// - ensures first: `IfSome result (λ place. AreEmptyBelow place places.now.items)`
/// - ensures full: `IfSome result (λ place. IsSome (slice_index_or places.now.items place None))`
/// - ensures none: `IfNone result (AreEmptyBelow (length places.now.items) places.now.items)`
pub fn first_full<T>(places: &Vec<Option<T>>) -> Option<usize> {
    for place in 0..places.len() {
        if places[place].is_some() {
            return Some(place);
        }
    }
    None
}
