//! Values by numbers, in memory that is taken at once.

use alloc::vec::Vec;
use core::mem::replace;

/// A place of a slab.
enum Place<T> {
    Full(T),
    /// The place is free. The number is that of the next free place.
    Free(usize),
}

/// Values by numbers. A number is free again after its value was taken.
pub struct Slab<T> {
    places: Vec<Place<T>>,
    /// The number of the first free place. If it is that of no place, there is none.
    free: usize,
}

impl<T> Slab<T> {
    /// Makes a slab for this many values. Returns `None` if memory ran out.
    pub fn try_new(capacity: usize) -> Option<Self> {
        let mut places = Vec::new();
        places.try_reserve_exact(capacity).ok()?;
        Some(Slab { places, free: 0 })
    }

    /// Returns the number that the next value gets.
    pub fn next_number(&self) -> u64 {
        self.free as u64
    }

    /// Adds a value. It allocates nothing as long as there are no more values than the capacity.
    pub fn add(&mut self, value: T) {
        match self.places.get_mut(self.free) {
            Some(place) => {
                let Place::Free(next) = replace(place, Place::Full(value)) else {
                    unreachable!("a free place has a value")
                };
                self.free = next;
            }
            None => {
                self.places.push(Place::Full(value));
                self.free = self.places.len();
            }
        }
    }

    /// Returns the value of a number. Panics if there is none.
    #[cfg(feature = "plan")]
    pub fn get(&self, number: u64) -> &T {
        match &self.places[number as usize] {
            Place::Full(value) => value,
            Place::Free(_) => unreachable!("no value has the number {number}"),
        }
    }

    /// Returns the value of a number. Panics if there is none.
    #[cfg(feature = "plan")]
    pub fn get_mut(&mut self, number: u64) -> &mut T {
        match &mut self.places[number as usize] {
            Place::Full(value) => value,
            Place::Free(_) => unreachable!("no value has the number {number}"),
        }
    }

    /// Takes the value of a number out. Panics if there is none.
    pub fn take(&mut self, number: u64) -> T {
        let place = &mut self.places[number as usize];
        match replace(place, Place::Free(self.free)) {
            Place::Full(value) => {
                self.free = number as usize;
                value
            }
            Place::Free(_) => unreachable!("no value has the number {number}"),
        }
    }
}
