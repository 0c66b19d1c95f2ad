//! Prints the answers of the erased driver, as `main.rt` prints those of the driver.
#![allow(dead_code)]

extern crate alloc;

#[path = "../../rust/src/place.rs"]
mod place;
#[path = "../../rust/src/shared.rs"]
mod shared;
#[path = "../../rust/src/source/mod.rs"]
#[rustfmt::skip]
mod source;

fn main() {
    for line in source::driver::walk::walk(source::kit::alloc::Global).lines.iter() {
        println!("{} {} {} {}", line.call, line.one, line.two, line.three);
    }
}
