#![doc = include_str!("../README.md")]
#![deny(unsafe_code, unsafe_op_in_unsafe_fn)]
#![warn(missing_docs)]

mod beds;
mod client;
mod collective;
mod current;
mod desk;
mod error;
mod gang;
mod group;
#[allow(unsafe_code)] // a job is one word
mod job;
mod outside;
mod overflow;
mod placer;
mod pool;
mod room;
#[allow(unsafe_code)] // the jobs of a scope borrow
mod scope;
mod seat;
mod shared;
mod spares;
mod ticket;
mod util;

#[doc = include_str!("coming_from.md")]
pub mod coming_from {}

pub use client::Client;
pub use cubejobs::lanes::MAX_CAPACITY;
pub use error::{Cancelled, ClientError, Reason, Refused};
pub use group::Group;
pub use pool::{Builder, Pool, MAX_LANES, MAX_WORKERS_LOG2};
pub use scope::{Scope, ScopeTicket};
pub use ticket::Ticket;
