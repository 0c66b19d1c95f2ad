//! What the types of `regions`, `lanes`, `plan` and `sched` forbid. Each of these programs must not
//! compile.
//!
//! No block outlives the machine that it borrows:
//!
//! ```compile_fail,E0505
//! let machine = cubejobs::regions::Machine::new(4).unwrap();
//! let block = machine.take(1).unwrap();
//! drop(machine);
//! drop(block);
//! ```
//!
//! No handle outlives the machine that it borrows:
//!
//! ```compile_fail,E0505
//! let machine = cubejobs::regions::Machine::new(4).unwrap();
//! let mut handle = machine.handle().unwrap();
//! let _ = machine.close();
//! let _ = handle.take(1);
//! ```
//!
//! A handle is of one thread at a time:
//!
//! ```compile_fail,E0596
//! fn take(handle: &cubejobs::regions::Handle<&cubejobs::regions::Machine>) {
//!     let _ = handle.take(1);
//! }
//! ```
//!
//! A block is released once:
//!
//! ```compile_fail,E0382
//! fn release(block: cubejobs::regions::Block<&cubejobs::regions::Machine>) {
//!     drop(block);
//!     drop(block);
//! }
//! ```
//!
//! A block has no copy, and is made by a take alone:
//!
//! ```compile_fail,E0277
//! fn copy<T: Clone>() {}
//!
//! copy::<cubejobs::regions::Held>();
//! ```
//!
//! A program is ready for the reasons of later versions:
//!
//! ```compile_fail,E0004
//! use cubejobs::lanes::SubmitError;
//!
//! fn say(error: SubmitError) -> &'static str {
//!     match error {
//!         SubmitError::Full => "later",
//!         SubmitError::Closed | SubmitError::Spent => "never",
//!     }
//! }
//! ```
//!
//! And for more fields of an error:
//!
//! ```compile_fail,E0638
//! fn take(held: cubejobs::regions::StillHeld) -> cubejobs::regions::Machine {
//!     let cubejobs::regions::StillHeld { machine } = held;
//!     machine
//! }
//! ```
//!
//! A handle has no copy:
//!
//! ```compile_fail,E0277
//! fn copy<T: Clone>() {}
//!
//! copy::<cubejobs::lanes::Lane<u64>>();
//! ```
//!
//! A handle makes one call at a time:
//!
//! ```compile_fail,E0596
//! fn submit(lane: &cubejobs::lanes::Lane<u64>) {
//!     let _ = lane.submit(1, 0);
//! }
//! ```
//!
//! Ended lanes deal out no handle:
//!
//! ```compile_fail,E0382
//! fn end(lanes: cubejobs::lanes::Lanes<u64>) {
//!     let _ = lanes.finish();
//!     let _ = lanes.lane();
//! }
//! ```
//!
//! Only what can be sent travels:
//!
//! ```compile_fail,E0277
//! use std::rc::Rc;
//!
//! fn open(sizes: cubejobs::lanes::Sizes) {
//!     let _ = cubejobs::lanes::Lanes::<Box<Rc<u64>>>::new(sizes);
//! }
//! ```
//!
//! Only words and boxes travel:
//!
//! ```compile_fail,E0277
//! struct Mine;
//!
//! impl cubejobs::lanes::Payload for Mine {}
//! ```
//!
//! A producer of jobs that last long submits none that last shorter:
//!
//! ```compile_fail
//! use cubejobs::lanes::Lane;
//!
//! fn shorten<'a>(lane: Lane<Box<&'static str>>) -> Lane<Box<&'a str>> {
//!     lane
//! }
//! ```
//!
//! What a job refers to outlives the lanes:
//!
//! ```compile_fail,E0597
//! use cubejobs::lanes::{Lanes, Sizes};
//!
//! let lanes = Lanes::new(Sizes { lanes: 1, workers: 1, capacity: 1 }).unwrap();
//! let mut lane = lanes.lane().unwrap();
//! {
//!     let text = String::new();
//!     let _ = lane.submit(Box::new(&text), 0);
//! }
//! drop(lanes);
//! ```
//!
//! A planner goes to another thread only if its jobs can:
//!
//! ```compile_fail,E0277
//! use cubejobs::plan::{Options, Planner};
//! use std::rc::Rc;
//!
//! let planner = Planner::<Rc<u8>>::new(Options::new(3, 8)).unwrap();
//! std::thread::spawn(move || drop(planner));
//! ```
//!
//! Threads share no planner without a lock:
//!
//! ```compile_fail,E0277
//! use cubejobs::plan::{Options, Planner};
//!
//! let planner = Planner::<u8>::new(Options::new(3, 8)).unwrap();
//! std::thread::scope(|scope| {
//!     scope.spawn(|| planner.counts());
//! });
//! ```
//!
//! A planner changes nothing while its jobs are gone over:
//!
//! ```compile_fail,E0502
//! fn end_all(planner: &mut cubejobs::plan::Planner<u8>) {
//!     for (ticket, ..) in planner.jobs() {
//!         let _ = planner.finish(ticket);
//!     }
//! }
//! ```
//!
//! What a job refers to outlives the planner:
//!
//! ```compile_fail,E0597
//! use cubejobs::plan::{Options, Planner, Request};
//!
//! let mut planner = Planner::new(Options::new(3, 8)).unwrap();
//! {
//!     let text = String::new();
//!     let _ = planner.submit(Request::new(1), &text);
//! }
//! drop(planner);
//! ```
//!
//! A ticket is of a submit alone:
//!
//! ```compile_fail,E0423
//! let ticket = cubejobs::plan::Ticket(core::num::NonZero::new(1).unwrap());
//! ```
//!
//! Threads share a scheduler only if its jobs can be sent:
//!
//! ```compile_fail,E0277
//! use cubejobs::sched::{Options, Scheduler};
//! use std::rc::Rc;
//!
//! let scheduler = Scheduler::<Rc<u8>>::new(Options::new(3, 8, 1)).unwrap();
//! std::thread::scope(|scope| {
//!     scope.spawn(|| scheduler.counts());
//! });
//! ```
//!
//! No worker outlives its scheduler:
//!
//! ```compile_fail,E0505
//! use cubejobs::sched::{Options, Scheduler};
//!
//! let scheduler = Scheduler::<u8>::new(Options::new(3, 8, 1)).unwrap();
//! let worker = scheduler.worker().unwrap();
//! drop(scheduler);
//! drop(worker);
//! ```
//!
//! A worker has one job at a time:
//!
//! ```compile_fail,E0499
//! use cubejobs::sched::{Allocation, Worker};
//!
//! fn two<'a>(worker: &'a mut Worker<'_, u8>) -> [Allocation<'a, u8>; 2] {
//!     [worker.next().unwrap(), worker.next().unwrap()]
//! }
//! ```
//!
//! A job that has ended has no processors:
//!
//! ```compile_fail,E0382
//! fn base(job: cubejobs::sched::Allocation<'_, u8>) -> u64 {
//!     drop(job.into_job());
//!     job.base()
//! }
//! ```
//!
//! What a job refers to outlives the scheduler:
//!
//! ```compile_fail,E0597
//! use cubejobs::sched::{Options, Request, Scheduler};
//!
//! let scheduler = Scheduler::new(Options::new(3, 8, 1)).unwrap();
//! {
//!     let text = String::new();
//!     let _ = scheduler.submit(&text, Request::new(1));
//! }
//! drop(scheduler);
//! ```
