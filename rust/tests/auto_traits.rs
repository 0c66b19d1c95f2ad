//! The auto traits of each public type. They are the same over the libraries and in plain Rust.

use cubejobs::{fit, lanes, plan, regions, rounds, sched};
use std::cell::Cell;

type Machine = &'static regions::Machine;
/// What can be sent, and not shared.
type Boxed = Box<Cell<u8>>;

/// Whether a type is of a trait.
macro_rules! is {
    ($type:ty: $bound:path) => {{
        #[allow(dead_code)] // one of the two constants is not read
        trait Otherwise {
            const IS: bool = false;
        }
        impl<T> Otherwise for T {}
        struct Probe<T>(std::marker::PhantomData<T>);
        #[allow(dead_code)]
        impl<T: $bound> Probe<T> {
            const IS: bool = true;
        }
        <Probe<$type>>::IS
    }};
}

/// The name of each type, with the names of its auto traits.
macro_rules! traits {
    ($($type:ty,)*) => {
        [$((
            stringify!($type),
            [
                ("Send", is!($type: Send)),
                ("Sync", is!($type: Sync)),
                ("Unpin", is!($type: Unpin)),
                ("UnwindSafe", is!($type: std::panic::UnwindSafe)),
                ("RefUnwindSafe", is!($type: std::panic::RefUnwindSafe)),
            ],
        )),*]
    };
}

type Traits = [(&'static str, bool); 5];

/// Panics unless each type has exactly the traits that are not left out.
fn must_lack(left_out: &[&str], types: &[(&str, Traits)]) {
    for (name, traits) in types {
        for (bound, is) in traits {
            assert_eq!(*is, !left_out.contains(bound), "{name}: {bound}");
        }
    }
}

fn of_machines() -> Vec<(&'static str, Traits)> {
    let found = traits![
        cubejobs::Region,
        fit::FirstFit<fit::Owned>,
        fit::Owned,
        fit::FitError,
        fit::Occupancy,
        rounds::Shape,
        rounds::Collective,
        rounds::CollectiveError,
        rounds::Message,
        rounds::Step,
        rounds::Messages,
        rounds::Steps,
        regions::Machine,
        regions::Block<Machine>,
        regions::Held,
        regions::Handle<Machine>,
        regions::Handle<std::sync::Arc<regions::Machine>>,
        regions::OpenError,
        regions::TakeError,
        regions::Occupancy,
        regions::StillHeld,
    ];
    found.to_vec()
}

fn of_lanes() -> Vec<(&'static str, Traits)> {
    let found = traits![
        lanes::Sizes, lanes::Lanes<u64>, lanes::Lane<u64>, lanes::Worker<u64>, lanes::Jobs<u64>,
        lanes::Job<u64>, lanes::Accepted, lanes::Refused<lanes::SubmitError, u64>, lanes::Finding<u64>,
        lanes::Found<u64>, lanes::Rest<u64>, lanes::StillOut<lanes::Lanes<u64>>, lanes::OpenError,
        lanes::DealError, lanes::SubmitError, lanes::TakeError, lanes::Out, lanes::Lanes<Boxed>,
        lanes::Lane<Boxed>, lanes::Worker<Boxed>, lanes::Jobs<Boxed>, lanes::Rest<Boxed>,
        lanes::StillOut<lanes::Lanes<Boxed>>,
    ];
    found.to_vec()
}

/// What runs borrows its worker as a `&mut` does.
fn of_running_jobs() -> Vec<(&'static str, Traits)> {
    let found = traits![sched::Allocation<'static, u64>,];
    found.to_vec()
}

fn of_plans() -> Vec<(&'static str, Traits)> {
    let found = traits![
        plan::Options,
        plan::Request,
        plan::Ticket,
        plan::Start,
        plan::Forecast,
        plan::JobState,
        plan::Counts,
        plan::OpenError,
        plan::SubmitError<u64>,
        plan::SubmitReason,
        plan::TimeError,
        plan::EndError,
        plan::OccupyError,
        plan::VacateError,
    ];
    found.to_vec()
}

fn of_schedulers() -> Vec<(&'static str, Traits)> {
    let found = traits![
        sched::Scheduler<u64>,
        sched::Scheduler<Boxed>,
        sched::Worker<'static, u64>,
        sched::Worker<'static, Boxed>,
        sched::Options,
        sched::Request,
        sched::Ticket,
        sched::Waiting,
        sched::Forecast,
        sched::Counts,
        sched::OpenError,
        sched::Rejected<u64>,
        sched::Reason,
        sched::CancelError,
        sched::WorkerError,
        sched::Ended,
        sched::NotOut,
        sched::OccupyError,
        sched::VacateError,
    ];
    found.to_vec()
}

/// Calls by reference use the library, one at a time.
fn of_planners() -> Vec<(&'static str, Traits)> {
    traits![plan::Planner<u64>, plan::Planner<Boxed>,].to_vec()
}

fn of_their_jobs() -> Vec<(&'static str, Traits)> {
    traits![plan::Jobs<'static, u64>, plan::Jobs<'static, Boxed>,].to_vec()
}

#[test]
fn each_type_has_its_auto_traits() {
    must_lack(&[], &of_machines());
    must_lack(&[], &of_lanes());
    must_lack(&[], &of_plans());
    must_lack(&[], &of_schedulers());
    must_lack(&["Sync", "RefUnwindSafe"], &of_planners());
    must_lack(&["Send", "Sync", "UnwindSafe", "RefUnwindSafe"], &of_their_jobs());
    must_lack(&["Send", "Sync", "RefUnwindSafe"], &traits![plan::Planner<std::rc::Rc<u8>>,]);
    must_lack(&["UnwindSafe"], &of_running_jobs());
    must_lack(&["UnwindSafe"], &traits![fit::FirstFit<&'static mut [u8]>,]);
    // A payload that a job has is as it is elsewhere.
    must_lack(
        &["Sync", "RefUnwindSafe"],
        &traits![
            lanes::Job<Boxed>, lanes::Refused<lanes::SubmitError, Boxed>, lanes::Finding<Boxed>,
            lanes::Found<Boxed>,
        ],
    );
    must_lack(&["Sync", "UnwindSafe", "RefUnwindSafe"], &traits![sched::Allocation<'static, Boxed>,]);
    must_lack(&["Sync", "RefUnwindSafe"], &traits![sched::Rejected<Boxed>,]);
    must_lack(&["Send", "Sync"], &traits![sched::Scheduler<std::rc::Rc<u8>>,]);
}

#[test]
fn no_public_type_is_left_out() {
    let files = [
        ("cubejobs", include_str!("../src/lib.rs")),
        ("cubejobs", include_str!("../src/region.rs")),
        ("fit", include_str!("../src/fit.rs")),
        ("fit", include_str!("../src/fit_memory.rs")),
        ("rounds", include_str!("../src/rounds.rs")),
        ("regions", include_str!("../src/regions.rs")),
        ("regions", include_str!("../src/own_handle.rs")),
        ("lanes", include_str!("../src/lanes.rs")),
        ("plan", include_str!("../src/plan.rs")),
        ("sched", include_str!("../src/sched.rs")),
    ];
    let known = [
        of_machines(),
        of_lanes(),
        of_running_jobs(),
        of_plans(),
        of_planners(),
        of_their_jobs(),
        of_schedulers(),
    ];
    let known: Vec<&str> = known.concat().iter().map(|it| it.0).collect();
    let mut count = 0;
    for (module, text) in files {
        for line in text.lines() {
            let Some(rest) = line.strip_prefix("pub struct ").or(line.strip_prefix("pub enum ")) else {
                continue;
            };
            let end = rest.find(|it: char| !it.is_alphanumeric()).unwrap();
            let name = format!("{module}::{}", &rest[..end]);
            let is_known = |it: &&str| it.split('<').next().unwrap().trim() == name;
            assert!(known.iter().any(is_known), "no test of the auto traits of {name}");
            count += 1;
        }
    }
    assert!(count > 40, "only {count} types were found");
}
