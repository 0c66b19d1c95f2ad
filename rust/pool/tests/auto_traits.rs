//! The auto traits of each public type. They are the same over the libraries and in plain Rust.

use cubejobs_pool::{
    Builder, Cancelled, Client, ClientError, Group, Pool, Reason, Refused, Scope, ScopeTicket, Ticket,
};
use std::cell::Cell;

/// What can be sent, and not shared.
type Boxed = Box<Cell<u8>>;

/// Whether a type is of a trait.
macro_rules! is {
    ($type:ty: $bound:path) => {{
        #[allow(dead_code)] // one of the two constants is not read
        trait Otherwise {
            const IS: bool = false;
        }
        impl<T> Otherwise for T {}
        struct Probe<T>(std::marker::PhantomData<T>);
        #[allow(dead_code)]
        impl<T: $bound> Probe<T> {
            const IS: bool = true;
        }
        <Probe<$type>>::IS
    }};
}

/// The name of each type, with the names of its auto traits.
macro_rules! traits {
    ($($type:ty,)*) => {
        [$((
            stringify!($type),
            [
                ("Send", is!($type: Send)),
                ("Sync", is!($type: Sync)),
                ("Unpin", is!($type: Unpin)),
                ("UnwindSafe", is!($type: std::panic::UnwindSafe)),
                ("RefUnwindSafe", is!($type: std::panic::RefUnwindSafe)),
            ],
        )),*]
    };
}

type Traits = [(&'static str, bool); 5];

/// Panics unless each type has exactly the traits that are not left out.
fn must_lack(left_out: &[&str], types: &[(&str, Traits)]) {
    for (name, traits) in types {
        for (bound, is) in traits {
            assert_eq!(*is, !left_out.contains(bound), "{name}: {bound}");
        }
    }
}

#[test]
fn each_type_has_its_auto_traits() {
    must_lack(
        &[],
        &traits![Cancelled, Client, ClientError, Pool, Reason, Refused<fn()>, Ticket<u64>, Ticket<Boxed>,],
    );
    // Its start handler is a closure of the user's.
    must_lack(&["UnwindSafe", "RefUnwindSafe"], &traits![Builder,]);
    // What borrows the surroundings of a scope is as a `&mut` is.
    must_lack(
        &["UnwindSafe"],
        &traits![Scope<'static, 'static>, ScopeTicket<'static, u64>, ScopeTicket<'static, Boxed>,],
    );
    // It speaks for its worker.
    must_lack(&["Send", "Sync"], &traits![Group<'static>,]);
}
