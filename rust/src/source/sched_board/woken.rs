// Made from crates/sched_board/src/woken.rt by checks/lib/erase.py. Change that file.
//! The workers that got a job in a turn.

/// How many workers get a job in one turn at most.
pub const MOST_WOKEN: u32 = 4;

/// Workers that got a job. The first `count` fields name them.
#[derive(Clone, Copy, Debug, PartialEq, Eq, Hash)]
pub struct Woken {
    /// How many there are.
    pub count: u32,
    /// The worker that got a job first.
    pub first: u32,
    /// The next one.
    pub second: u32,
    /// The next one.
    pub third: u32,
    /// The last one.
    pub fourth: u32,
}

impl Woken {
    /// No worker.
    pub const NONE: Woken = Woken {
        count: 0,
        first: 0,
        second: 0,
        third: 0,
        fourth: 0,
    };

    /// Adds a worker.
    pub(crate) fn add(self, worker: u32) -> Woken {
        let count = self.count + 1;
        match self.count {
            0 => Woken {
                count,
                first: worker,
                ..self
            },
            1 => Woken {
                count,
                second: worker,
                ..self
            },
            2 => Woken {
                count,
                third: worker,
                ..self
            },
            _ => Woken {
                count,
                fourth: worker,
                ..self
            },
        }
    }
}
