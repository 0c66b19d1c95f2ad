//! Makes the same random calls of the archives and of the erased sources, in one process, and compares all answers:
//! `beside CALLS` makes that many of each library. Bad arguments, shut handles and handles of other machines are among
//! them. A difference is a panic that shows both answers.
#![allow(dead_code)]

extern crate alloc;

#[path = "../../rust/src/fit_ffi.rs"]
mod fit_ffi;
#[path = "../../rust/src/over/fit_ffi.rs"]
mod fit_over;
#[path = "../../rust/src/lanes_ffi.rs"]
mod lanes_ffi;
#[path = "../../rust/src/place.rs"]
mod place;
#[path = "../../rust/src/plan_ffi.rs"]
mod plan_ffi;
#[path = "../../rust/src/region.rs"]
mod region;
#[path = "../../rust/src/regions_ffi.rs"]
mod regions_ffi;
#[path = "../../rust/src/rounds_ffi.rs"]
mod rounds_ffi;
#[path = "../../rust/src/sched_ffi.rs"]
mod sched_ffi;
#[path = "../../rust/src/over/sched_ffi.rs"]
mod sched_over;
#[path = "../../rust/src/shared.rs"]
mod shared;
#[path = "../../rust/src/source/mod.rs"]
#[rustfmt::skip]
mod source;

use region::Region;
use source::bitmap_tree::HiddenSeat;
use source::kit::alloc::Global;
use source::kit::fixed_vec::Chunk;
use source::kit::opaque::Opaque;
use source::{
    cubejobs_lanes as jobs, cubejobs_plan as plans, cubejobs_regions as blocks, cubejobs_rounds as rounds,
};

/// Random numbers, by splitmix64.
struct Dice(u64);

impl Dice {
    fn next(&mut self) -> u64 {
        self.0 = self.0.wrapping_add(0x9e37_79b9_7f4a_7c15);
        let mixed = (self.0 ^ self.0 >> 30).wrapping_mul(0xbf58_476d_1ce4_e5b9);
        let mixed = (mixed ^ mixed >> 27).wrapping_mul(0x94d0_49bb_1331_11eb);
        mixed ^ mixed >> 31
    }

    /// Returns a number below a limit.
    fn below(&mut self, limit: u64) -> u64 {
        self.next() % limit
    }

    fn small(&mut self, limit: u32) -> u32 {
        self.below(limit.into()) as u32
    }

    fn place(&mut self, limit: usize) -> usize {
        self.below(limit as u64) as usize
    }
}

/// Compares fields of two answers, or two numbers. Returns the first field, or the number.
macro_rules! same {
    ($what:expr, $one:expr, $other:expr) => {{
        let (one, other) = ($one, $other);
        assert_eq!(one, other, "{}: the archive, and the source", $what);
        one
    }};
    ($what:expr, $one:expr, $other:expr, $first:ident $(, $field:ident)*) => {{
        let (one, other) = ($one, $other);
        assert_eq!((one.$first, $(one.$field),*), (other.$first, $(other.$field),*),
            "{}: the archive, and the source", $what);
        one.$first
    }};
}

/// Memory of an image, at a multiple of 8.
struct Memory(Vec<u64>);

impl Memory {
    /// Returns the first bytes.
    fn bytes(&mut self, count: usize) -> &mut [u8] {
        assert!(count <= 8 * self.0.len());
        // SAFETY: the words have that many bytes, and any eight bytes are a word.
        unsafe { core::slice::from_raw_parts_mut(self.0.as_mut_ptr().cast(), count) }
    }
}

/// Calls first fit, over images and over bytes that are none.
fn call_fit(dice: &mut Dice, calls: u64) {
    let mut done = 0;
    while done < calls {
        let n = dice.small(13);
        let bytes = fit_over::HEAD_BYTES + (2 << n);
        let mut one = Memory((0..bytes.div_ceil(8)).map(|_| dice.next()).collect());
        let mut other = Memory(one.0.clone());
        let (one, other) = (one.bytes(bytes), other.bytes(bytes));
        if dice.below(8) > 0 {
            same!("open", fit_ffi::open(one, n), fit_over::open(other, n));
        }
        for _ in 0..dice.below(2000) {
            // Sometimes a dimension that needs more bytes or fewer, or that no machine has.
            let n = if dice.below(50) == 0 { dice.small(24) } else { n };
            if dice.below(2) == 0 {
                fit_change(dice, n, one, other);
            } else {
                fit_look(dice, n, one, other);
            }
            assert!(done % 64 != 0 || one == other, "the images differ");
            done += 1;
        }
    }
}

/// Returns a base and a dimension: often of a held block, and sometimes of no block.
fn some_block(dice: &mut Dice, n: u32, image: &[u8]) -> (u64, u32) {
    let n = n.min(fit_ffi::MAX_DIM);
    let held = fit_ffi::block_with(image, n, dice.below(1 << n));
    if held.code == fit_ffi::DONE && dice.below(4) > 0 {
        return (held.base, held.dim);
    }
    let k = dice.small(n + 2);
    (dice.below(2 << n) >> k << k | u64::from(dice.below(16) == 0), k)
}

/// Makes a call that may change an image, or changes a byte of it.
fn fit_change(dice: &mut Dice, n: u32, one: &mut [u8], other: &mut [u8]) {
    let ((base, k), less) = (some_block(dice, n, one), dice.small(n + 2));
    match dice.below(200) {
        0 => same!("open", fit_ffi::open(one, n), fit_over::open(other, n)),
        1 | 2 => same!("repair", fit_ffi::repair(one, n), fit_over::repair(other, n)),
        3 => {
            let (at, byte) = (dice.place(one.len()), dice.small(24) as u8);
            (one[at], other[at]) = (byte, byte);
            0
        }
        4..=79 => {
            let k = less.min(dice.small(n + 2));
            same!("take", fit_ffi::take(one, n, k), fit_over::take(other, n, k), code, dim, base)
        }
        80..=89 => {
            let answer = fit_over::take_at(other, n, base, k);
            same!("take_at", fit_ffi::take_at(one, n, base, k), answer, code, dim, base)
        }
        90..=149 => same!("release", fit_ffi::release(one, n, base, k), fit_over::release(other, n, base, k)),
        150..=179 => same!("split", fit_ffi::split(one, n, base, k), fit_over::split(other, n, base, k)),
        _ => {
            let (base, k) = (base >> (k + 1) << (k + 1), k + 1);
            same!("join", fit_ffi::join(one, n, base, k), fit_over::join(other, n, base, k))
        }
    };
}

/// Makes a call that changes nothing.
fn fit_look(dice: &mut Dice, n: u32, one: &[u8], other: &[u8]) {
    let ((base, avoid), k) = (some_block(dice, n, one), dice.small(n + 2));
    match dice.below(8) {
        0 => same!("first", fit_ffi::first(one, n, k), fit_over::first(other, n, k), code, dim, base),
        1 | 2 => {
            let answer = fit_over::first_apart(other, n, k, base, avoid);
            same!("first_apart", fit_ffi::first_apart(one, n, k, base, avoid), answer, code, dim, base)
        }
        3 => {
            let answer = fit_over::block_with(other, n, base);
            same!("block_with", fit_ffi::block_with(one, n, base), answer, code, dim, base)
        }
        4 => {
            let is_free = fit_over::is_free(other, n, base, avoid);
            same!("is_free", fit_ffi::is_free(one, n, base, avoid), is_free).into()
        }
        5 => same!("largest", fit_ffi::largest(one, n), fit_over::largest(other, n), code, dim, base),
        6 => same!("free_blocks", fit_ffi::free_blocks(one, n, k), fit_over::free_blocks(other, n, k)) as u32,
        _ => {
            same!("check", fit_ffi::check(one, n), fit_over::check(other, n));
            let (one, other) = (fit_ffi::occupancy(one, n), fit_over::occupancy(other, n));
            same!("occupancy", one, other, code, largest, has_free, held, free)
        }
    };
}

/// Calls the rounds.
fn call_rounds(dice: &mut Dice, calls: u64) {
    for _ in 0..calls {
        let (shape, k) = (dice.small(5), dice.small(35));
        let ranks = 1_u64 << k.min(40);
        let (root, rank) = (dice.below(ranks + 1), dice.below(ranks + 1));
        let (number, round) = (dice.below(k as u64 * ranks + 2), dice.small(36));
        same!(
            "count",
            rounds_ffi::count(shape, k),
            rounds::cubejobs_message_count(shape, k),
            code,
            rounds,
            messages
        );
        let (one, other) =
            (rounds_ffi::message(shape, k, root, number), rounds::cubejobs_message(shape, k, root, number));
        same!("message", one, other, code, round, from, to);
        let (one, other) = (
            rounds_ffi::step(shape, k, root, rank, round),
            rounds::cubejobs_step(shape, k, root, rank, round),
        );
        same!("step", one, other, code, to, from);
    }
}

const MACHINES: usize = 2;
const THREADS: usize = 3;
const BLOCKS: usize = 40;

/// Handles of both forms, of machines and of blocks.
struct Regions {
    one: Vec<regions_ffi::Handle>,
    other: Vec<blocks::Handle>,
    held: Vec<regions_ffi::BlockHandle>,
    other_held: Vec<blocks::BlockHandle>,
}

impl Regions {
    fn new() -> Self {
        let seat = HiddenSeat::blank;
        let shut = || blocks::Handle { tag: 0, ptr: Opaque::nothing(Global), seat: seat() };
        Regions {
            one: (0..MACHINES * THREADS).map(|_| regions_ffi::Handle::SHUT).collect(),
            other: (0..MACHINES * THREADS).map(|_| shut()).collect(),
            held: (0..BLOCKS).map(|_| regions_ffi::BlockHandle::EMPTY).collect(),
            other_held: (0..BLOCKS)
                .map(|_| blocks::BlockHandle { tag: 0, machine: 0, seat: seat() })
                .collect(),
        }
    }

    fn open(&mut self, at: usize, dim: u32, number: u64) {
        let code = blocks::cubejobs_regions_open_version(&mut self.other[at], blocks::VERSION, dim, number);
        let opened = regions_ffi::open(&mut self.one[at], dim);
        same!("open", opened.err().unwrap_or(regions_ffi::DONE), code);
    }

    /// Makes one of the calls with a block, by a thread's handle of a machine.
    fn call(&mut self, dice: &mut Dice, at: usize, n: u32) {
        let (i, k) = (dice.place(BLOCKS), dice.small(n + 2));
        let base = dice.below(1 << n) >> k.min(n) << k.min(n) | u64::from(dice.below(8) == 0);
        let (one, other) = (&mut self.one[at], &mut self.other[at]);
        let (block, its) = (&mut self.held[i], &mut self.other_held[i]);
        let (what, a, b) = match dice.below(10) {
            0..=2 => ("take", regions_ffi::take(one, block, k), blocks::cubejobs_regions_take(other, its, k)),
            3 => (
                "exact",
                regions_ffi::take_exact(one, block, k),
                blocks::cubejobs_regions_take_exact(other, its, k),
            ),
            4 => {
                let answer = blocks::cubejobs_regions_take_at(other, its, base, k);
                ("take_at", regions_ffi::take_at(one, block, base, k), answer)
            }
            5 => ("block", regions_ffi::block(block), blocks::cubejobs_regions_block(its)),
            _ => {
                let code = blocks::cubejobs_regions_release(other, its);
                same!("release", regions_ffi::release(one, block), code);
                return;
            }
        };
        assert_eq!(
            (a.code(), a.dim(), a.contended, a.base),
            (b.code.into(), b.dim.into(), b.contended, b.base),
            "{what}: the archive, and the source"
        );
    }

    fn halves(&mut self, dice: &mut Dice, at: usize) {
        let (i, j) = (dice.place(BLOCKS - 1), BLOCKS - 1);
        let (one, other) = (&mut self.one[at], &mut self.other[at]);
        let [(left, right), ..] = [self.held.split_at_mut(j)];
        let [(its_left, its_right), ..] = [self.other_held.split_at_mut(j)];
        let (block, half, its, its_half) = (&mut left[i], &mut right[0], &mut its_left[i], &mut its_right[0]);
        let code = blocks::cubejobs_regions_split(other, its, its_half);
        same!("split", regions_ffi::split(one, block, half), code);
        // Sometimes the half of another block, or none.
        if dice.below(3) == 0 {
            let i = dice.place(j);
            let code = blocks::cubejobs_regions_join(other, &mut its_left[i], its_half);
            same!("join", regions_ffi::join(one, &mut left[i], half), code);
        } else {
            let code = blocks::cubejobs_regions_join(other, its, its_half);
            same!("join", regions_ffi::join(one, block, half), code);
        }
        let code = blocks::cubejobs_regions_release(other, its_half);
        same!("release", regions_ffi::release(one, half), code);
    }

    fn look(&mut self, at: usize) {
        let (one, other) = (&mut self.one[at], &mut self.other[at]);
        let (one, other) = (regions_ffi::occupancy(one), blocks::cubejobs_regions_occupancy(other));
        same!("occupancy", one, other, code, largest, has_free, held, free);
    }

    fn free(&mut self, at: usize) {
        let code = blocks::cubejobs_regions_free(&mut self.other[at]);
        same!("free", regions_ffi::free(&mut self.one[at]), code);
    }

    /// Gives the handles after the first of a machine.
    fn share(&mut self, first: usize) {
        for at in first + 1..first + THREADS {
            let (left, right) = self.one.split_at_mut(at);
            let (its_left, its_right) = self.other.split_at_mut(at);
            let code = blocks::cubejobs_regions_share(&mut its_left[first], &mut its_right[0]);
            same!("share", regions_ffi::share(&mut left[first], &mut right[0]), code);
        }
    }
}

/// Calls the lock-free allocator, with two machines of three handles each.
fn call_regions(dice: &mut Dice, calls: u64) {
    let (mut done, mut number) = (0, 0);
    while done < calls {
        let (mut regions, dims) = (Regions::new(), [dice.small(14), dice.small(21)]);
        for (machine, dim) in dims.into_iter().enumerate() {
            number += 1;
            regions.open(THREADS * machine, dim, number);
            regions.share(THREADS * machine);
        }
        for _ in 0..dice.below(6000) {
            let at = dice.place(MACHINES * THREADS);
            match dice.below(400) {
                0 => regions.look(at),
                1 => regions.free(at),
                2 => regions.share(at / THREADS * THREADS),
                3..=60 => regions.halves(dice, at),
                _ => regions.call(dice, at, dims[at / THREADS]),
            }
            done += 1;
        }
        (0..MACHINES * THREADS).rev().for_each(|at| regions.free(at));
    }
}

const SIDES: usize = 4;

/// The handles of lanes, in both forms.
struct Sides {
    owner: lanes_ffi::Lanes,
    lanes: Vec<lanes_ffi::OneLane>,
    workers: Vec<lanes_ffi::OneWorker>,
    other: jobs::Handle,
    other_lanes: Vec<jobs::Handle>,
    other_workers: Vec<jobs::Handle>,
}

fn shut() -> jobs::Handle {
    jobs::Handle { tag: 0, ptr: Opaque::nothing(Global) }
}

impl Sides {
    fn new() -> Self {
        Sides {
            owner: lanes_ffi::Lanes::SHUT,
            lanes: (0..SIDES).map(|_| lanes_ffi::OneLane::SHUT).collect(),
            workers: (0..SIDES).map(|_| lanes_ffi::OneWorker::SHUT).collect(),
            other: shut(),
            other_lanes: (0..SIDES).map(|_| shut()).collect(),
            other_workers: (0..SIDES).map(|_| shut()).collect(),
        }
    }
}

/// Makes a call of both forms: `call!(name (handle, its), ..; numbers => fields)`.
macro_rules! call {
    ($name:ident $(($one:expr, $other:expr)),+; $($number:expr),* $(=> $($field:ident),+)?) => {
        same!(stringify!($name), lanes_ffi::$name($(&mut $one,)+ $($number),*),
            jobs::$name($(&mut $other,)+ $($number),*) $(, $($field),+)?)
    };
}

fn sizes_of(dice: &mut Dice) -> (lanes_ffi::Sizes, jobs::LaneSizes) {
    let (lanes, workers, capacity) =
        (dice.small(6), dice.small(6), dice.below(9) + 1024 * (dice.below(30) / 29));
    (lanes_ffi::Sizes { lanes, workers, capacity }, jobs::LaneSizes { lanes, workers, capacity })
}

/// Compares a wake, whose answers have other names.
fn same_wake(one: lanes_ffi::Numbered, other: jobs::WakeAnswer) {
    assert_eq!((one.code, one.number), (other.code, other.worker), "wake: the archive, and the source");
}

/// Calls the lanes.
fn call_lanes(dice: &mut Dice, calls: u64) {
    let mut done = 0;
    while done < calls {
        let mut it = Sides::new();
        let (one, other) = sizes_of(dice);
        let opened = jobs::cubejobs_lanes_open_version(&mut it.other, jobs::VERSION, other);
        same!("open", lanes_ffi::cubejobs_lanes_open_version(&mut it.owner, jobs::VERSION, one), opened);
        for _ in 0..dice.below(5000) {
            lanes_call(dice, &mut it);
            done += 1;
        }
        end_lanes(&mut it);
        done += 1;
    }
}

fn lanes_call(dice: &mut Dice, it: &mut Sides) {
    let (i, from, dim) = (dice.place(SIDES), dice.small(6), dice.small(70));
    let payload = dice.next();
    match dice.below(40) {
        0 => call!(cubejobs_lanes_lane (it.owner, it.other), (it.lanes[i], it.other_lanes[i]);),
        1 => call!(cubejobs_lanes_worker (it.owner, it.other), (it.workers[i], it.other_workers[i]);),
        2 => call!(cubejobs_lanes_worker_number (it.workers[i], it.other_workers[i]); => code, number),
        3..=16 => call!(cubejobs_lanes_submit (it.lanes[i], it.other_lanes[i]); payload, dim => code, seq),
        17..=18 => {
            let other = jobs::cubejobs_lanes_wake(&mut it.other_lanes[i]);
            same_wake(lanes_ffi::cubejobs_lanes_wake(&mut it.lanes[i]), other);
            0
        }
        19..=24 => call!(cubejobs_lanes_take (it.workers[i], it.other_workers[i]); from
            => code, lane, dim, seq, payload, left),
        25..=27 => call!(cubejobs_lanes_take_any (it.workers[i], it.other_workers[i]); from
            => code, lane, dim, seq, payload, left),
        28 => call!(cubejobs_lanes_look (it.workers[i], it.other_workers[i]); from => code, jobs),
        29..=34 => call!(cubejobs_lanes_find (it.workers[i], it.other_workers[i]); from
            => code, lane, dim, woken, seq, payload, left),
        35 => call!(cubejobs_lanes_awake (it.workers[i], it.other_workers[i]);),
        36 => call!(cubejobs_lanes_free_lane (it.lanes[i], it.other_lanes[i]);),
        37 => call!(cubejobs_lanes_free_worker (it.workers[i], it.other_workers[i]);),
        38 if dice.below(90) == 0 => call!(cubejobs_lanes_close (it.owner, it.other); => code, accepted),
        39 if dice.below(90) == 0 => call!(cubejobs_lanes_finish (it.owner, it.other); => code, number),
        _ => call!(cubejobs_lanes_rest (it.owner, it.other); => code, lane, dim, seq, payload, left),
    };
}

/// Ends lanes as far as they can be ended.
fn end_lanes(it: &mut Sides) {
    for at in 0..SIDES {
        call!(cubejobs_lanes_free_lane (it.lanes[at], it.other_lanes[at]););
        call!(cubejobs_lanes_free_worker (it.workers[at], it.other_workers[at]););
    }
    call!(cubejobs_lanes_close (it.owner, it.other); => code, accepted);
    call!(cubejobs_lanes_finish (it.owner, it.other); => code, number);
    let mut code = jobs::DONE;
    while code == jobs::DONE {
        code = call!(cubejobs_lanes_rest (it.owner, it.other); => code, lane, dim, seq, payload, left);
    }
    call!(cubejobs_lanes_free (it.owner, it.other););
}

/// A planner in both forms, with the tickets of all its jobs, and 0.
struct Plan {
    one: plan_ffi::Handle,
    other: plans::Handle,
    tickets: Vec<u64>,
    now: u64,
}

/// Compares two answers about a job. Returns the ticket.
fn same_job(what: &str, one: plan_ffi::Job, other: plans::PlanJob) -> u64 {
    same!(what, one, other, ticket, code, state, payload, base, time, before, arrival, processors, dim, job_class)
}

impl Plan {
    fn new() -> Self {
        let other = plans::Handle { tag: 0, at: Opaque::nothing(Global) };
        Plan { one: plan_ffi::Handle::SHUT, other, tickets: vec![0], now: 0 }
    }

    fn open(&mut self, dim: u32, jobs: u32, patience: u32) {
        let flags = u32::from(jobs == 3);
        let one = plan_ffi::open(&mut self.one, plan_ffi::Options { dim, jobs, patience, flags });
        let options = plans::Options { dim, jobs, patience, flags };
        let none = Chunk { at: std::ptr::null_mut(), words: 0 };
        same!("open", one, plans::cubejobs_plan_open_version(&mut self.other, plans::VERSION, options, none, 0));
    }

    fn submit(&mut self, dice: &mut Dice, dim: u32) {
        let (large, classes) = (1 + dice.small((1 << dim) + 2), 1 + dice.small(9));
        let (processors, job_class) = (dice.small(large) + dice.small(2), dice.small(classes));
        let estimate = [0, dice.below(20), dice.below(200), u64::MAX - dice.below(3)][dice.place(4)];
        let payload = dice.next();
        let one = plan_ffi::Request { payload, estimate, processors, job_class };
        let other = plans::JobRequest { payload, estimate, processors, job_class };
        let one = plan_ffi::submit(&mut self.one, one);
        let ticket = same_job("submit", one, plans::cubejobs_plan_submit(&mut self.other, other));
        self.tickets.push(ticket);
    }

    /// Ends a job, or asks of it, by a ticket of a job that may be over, or by any number.
    fn call(&mut self, dice: &mut Dice) {
        let known = self.tickets[dice.place(self.tickets.len())];
        let ticket = if dice.below(20) == 0 { known ^ 1 << dice.below(64) } else { known };
        let (one, other) = (&mut self.one, &mut self.other);
        match dice.below(6) {
            0 => same_job("cancel", plan_ffi::cancel(one, ticket), plans::cubejobs_plan_cancel(other, ticket)),
            1..=3 => same_job("finish", plan_ffi::finish(one, ticket), plans::cubejobs_plan_finish(other, ticket)),
            4 => same_job("after", plan_ffi::after(one, ticket), plans::cubejobs_plan_after(other, ticket)),
            _ => same_job("forecast", plan_ffi::forecast(one, ticket), plans::cubejobs_plan_forecast(other, ticket)),
        };
    }

    fn use_block(&mut self, dice: &mut Dice, dim: u32) {
        let most = dice.small(dim + 2);
        let k = dice.small(most + 1);
        let base = dice.below(2 << dim) >> k << k | u64::from(dice.below(20) == 0);
        let (one, other) = (&mut self.one, &mut self.other);
        match dice.below(2) {
            0 => same!("occupy", plan_ffi::occupy(one, base, k), plans::cubejobs_plan_occupy(other, base, k)),
            _ => same!("vacate", plan_ffi::vacate(one, base, k), plans::cubejobs_plan_vacate(other, base, k)),
        };
    }

    fn next(&mut self, dice: &mut Dice) {
        self.now += dice.below(2) * dice.below(30);
        let now = [self.now.wrapping_sub(1), u64::MAX, self.now][dice.place(40).min(2)];
        same_job("next", plan_ffi::next(&mut self.one, now), plans::cubejobs_plan_next(&mut self.other, now));
    }

    fn count(&mut self) {
        let other = plans::cubejobs_plan_counts(&mut self.other);
        same!("counts", plan_ffi::counts(&mut self.one), other, code, waiting, running, held, asked, occupied, largest);
    }

    fn close(&mut self) {
        same!("close", plan_ffi::close(&mut self.one), plans::cubejobs_plan_close(&mut self.other));
    }
}

/// Calls planners, one after another. Some are shut, or refuse their options.
fn call_plan(dice: &mut Dice, calls: u64) {
    let mut done = 0;
    while done < calls {
        let (mut plan, dim) = (Plan::new(), dice.small(12));
        let wrong = 20 * u32::from(dice.below(20) == 0);
        plan.open(dim + wrong, [1, 3, 10, 0, 1000][dice.place(8).min(4)], dice.small(4));
        let most = dice.below(3000);
        for call in 0..most {
            match dice.below(16) {
                0..=4 => plan.submit(dice, dim),
                5..=8 => plan.call(dice),
                9 => plan.use_block(dice, dim),
                10 => plan.count(),
                11 if call + 20 > most => plan.close(),
                _ => plan.next(dice),
            }
        }
        plan.close();
        done += most;
    }
}

/// A scheduler for threads in both forms, with the tickets of all its jobs, and 0.
struct Sched {
    one: sched_ffi::Handle,
    other: sched_over::Handle,
    tickets: Vec<u64>,
    now: u64,
}

/// Compares two answers of a scheduler. Returns the ticket.
fn same_answer(what: &str, one: sched_ffi::Answer, other: sched_over::Answer) -> u64 {
    same!(what, one.woken(), other.woken());
    same!(what, one, other, ticket, code, count, more, over, payload, base, processors, worker)
}

impl Sched {
    fn open(dice: &mut Dice, dim: u32) -> Self {
        let (jobs, workers) = ([1, 3, 10, 0, 1000][dice.place(8).min(4)], [1, 0, 2, 5, 20][dice.place(9).min(4)]);
        let (mut one, mut other) = (sched_ffi::shut(), sched_over::shut());
        let (dim, patience) = (dim + 20 * u32::from(dice.below(20) == 0), dice.small(4));
        let made = sched_ffi::open(&mut one, sched_ffi::Options { dim, jobs, patience, workers });
        same!("open", made, sched_over::open(&mut other, sched_over::Options { dim, jobs, patience, workers }));
        Sched { one, other, tickets: vec![0], now: 0 }
    }

    /// Returns a time: this one or a later one, seldom an earlier one, and the last of all.
    fn time(&mut self, dice: &mut Dice) -> u64 {
        self.now += dice.below(2) * dice.below(30);
        [self.now.wrapping_sub(5), u64::MAX, self.now][dice.place(40).min(2)]
    }

    fn submit(&mut self, dice: &mut Dice, dim: u32) {
        let (large, classes) = (1 + dice.small((1 << dim) + 2), 1 + dice.small(9));
        let (processors, job_class) = (dice.small(large) + dice.small(2), dice.small(classes));
        let estimate = [0, dice.below(20), dice.below(200), u64::MAX - dice.below(3)][dice.place(4)];
        let (payload, now) = (dice.next(), self.time(dice));
        let one = sched_ffi::Request { payload, estimate, processors, job_class };
        let other = sched_over::Request { payload, estimate, processors, job_class };
        let one = sched_ffi::submit(&mut self.one, one, now);
        let ticket = same_answer("submit", one, sched_over::submit(&mut self.other, other, now));
        self.tickets.push(ticket);
    }

    /// Cancels a job, or looks for it, by a ticket of a job that may be over, or by any number.
    fn call(&mut self, dice: &mut Dice) {
        let known = self.tickets[dice.place(self.tickets.len())];
        let ticket = if dice.below(20) == 0 { known ^ 1 << dice.below(64) } else { known };
        let now = self.time(dice);
        let (one, other) = (&mut self.one, &mut self.other);
        if dice.below(2) == 0 {
            same_answer("cancel", sched_ffi::cancel(one, ticket, now), sched_over::cancel(other, ticket, now));
            return;
        }
        let (one, other) = (sched_ffi::forecast(one, ticket), sched_over::forecast(other, ticket));
        same!("forecast", one, other, code, state, base, time, dim);
    }

    /// Makes a call of a worker, which may not be out, or not be there.
    fn work(&mut self, dice: &mut Dice) {
        let (worker, now) = (dice.small(4) + 18 * u32::from(dice.below(20) == 0), self.time(dice));
        let (one, other) = (&mut self.one, &mut self.other);
        match dice.below(20) {
            0..=2 => same_answer("worker", sched_ffi::worker(one), sched_over::worker(other)),
            3 => same_answer("give up", sched_ffi::give_up(one, worker, now), sched_over::give_up(other, worker, now)),
            4 => same_answer("done", sched_ffi::done(one, worker, now), sched_over::done(other, worker, now)),
            5 => same_answer("leave", sched_ffi::leave(one, worker, now), sched_over::leave(other, worker, now)),
            6 => same_answer("lost", sched_ffi::lost(one, worker, now), sched_over::lost(other, worker, now)),
            _ => same_answer("next", sched_ffi::next(one, worker, now), sched_over::next(other, worker, now)),
        };
    }

    fn use_block(&mut self, dice: &mut Dice, dim: u32) {
        let most = dice.small(dim + 2);
        let k = dice.small(most + 1);
        let base = dice.below(2 << dim) >> k << k | u64::from(dice.below(20) == 0);
        let now = self.time(dice);
        let (one, other) = (&mut self.one, &mut self.other);
        match dice.below(2) {
            0 => same_answer("occupy", sched_ffi::occupy(one, base, k, now), sched_over::occupy(other, base, k, now)),
            _ => same_answer("vacate", sched_ffi::vacate(one, base, k, now), sched_over::vacate(other, base, k, now)),
        };
    }

    fn look(&mut self, dice: &mut Dice) {
        let now = self.time(dice);
        let (one, other) = (sched_ffi::counts(&mut self.one), sched_over::counts(&mut self.other));
        same!("counts", one, other, code, waiting, running, held, asked, occupied);
        let (one, other) = (&mut self.one, &mut self.other);
        same_answer("settle", sched_ffi::settle(one, now), sched_over::settle(other, now));
        same!("free", sched_ffi::free(one), sched_over::free(other));
    }

    /// Closes the scheduler, takes back what waits, ends what runs, and frees it.
    fn end(&mut self, dice: &mut Dice) {
        let (mode, now) = (dice.small(3), self.time(dice));
        let (one, other) = (&mut self.one, &mut self.other);
        same_answer("close", sched_ffi::close(one, mode, now), sched_over::close(other, mode, now));
        for after in 0..20 {
            same_answer("rest", sched_ffi::rest(one, after), sched_over::rest(other, after));
            same_answer("lost", sched_ffi::lost(one, after, now), sched_over::lost(other, after, now));
        }
    }
}

/// Calls schedulers for threads by one thread, one after another. Some are shut, or refuse their options.
fn call_sched(dice: &mut Dice, calls: u64) {
    let mut done = 0;
    while done < calls {
        let dim = dice.small(12);
        let (mut sched, most) = (Sched::open(dice, dim), dice.below(3000));
        for call in 0..most {
            match dice.below(16) {
                0..=4 => sched.submit(dice, dim),
                5 | 6 => sched.call(dice),
                7 => sched.use_block(dice, dim),
                8 => sched.look(dice),
                9 if call + 40 > most => sched.end(dice),
                _ => sched.work(dice),
            }
        }
        sched.end(dice);
        done += most;
    }
}

fn main() {
    let calls = std::env::args().nth(1).and_then(|word| word.parse().ok()).expect("beside CALLS");
    let mut dice = Dice(1);
    call_fit(&mut dice, calls);
    call_rounds(&mut dice, calls);
    call_regions(&mut dice, calls);
    call_lanes(&mut dice, calls);
    call_plan(&mut dice, calls);
    call_sched(&mut dice, calls);
    println!("{calls} calls of each library, and all answers are the same");
}
