// Made from crates/cubejobs_rounds/src/answers.rt by checks/lib/erase.py. Change that file.
//! The structs that callers in C see.

/// The number that names no rank.
pub const NO_RANK: u64 = 18446744073709551615;

/// The answer of `cubejobs_message_count`.
#[repr(C)]
#[derive(Clone, Copy, Debug)]
pub struct CountAnswer {
    /// `DONE`, or why the call was refused.
    pub code: u32,
    /// The number of rounds if the call succeeded, else 0.
    pub rounds: u32,
    /// The number of messages of all rounds if the call succeeded, else 0.
    pub messages: u64,
}

/// The answer of `cubejobs_message`.
#[repr(C)]
#[derive(Clone, Copy, Debug)]
pub struct MessageAnswer {
    /// `DONE`, or why the call was refused.
    pub code: u32,
    /// The round of the message if the call succeeded, else 0.
    pub round: u32,
    /// The rank that sends it if the call succeeded, else `NO_RANK`.
    pub from: u64,
    /// The rank that receives it if the call succeeded, else `NO_RANK`.
    pub to: u64,
}

/// The answer of `cubejobs_step`.
#[repr(C)]
#[derive(Clone, Copy, Debug)]
pub struct StepAnswer {
    /// `DONE`, or why the call was refused.
    pub code: u32,
    /// The rank that this rank sends to, or `NO_RANK`.
    pub to: u64,
    /// The rank that this rank receives from, or `NO_RANK`.
    pub from: u64,
}

/// Returns the number of a partner, or `NO_RANK`.
pub(crate) fn number_of(partner: Option<u64>) -> u64 {
    partner.unwrap_or(NO_RANK)
}
