// Made from crates/cubejobs_lanes/src/left_exports.rt by checks/lib/erase.py. Change that file.
//! The calls after the end of lanes, under the names that C declares.

use crate::source::cubejobs_lanes::answers::JobAnswer;
use crate::source::cubejobs_lanes::codes::{DONE, JOB_LEFT};
use crate::source::cubejobs_lanes::handle::Handle;
use crate::source::cubejobs_lanes::handles::lift;
use crate::source::cubejobs_lanes::state::State;
use crate::source::kit::alloc::Global;

/// Returns the first job that is left, and removes it.
///
/// # Clauses of the proved source
///
/// - ensures barred: `left_refusal (content_of owner.old) ≢ DONE → result ≡ no_job (left_refusal (content_of owner.old))`
/// - ensures given: `left_refusal (content_of owner.old) ≡ DONE → On (λ old. On (λ new. GivesJob result old new) (left_in (content_of owner.new))) (left_in (content_of owner.old))`
/// - ensures unchanged: `left_refusal (content_of owner.old) ≢ DONE → owner.new ≡ owner.old`
pub fn cubejobs_lanes_rest(owner: &mut Handle) -> JobAnswer {
    let code = owner.left_code();
    if code != DONE {
        return JobAnswer::none(code);
    }
    let State::Left(left) = owner.ptr.get_mut() else {
        unreachable!()
    };
    left.give()
}

/// Frees a handle of ended lanes, of which no job is left.
///
/// # Clauses of the proved source
///
/// - ensures barred: `left_refusal (content_of owner.old) ≢ DONE → result ≡ left_refusal (content_of owner.old)`
/// - ensures tried: `left_refusal (content_of owner.old) ≡ DONE → On (λ old. ((old.jobs.items ≡ []) × (result ≡ DONE)) ⊎ ((old.jobs.items ≢ []) × (result ≡ JOB_LEFT))) (left_in (content_of owner.old))`
/// - ensures shut: `result ≡ DONE → content_of owner.new ≡ None`
/// - ensures unchanged: `result ≢ DONE → owner.new ≡ owner.old`
pub fn cubejobs_lanes_free(owner: &mut Handle) -> u32 {
    let alloc = Global;
    let code = owner.left_code();
    if code != DONE {
        return code;
    }
    let State::Left(left) = owner.ptr.get_mut() else {
        unreachable!()
    };
    if !left.jobs.is_empty() {
        return JOB_LEFT;
    }
    drop(lift(owner, alloc));
    DONE
}
