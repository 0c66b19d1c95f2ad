// Made from crates/cubejobs_lanes/src/version.rt by checks/lib/erase.py. Change that file.
//! The version of the library, as a number.

use crate::source::release_version::VERSION_NUMBER;

/// Returns the version of the library: `CUBEJOBS_VERSION_NUMBER` of the header that it came with.
///
/// # Clauses of the proved source
///
/// - ensures version: `result ≡ VERSION_NUMBER`
pub fn cubejobs_lanes_version_number() -> u32 {
    VERSION_NUMBER
}
