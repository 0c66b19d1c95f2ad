// Made from crates/release_version/src/lib.rt by checks/lib/erase.py. Change that file.
//! The version of the program and of the libraries.

/// The version as a text, as semver.org defines it. Between two releases it ends in `-dev`.
pub const VERSION: &str = "0.3.0-dev";

/// The version as a number: 10,000 times the first part, plus 100 times the second, plus the third.
pub const VERSION_NUMBER: u32 = 300;
