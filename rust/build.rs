//! Links the proved libraries: `libcubejobs_fit.a` and `libcubejobs_rounds.a`, and for the features
//! `lanes`, `plan`, `regions` and `sched` one more each. They are in the folder that `CUBEJOBS_LIB` names,
//! or else in `lib/`, which has copies of the files of `release/`: `lib/aarch64` those for aarch64.
//! With the feature `source`, for another target, and for aarch64 without files for it, it links
//! nothing.

use std::env;
use std::path::{Path, PathBuf};
use std::process::ExitCode;

fn main() -> ExitCode {
    match link() {
        Ok(()) => ExitCode::SUCCESS,
        Err(reason) => {
            eprintln!("{reason}");
            ExitCode::FAILURE
        }
    }
}

/// Returns the folder of the libraries for the target, if there are any.
fn folder_of(package: &Path) -> Option<PathBuf> {
    let of_target = |name| env::var(name).unwrap_or_default();
    let own = match of_target("CARGO_CFG_TARGET_ARCH").as_str() {
        "x86_64" => package.join("lib"),
        "aarch64" => package.join("lib/aarch64"),
        _ => return None,
    };
    if of_target("CARGO_CFG_TARGET_OS") != "linux" || env::var_os("CARGO_FEATURE_SOURCE").is_some() {
        return None;
    }
    println!("cargo::rerun-if-env-changed=CUBEJOBS_LIB");
    match env::var_os("CUBEJOBS_LIB") {
        Some(folder) => Some(PathBuf::from(folder)),
        None if own.ends_with("aarch64") && !own.exists() => {
            println!("cargo::rerun-if-changed={}", package.join("lib").display());
            None
        }
        None => Some(own),
    }
}

fn link() -> Result<(), String> {
    println!("cargo::rustc-check-cfg=cfg(cubejobs_archives)");
    println!("cargo::rerun-if-changed=build.rs");
    // Read as the script runs: cargo may have compiled it in another copy of the package.
    let package = env::var_os("CARGO_MANIFEST_DIR").ok_or("cargo has not set CARGO_MANIFEST_DIR")?;
    let Some(folder) = folder_of(Path::new(&package)) else {
        return Ok(());
    };
    let lanes = env::var_os("CARGO_FEATURE_LANES").map(|_| "libcubejobs_lanes.a");
    let plan = env::var_os("CARGO_FEATURE_PLAN").map(|_| "libcubejobs_plan.a");
    let regions = env::var_os("CARGO_FEATURE_REGIONS").map(|_| "libcubejobs_regions.a");
    let sched = env::var_os("CARGO_FEATURE_SCHED").map(|_| "libcubejobs_sched.a");
    let chosen = [lanes, plan, regions, sched].into_iter().flatten();
    for name in ["libcubejobs_fit.a", "libcubejobs_rounds.a"].into_iter().chain(chosen) {
        let library = folder.join(name);
        println!("cargo::rerun-if-changed={}", library.display());
        if !library.exists() {
            return Err(format!(
                "there is no {}: set CUBEJOBS_LIB to the folder of {name}, or take a clone whose release/ has it",
                library.display()
            ));
        }
    }
    println!("cargo::rustc-link-search=native={}", folder.display());
    println!("cargo::rustc-cfg=cubejobs_archives");
    Ok(())
}
