#!/bin/sh
# Tests the Rust package over the libraries for C of a folder: `checks/run ffi_rust FOLDER`. Each warning of rustc,
# clippy and rustdoc is an error. The tests, documents and examples are of FOLDER's libraries, and so is a program that
# names the package by its path. `cargo package` and `cargo vendor` take the libraries of release/: what they make is
# built with nothing of the repository beside it. A missing library is a sentence. The form of plain Rust passes the same
# tests and examples, also those of the pool, and asks for no library. A target that has none takes that form.
set -eu
lib=$(cd "$1" && pwd)
cd "$(dirname "$0")/../../rust"
package=$PWD
work=$(mktemp -d)
trap 'rm -rf -- "$work"' EXIT
export CARGO_TARGET_DIR="$work/target" CARGO_TERM_COLOR=never CUBEJOBS_LIB="$lib"
export RUSTFLAGS=-Dwarnings RUSTDOCFLAGS=-Dwarnings

# Runs a command. Its output is kept in a log, and shown if it fails.
quiet() {
    "$@" > "$work/log" 2>&1 || { echo "ffi: this fails: $*"; cat "$work/log"; exit 1; }
}

# refused SENTENCE COMMAND..: the command fails, and says this on a line of its own, and no panic.
refused() {
    sentence=$1
    shift
    if "$@" > "$work/log" 2>&1; then
        echo "ffi: this succeeds, and should not: $*"
        exit 1
    fi
    if ! grep -q "^ *$sentence\$" "$work/log" || grep -q panicked "$work/log"; then
        echo "ffi: no '$sentence':"
        cat "$work/log"
        exit 1
    fi
}

# shows TEXT COMMAND..: the command succeeds, and this is the last line of what it shows.
shows() {
    text=$1
    shift
    quiet "$@"
    [ "$(tail -n 1 "$work/log")" = "$text" ] || { echo "ffi: not '$text':"; cat "$work/log"; exit 1; }
}

# user FOLDER DEPENDENCY: a program of one's own.
user() {
    mkdir -p "$1/src"
    printf '[package]\nname = "user"\nversion = "0.1.0"\nedition = "2021"\n[dependencies]\ncubejobs = %s\n' "$2" \
        > "$1/Cargo.toml"
    cp "$package/examples/jobs.rs" "$1/src/main.rs"
}

# batch WORD.. < INPUT: a line of the example `batch` with its sums, whose two numbers add up to the jobs of the file.
batch() {
    quiet cargo run --quiet --offline --example batch -- "$work/jobs" "$@"
    set -- $(tail -n 1 "$work/log")
    [ "$(($1 + $6))" = 60 ] || { echo "ffi: $1 jobs and $6 are not 60:"; cat "$work/log"; exit 1; }
    ended=$1
}

# event_loop WORD..: the example, built with these words, obeys a file of lines. The first job waits until the second one
# is cancelled, so the order of what it shows is known.
event_loop() {
    quiet cargo build --quiet --offline "$@" --example event_loop
    "$CARGO_TARGET_DIR/debug/examples/event_loop" 2 < "$work/lines" > "$work/shown" 2> "$work/said" \
        || { echo "ffi: event_loop fails:"; cat "$work/said"; exit 1; }
    cat "$work/shown" "$work/said" | diff "$work/wanted" - > "$work/log" \
        || { echo "ffi: event_loop, wanted and shown:"; cat "$work/log"; exit 1; }
}

libraries='libcubejobs_fit.a libcubejobs_rounds.a libcubejobs_lanes.a libcubejobs_plan.a libcubejobs_regions.a
libcubejobs_sched.a'
jobs='40 jobs ran on 248 processors in all'
first_fit='0..2 4..8, then: a part of each block of this dimension is in use'
groups='3000 jobs on groups of 16 workers'
tasks='8 tasks ran jobs with a sum of 499500'
blocks='4000 blocks with 24800 processors in all'
global_alloc='59452000 bytes in vectors, and each had one owner'

quiet cargo test --offline
for features in '' lanes 'lanes std' plan 'plan std' regions 'regions std' sched 'lanes regions'; do
    quiet cargo check --offline --no-default-features --features "$features" --all-targets
done
if cargo clippy --version > "$work/log" 2>&1; then
    quiet cargo clippy --offline --all-targets
else
    echo "ffi: no clippy here"
fi
quiet cargo doc --offline --no-deps
shows "$first_fit" cargo run --quiet --offline --example first_fit
shows "$groups" cargo run --quiet --offline --example groups
shows "$blocks" cargo run --quiet --offline --example blocks
shows "$global_alloc" cargo run --quiet --offline --example global_alloc
shows "$jobs" cargo run --quiet --offline --example jobs
shows 55 cargo run --quiet --offline --example park
shows "$tasks" cargo run --quiet --offline --example tasks
awk 'BEGIN { for (i = 0; i < 60; i++) print 1 + i % 16, i * 7 % 20 }' > "$work/jobs"
batch < /dev/null
[ "$ended" = 60 ] || { echo "ffi: only $ended jobs have ended"; exit 1; }
batch --stop-after 10 < /dev/null
[ "$ended" -ge 10 ] && [ "$ended" -lt 20 ] || { echo "ffi: $ended jobs have ended, and not about 10"; exit 1; }
echo q | batch
batch --stop-after 0 < /dev/null
[ "$ended" = 0 ] || { echo "ffi: $ended jobs have ended, and not 0"; exit 1; }
: > "$work/empty"
shows '0 jobs have ended, and 0 are left' cargo run --quiet --offline --example batch -- "$work/empty" < /dev/null
printf '1 5\n17 5\n' > "$work/wrong"
refused 'Error: "line 2: the processors are a number from 1 to 16"' \
    cargo run --quiet --offline --example batch -- "$work/wrong" < /dev/null
printf '1 5\n\n' > "$work/wrong"
refused 'Error: "line 2: a job is PROCESSORS MILLISECONDS"' \
    cargo run --quiet --offline --example batch -- "$work/wrong" < /dev/null
cat > "$work/lines" << END
4 0 until grep -q '^2 is cancelled' '$work/shown'; do sleep 0.01; done
2 9 true
3 0 exit 7
4 1 echo "on \$CUBEJOBS_PROCESSORS"
5 1 true
1 1
x 1 true

cancel 5
cancel 1
cancel 2
4 0 kill \$\$
END
cat > "$work/wanted" << 'END'
1 starts on 0-3
2 is cancelled
1 ends with 0
3 starts on 0-2
3 ends with 7
4 starts on 0-3
on 0-3
4 ends with 0
5 starts on 0-3
5 was ended by a signal
'5 1 true': the number of processors or the class is out of range
'1 1': there is no command
'x 1 true': invalid digit found in string
'': there is no command
'cancel 5': no such job
'cancel 1': the job runs and cannot be cancelled, or it waits and cannot end
END
event_loop
echo "ffi: the tests, documents and examples of the Rust package pass, with no warning"

user "$work/user" "{ path = \"$package\" }"
shows "$jobs" cargo run --quiet --offline --manifest-path "$work/user/Cargo.toml"
mkdir "$work/some"
for name in $libraries; do
    sentence="set CUBEJOBS_LIB to the folder of $name, or take a clone whose release/ has it"
    refused "there is no $work/some/$name: $sentence" \
        env CUBEJOBS_LIB="$work/some" cargo build --offline --manifest-path "$work/user/Cargo.toml"
    cp -- "$lib/$name" "$work/some"
done
quiet rustc --edition 2021 build.rs -o "$work/script"
for target in 'linux on riscv64' 'macos on x86_64' 'macos on aarch64'; do
    shows 'cargo::rerun-if-changed=build.rs' env CARGO_MANIFEST_DIR="$work/some" CARGO_CFG_TARGET_OS="${target% on *}" \
        CARGO_CFG_TARGET_ARCH="${target#* on }" "$work/script"
done
aarch64="env -u CUBEJOBS_LIB CARGO_MANIFEST_DIR=$work/some CARGO_CFG_TARGET_OS=linux CARGO_CFG_TARGET_ARCH=aarch64"
shows "cargo::rerun-if-changed=$work/some/lib" $aarch64 "$work/script"
mkdir -p "$work/some/lib/aarch64"
refused "there is no $work/some/lib/aarch64/libcubejobs_fit.a: .*" $aarch64 "$work/script"
cp -- "$work/some/"*.a "$work/some/lib/aarch64"
shows 'cargo::rustc-cfg=cubejobs_archives' $aarch64 "$work/script"
echo "ffi: a Rust program names the package by its path; a missing library is one sentence"

# The folder of the libraries is empty here.
mkdir "$work/empty_lib"
export CUBEJOBS_LIB="$work/empty_lib"
quiet cargo test --offline --features source
for features in '' lanes 'lanes std' plan 'plan std' regions 'regions std' sched 'lanes regions'; do
    quiet cargo check --offline --no-default-features --features "source $features" --all-targets
done
if cargo clippy --version > "$work/log" 2>&1; then
    quiet cargo clippy --offline --all-targets --features source
    quiet cargo clippy --offline -p cubejobs-c
fi
quiet cargo doc --offline --no-deps --features source
shows "$first_fit" cargo run --quiet --offline --features source --example first_fit
shows "$groups" cargo run --quiet --offline --features source --example groups
shows "$blocks" cargo run --quiet --offline --features source --example blocks
shows "$global_alloc" cargo run --quiet --offline --features source --example global_alloc
shows "$jobs" cargo run --quiet --offline --features source --example jobs
shows 55 cargo run --quiet --offline --features source --example park
shows "$tasks" cargo run --quiet --offline --features source --example tasks
event_loop --features source
quiet cargo test --offline -p cubejobs-pool --features cubejobs/source
echo "ffi: the form of plain Rust passes the tests, documents and examples of the Rust package and of the pool"

# A package that could not be made leaves no build script that looks for the libraries in that package. Each of these
# has a folder of its own: where both have one target folder, cargo takes a copy of the package for the package itself.
unset CUBEJOBS_LIB
export CARGO_TARGET_DIR="$work/failed"
refused "there is no $work/none/.*" env CUBEJOBS_LIB="$work/none" cargo package --offline --allow-dirty
rm -rf -- "$CARGO_TARGET_DIR"/package/cubejobs-*/lib
quiet cargo build --offline
export CARGO_TARGET_DIR="$work/packaged"
quiet cargo package --offline --allow-dirty
tar -xzf "$CARGO_TARGET_DIR"/package/cubejobs-*.crate -C "$work"
for name in $libraries; do
    cmp "$work"/cubejobs-*/lib/$name "../release/linux-x86_64/$name"
done
cd "$work"/cubejobs-*
rm -r -- "$CARGO_TARGET_DIR"
export CARGO_TARGET_DIR="$work/unpacked"
shows "$first_fit" cargo run --quiet --offline --example first_fit
shows "$groups" cargo run --quiet --offline --example groups
shows "$jobs" cargo run --quiet --offline --example jobs
rm -r lib
shows "$jobs" cargo run --quiet --offline --features source --example jobs
echo "ffi: the package that cargo makes is built on its own"

command -v git > "$work/path" || { echo "ffi: no git here, so no vendored package"; exit 0; }
mkdir "$work/repository"
cd "$work/repository"
tar -C "$package/.." --exclude=rust/target -cf - rust release/linux-x86_64 | tar -xf -
quiet git init
quiet git add --all
quiet git -c user.name=check -c user.email=check@localhost -c commit.gpgsign=false commit -m 'the package'
user "$work/vendored" "{ git = \"file://$work/repository\" }"
cd "$work/vendored"
mkdir .cargo
export CARGO_HOME="$work/home" CARGO_TARGET_DIR="$work/vendored/target"
CARGO_NET_OFFLINE=false cargo vendor > "$work/config" 2> "$work/log" || { cat "$work/log"; exit 1; }
mv "$work/config" .cargo/config.toml
rm -rf -- "$work/repository" "$CARGO_HOME"
shows "$jobs" cargo run --quiet --offline
echo "ffi: a program that has the package vendored is built with nothing beside it"
