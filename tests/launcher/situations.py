"""What a user of the launcher can meet: each method of Situations is a row of `checks/run launcher`."""
import itertools
import os
import re
import resource
import shutil
import signal
import subprocess

from checks.lib.launcher_room import (
    COLUMNS, COREUTILS, CRATES, PATIENCE, RELEASED, TOOLS, Clone, ended, is_of_program, is_running, line_with, must_be,
    must_be_short, refuses, sentences)
from checks.lib.repository import PARTS, crate_files, path, place, read, read_bytes
from checks.lib.rows import AS_NOBODY, ENDING, Skipped, answer, comes, must, needs

# The shells that are here, each of which may be /bin/sh.
KNOWN = (["sh"], ["dash"], ["bash"], ["busybox", "sh"])
SHELLS = [[shutil.which(it[0]), *it[1:]] for it in KNOWN if shutil.which(it[0])]
# A call reads all sources once and starts a few small tools. It may take this many times the processor time of one bare
# reading, which depends on the machine as the call does.
MOST_READINGS = 3
READING = "find crates.txt crates/*/src crates/*/specs crates/*/proofs -type f -exec cksum {} +"
# What the program says on a processor that lacks something.
LACKS = ("this machine lacks a feature of x86-64-v2, which this program was built for: run it on another machine, "
         "or build it with --cpu x86-64")
# Words that are refused before a build, and what is said of them; and words that only the program can judge.
REFUSED = {
    "": "no command is given", "walk --dim 3": "'walk' is no command", "RUN --dim 3": "'RUN' is no command",
    "run": "run needs --dim", "replay --stations 2": "replay needs --dim",
}
JUDGED = ("run --dim=3", "place x --dim 3", "run --help", "run --version", "place -V", "--version", "help run",
          "check run",
          "messages")
# Runs the release, and then a build, on a mount with noexec.
ON_A_MOUNT = """
    mount -t tmpfs -o noexec none "$1" && cp -a -- "$2/." "$1" && [ ! -x "$1/cubejobs" ] || { echo NO MOUNT; exit; }
    ln -s "$4" "$1/out"
    "$3" "$1/cubejobs" run --dim 3 </dev/null 2>&1
    rm "$1/out"
    "$3" "$1/cubejobs" run --dim 3 </dev/null 2>&1
    echo "status $?"
"""


def least_seconds(act, *words, **how):
    costs = []
    for _ in range(10):
        before = resource.getrusage(resource.RUSAGE_CHILDREN)
        act(*words, **how)
        after = resource.getrusage(resource.RUSAGE_CHILDREN)
        costs.append(after.ru_utime + after.ru_stime - before.ru_utime - before.ru_stime)
    return min(costs)


class Situations(Clone):
    """What a user can meet: each method with no words is a row."""

    def first_call_builds_and_runs(self):
        self.works("run --dim 3", "jobs\n")
        must([crate for _, crate in self.calls()] == CRATES, f"rt was called for {self.calls()}")

    def words_are_refused_before_a_build(self):
        self.plan("fails")
        for words, text in REFUSED.items():
            got = self.run(words)
            must(got[:2] == (2, "") and len(got.err) == 1 and text in got.err[0], f"{words}: {got}")
        must(self.calls() == [], "rt was called")
        for words in JUDGED:
            refuses(self.run(words), "rt did not prove or build jobs_cli")
        self.plan("builds")
        for words in ("--version", "walk", "run", ""):
            self.works(words)

    def prove_builds_in_any_case(self):
        is_of_program(self.run("--prove run --dim 3"), "run --dim 3")
        is_of_program(self.run("--prove --dim"), "--dim")
        got = self.run("--prove")
        must(got[:2] == (0, "") and self.builds() == 3, f"{got}, {self.builds()} builds")

    def help_tells_of_prove(self):
        for word in ("--help", "-h"):
            got = self.run(word)
            must(got.status == 0 and got.out.startswith(f"args: {word}\n\n") and "'--prove'" in got.out, got)
            must(all(len(line) <= COLUMNS for line in got.out.splitlines()), got)
            must(self.run(word, STATUS="3")[:2] == (3, f"args: {word}\n"), "help that fails is no help")
        self.works("run --help")

    def help_that_cannot_be_written(self):
        """Tries a reader that has gone, a full disk and a closed output. A program fails there, or does not notice."""
        self.works()
        inner, gone = os.pipe()
        os.close(inner)
        for program, last in (("echo 'failed: record 0: Write' >&2; exit 3", []), ("echo note >&2", ["note"])):
            self.write("out/cubejobs", f"#!/bin/sh\n{program}\n")
            for shell, to in itertools.product(SHELLS, ("", ">/dev/full", ">&-")):
                wrapped = [shutil.which("sh"), "-c", f'exec "$@" {to}', "sh", *shell]
                got = self.run("--help", wrapped=wrapped, out=gone)
                must((got.status, got.err) == (3, [*last, "failed: record 0: Write"]), f"{shell}, {to}: {got}")
        os.close(gone)

    def a_release_needs_coreutils_alone(self):
        self.release()
        shutil.rmtree(self.at("out"))
        for tool in {*TOOLS} - {"sh", *COREUTILS} | {"rt"}:
            os.remove(f"{self.tools}/{tool}")
        for words in ("run --dim 3", "walk", ""):
            must_be(self.run(words), 0, f"released: {words}\n", [])
        must(not os.path.exists(self.at("out")), "a folder was made")

    def prove_passes_a_release_over(self):
        self.release()
        before = self.builds()
        is_of_program(self.run("--prove --x"), "--x")
        must(self.builds() == before + 1, "nothing was built")

    def passes_over(self, why, **released):
        """Sees that a call begins a build, and that its first sentence ends with why the release is not run."""
        if released:
            self.release(**released)
        shutil.rmtree(self.at("out"), ignore_errors=True)
        before = self.builds()
        first, second, *_ = sentences(self.works("run --dim 3"))
        must(re.search(f"{RELEASED} {why}$", first), f"{first!r} does not end with {why!r}")
        must("proving and building" in second and self.builds() == before + 1, f"it was not built, but {second!r}")
        err = self.works("run --dim 3")
        must(err == ["note"], f"where a program is there nothing need be said: {err}")

    def a_damaged_release_is_not_run(self):
        self.passes_over("is damaged: .* SHA256SUMS", sum_of="another text")
        os.remove(self.at(RELEASED))
        self.passes_over("is damaged: .*")

    def a_release_that_is_not_executable(self):
        self.passes_over("is not executable; chmod 755 makes it so", mode=0o644)

    def a_release_on_a_mount_with_noexec(self):
        """Runs a program that was built elsewhere, and builds none that could not be run."""
        needs("unshare")
        self.release()
        before, mounted, elsewhere = self.builds(), f"{self.room}/mounted", f"{self.room}/elsewhere"
        os.mkdir(mounted)
        os.rename(self.at("out"), elsewhere)
        words = ["unshare", "-m", *([] if os.geteuid() == 0 else ["-r"]), "sh", "-c", ON_A_MOUNT, "sh"]
        words += [mounted, self.folder, shutil.which("sh"), elsewhere]
        env = {"PATH": f"{self.tools}:{os.environ['PATH']}", "FAKE": self.fake}
        status, out, err = answer(words, "", text=True, env=env)
        if status or "NO MOUNT" in out:
            raise Skipped(f"no mount with noexec can be made here: {err.strip()}")
        must_be_short(out)
        told = sentences(out.splitlines())
        must(told[:2] + told[4:] == ["args: run --dim 3", "note", "status 70"], told)
        must(f"{RELEASED} is on a mount with noexec" in told[2], told)
        must("out is on a mount with noexec" in told[3], told)
        must(self.builds() == before, "it was built")

    def a_release_for_an_old_c_library(self):
        said = "$0: /lib/x86_64-linux-gnu/libc.so.6: version \\`GLIBC_2.34' not found (required by $0)"
        why = "needs the GNU C library of version 2.34 or later"
        self.passes_over(why, program=f'#!/bin/sh\necho "{said}" >&2; exit 1')

    def a_release_that_cannot_run_here(self):
        """Shows the program's own words, and does not blame the C library."""
        for text, said in (
            (f"#!/bin/sh\necho '{LACKS}' >&2; exit 127", LACKS),
            ("#!/bin/sh\nexit 127", "nothing"),
            ("#!/bin/sh\necho one >&2; echo two >&2; exit 1", "one two"),
            ("#!/no/such/interpreter\n", ".*not found"),
        ):
            self.passes_over(f"does not run here, and says: {said}", program=text)

    def a_release_for_another_machine(self):
        self.release()
        for system in ("Linux aarch64", "Darwin arm64"):
            self.move_to(system)
            self.passes_over(f"is for Linux x86_64, and this machine is {system}")

    def a_release_for_each_machine(self):
        """Runs the files for aarch64 on aarch64 alone."""
        self.release()
        self.release("#!/bin/sh\necho \"elsewhere: $*\"\n", to=RELEASED.replace("x86_64", "aarch64"))
        must_be(self.run("run --dim 3"), 0, "released: run --dim 3\n", [])
        self.move_to("Linux aarch64")
        must_be(self.run("run --dim 3"), 0, "elsewhere: run --dim 3\n", [])
        self.move_to("Linux riscv64")
        self.passes_over("is for Linux x86_64, and this machine is Linux riscv64")

    def a_release_of_other_sources_is_passed_over(self):
        why = "was built from other sources than those that are here"
        self.passes_over(why, sources="1 2")
        self.release()
        self.write("crates/cube_shape/src/lib.rt", "//! changed\n")
        got = self.run("")
        must(got.status == 2 and len(got.err) == 1, got)
        self.passes_over(why)

    def long_names_are_broken_into_lines(self):
        """Tries a path and a word that are longer than a line."""
        self.release(sources="1 2")
        self.plan("fails")
        deep, word = f"{self.room}/{'d' * 120}/{'e' * 90} f", "w" * 200
        os.makedirs(os.path.dirname(deep))
        os.rename(self.folder, deep)
        self.folder, self.launcher = deep, f"{deep}/cubejobs"
        tries = ([f"{word} * \u00e9"], 2, word), (["--version"], 70, deep), (["--prove"], 70, deep)
        for shell, (words, status, named) in itertools.product(SHELLS, tries):
            got = self.run(words, wrapped=shell)
            is_named = named.replace(" ", "") in "".join(got.err).replace(" ", "")
            must(got.status == status and is_named, f"{shell}: {got}")

    def line_ends_are_kept(self):
        """Clones by a git that is asked to change line ends: the sources are the same, and the launcher runs."""
        needs("git")
        git = ["git", "-c", "user.name=x", "-c", "user.email=x@x", "-c", "init.defaultBranch=main"]
        for attributes in (True, False):
            made, taken = f"{self.room}/made {attributes}", f"{self.room}/taken {attributes}"
            shutil.copytree(self.folder, made)
            if attributes:
                shutil.copy(path(".gitattributes"), made)
            for words in (["init"], ["add", "-A"], ["commit", "-m", "x"]):
                subprocess.run([*git, "-C", made, *words], check=True, capture_output=True)
            clones = [*git, "-c", "core.autocrlf=true", "clone", "-q", made, taken]
            subprocess.run(clones, check=True, capture_output=True)
            must((b"\r" in read_bytes(f"{taken}/cubejobs")) != attributes, "line ends are as they should not be")
            if attributes:
                self.works(launcher=f"{taken}/cubejobs")
                has = read(f"{taken}/out/cubejobs.sources").strip()
                must(has == self.sources(), "the sources have another checksum")

    def a_release_of_a_clone_that_cannot_be_written(self):
        self.release()
        shutil.rmtree(self.at("out"))
        must_be(self.as_nobody("x"), 0, "released: x\n", [])

    def statuses_are_the_programs(self):
        for status in (0, 1, 2, 3):
            is_of_program(self.run(["--x y", ""], STATUS=str(status)), "--x y ", status=status)

    def progress_comes_while_rt_runs(self):
        self.plan("waits")
        started = self.start("--version")
        line = line_with(started, "crate 1")
        must(re.fullmatch(r"cubejobs: \d+:\d\d  crate 1 of 2: cube_shape", line), f"progress begins with {line!r}")
        must(started.poll() is None and not os.path.exists(f"{self.fake}/go"), "the build had ended")
        self.go()
        rest = "\n".join(is_of_program(ended(started), "--version"))
        must("crate 2 of 2: jobs_cli" in rest and "  built" in rest, f"progress is {rest!r}")

    def functions_are_counted(self):
        err = self.works()
        must(any(line.endswith("cube_shape: 20 of 26 functions checked") for line in err), f"{err}")

    def second_call_needs_no_rt(self):
        self.works()
        os.remove(self.rt)
        must_be(self.run("place", "x\n"), 0, "args: place\nx\n", ["note"])

    def every_source_of_the_repository_is_seen(self):
        """Tries a file at each depth at which there is one in this repository."""
        depths = {}
        for file in crate_files():
            _, _, *inside = place(file).split("/")
            depths[inside[0], len(inside), os.path.splitext(file)[1]] = "/".join(["crates/cube_shape", *inside])
        must(len(depths) > 7, f"files stand at {len(depths)} depths")
        seen = {self.sources()}
        for name, text in itertools.product(depths.values(), ("one\n", "two\n")):
            self.write(name, text)
            sources = self.sources()
            must(sources not in seen, f"{name} is not seen")
            seen.add(sources)

    def a_changed_source_is_built_again(self):
        self.works()
        proofs = self.at("crates/cube_shape/proofs")
        changes = [
            (self.write, "crates/jobs_cli/src/lib.rt", "//! changed\n"),
            (self.write, "crates/jobs_cli/specs/New.antt", "-- new\n"),
            (os.remove, self.at("crates/jobs_cli/specs/New.antt")),
            (self.write, "crates/cube_shape/proofs/New.antt", "-- new\n"),
            (os.rename, f"{proofs}/New.antt", f"{proofs}/Old.antt"),
            (self.write, "crates.txt", "cube_shape:\njobs_cli: cube_shape\n"),
        ]
        for number, (change, *words) in enumerate(changes):
            change(*words)
            self.works()
            must(self.builds() == number + 2, f"change {number} was not built")
        self.write("crates/cube_shape/out/made", "made by rt\n")
        self.write("README.md", "text\n")
        self.works()
        must(self.builds() == len(changes) + 1, "rt was called where no source had changed")

    def links_are_followed(self):
        self.works()
        beside = f"{self.room}/beside"
        os.makedirs(f"{beside}/deeper")
        links = {"whole": self.launcher, "relative": "../a clone/cubejobs", "deeper/chain": "../whole"}
        for name, target in links.items():
            os.symlink(target, f"{beside}/{name}")
            self.works("x", launcher=f"{beside}/{name}")
        self.works("x", launcher="./cubejobs", folder=self.folder)
        self.works("x", launcher="cubejobs", folder=self.folder, wrapped=["sh"])
        must(sorted(os.listdir(beside)) == ["deeper", "relative", "whole"], f"beside the links: {os.listdir(beside)}")
        must(self.builds() == 1, "a link led to another build")

    def a_call_costs_little(self):
        for name in (f"crates/{crate}/{part}" for crate in os.listdir(path("crates")) for part in PARTS):
            if os.path.isdir(path(name)):
                shutil.copytree(path(name), self.at(name), dirs_exist_ok=True)
        for number in range(800):
            made = self.at(f"crates/cube_shape/out/incremental/{number}")
            os.makedirs(made)
            for file in range(100):
                open(f"{made}/{file}", "w", encoding="utf-8").close()
        self.works()
        how = {"shell": True, "cwd": self.folder, "stdout": subprocess.DEVNULL, "check": True}
        reading, call = least_seconds(subprocess.run, READING, **how), least_seconds(self.run, "")
        told = f"{call:.3f} s of processor time, and one reading of the sources {reading:.3f} s"
        must(call < MOST_READINGS * reading, f"a call takes {told}")
        return told

    def no_rt_on_the_path(self):
        os.remove(self.rt)
        refuses(self.run("--version", "jobs"), "rt of the Rattle toolchain", "README.md")

    def rt_fails(self):
        self.plan("fails")
        got = self.run("--version")
        refuses(got, "rt did not prove or build jobs_cli", "out/build.log")
        must(any("a goal is open" in line for line in got.err), f"rt's own words are not shown: {got}")
        must("a goal is open" in read(self.at("out/build.log")), "build.log lacks rt's words")
        self.plan("builds")
        self.works()

    def rt_makes_no_program(self):
        self.plan("nothing")
        refuses(self.run("--version"), "rt made no program")

    def the_program_cannot_be_run(self):
        self.plan("unusable")
        got = self.run("--version")
        must(got[:2] == (70, "") and "cubejobs" in got.err[-1], got)

    def out_is_a_file(self):
        self.write("out", "")
        refuses(self.run("--version"), "out cannot be written")

    def as_nobody(self, *words):
        """Returns what a call ends with where the clone cannot be written."""
        for at, _, _ in os.walk(self.room):
            os.chmod(at, 0o555 if at.startswith(self.folder) else 0o777)
        got = self.run(words, user=AS_NOBODY)
        for at, _, _ in os.walk(self.room):
            os.chmod(at, 0o755)
        return got

    def the_clone_cannot_be_written(self):
        refuses(self.as_nobody("--version"), "out cannot be written")
        must(not os.path.exists(self.at("out")), "a folder was left")

    def an_interrupted_build(self):
        self.plan("waits")
        for number in ENDING:
            started = self.start("--version")
            line_with(started, "20 of 26 functions")
            started.send_signal(number)
            refuses(ended(started), "the build was interrupted")
            must(comes(lambda: not is_running(self.calls()[-1][0]), PATIENCE), "rt runs on")
        self.plan("builds")
        self.works()

    def two_calls(self, *plan):
        """Starts a call that builds by this plan, and another one that waits for it."""
        self.plan(*plan)
        first = self.start("--first")
        line_with(first, "crate 1 of 2")
        second = self.start("--second")
        line_with(second, "another call is building the program; this one waits for it")
        return first, second

    def two_first_calls_at_once(self):
        first, second = self.two_calls("waits")
        self.go()
        is_of_program(ended(first), "--first")
        is_of_program(ended(second), "--second")
        must(self.builds() == 1, f"the program was built {self.builds()} times")

    def the_first_of_two_fails(self):
        first, second = self.two_calls("waits and fails", "builds")
        self.go()
        refuses(ended(first), "rt did not prove or build jobs_cli")
        is_of_program(ended(second), "--second")

    def a_call_that_waits_is_interrupted(self):
        first, second = self.two_calls("waits")
        second.send_signal(signal.SIGTERM)
        refuses(ended(second), "interrupted")
        self.go()
        is_of_program(ended(first), "--first")

    def a_killed_build_leaves_no_lock(self):
        self.plan("waits", "builds")
        started = self.start("--version")
        line_with(started, "20 of 26 functions")
        started.kill()
        self.works("--again")
