"""Tries what the program does with the system's files: `checks/run files PROGRAM [--long]`.

It replaces files of all owners and permissions, follows links, and comes between the program and its temporary file: by
a second user who tries to read it, by a signal, and by calls of the C library that fail or do more than they should. A
part that this machine cannot try, for want of a second user, of gcc or of a mount, is skipped with a line that says so.
With --long the second user tries ten times as often.
"""
import contextlib
import itertools
import os
import pathlib
import shutil
import subprocess
import sys
import tempfile
import time

from checks.lib.repository import read_bytes as holds
from checks.lib.rows import (
    AS_NOBODY, ENDING, NOBODY, Row, Skipped, answer, comes, heed_signals, methods, must, needs, put, run_rows, title)
from checks.lib.toolchain import program, shim

JOBS = b"lane,kind,op,root,items\n0,scan,add,0,7\n"
REPLIES = b"lane,seq,kind,dim,result,rounds,messages\n0,0,scan,0,7,0,0\n"
# Commands of `place` whose rows, 350 KB, take some milliseconds to write.
COMMANDS = b"command,name,dim\n" + b"take,a,0\nfree,a,-\n" * 10_000
# A user and a group of whom no file of this machine need be.
OTHERS = OTHER_USER, OTHER_GROUP = 54321, 54322
RUN, TEMPORARY = ["run", "--dim", "3"], ".cubejobs-"
# How often a second user tries to read a temporary file, and how often in a long run.
RUNS, LONG_RUNS = 400, 4000
# A second user who tries to read each temporary file of a folder until he is stopped. Says how many he saw and opened.
WATCHER = """
import os, sys
folder, seen, read = sys.argv[1], 0, 0
os.setgroups([]); os.setgid(int(sys.argv[2])); os.setuid(int(sys.argv[2]))
print("ready", flush=True)
os.set_blocking(0, False)
while sys.stdin.buffer.raw.read(1) is None:
    for name in os.listdir(folder):
        if name.startswith(".cubejobs-"):
            seen += 1
            try:
                os.close(os.open(os.path.join(folder, name), os.O_RDONLY))
                read += 1
            except OSError:
                pass
print(seen, read)
"""


def needs_two_users():
    if os.geteuid() != 0:
        raise Skipped("only the superuser can act as two users")


def left_over(folder):
    return [name for name in os.listdir(folder) if name.startswith(TEMPORARY)]


def held_by(file):
    """Returns what a file holds, or None where there is none."""
    return holds(file) if os.path.isfile(file) else None


def must_be(file, owner, group, mode):
    found = os.stat(file)
    got = found.st_uid, found.st_gid, f"{found.st_mode & 0o7777:o}"
    must(got == (owner, group, f"{mode:o}"), f"owner, group and mode are {got}, where the mode was to be {mode:o}")


def take_names():
    for number in range(1500):
        with open(f"{TEMPORARY}{os.getpid()}-{number}.part", "x", encoding="utf-8") as file:
            file.write("not of this run, and longer than what is written\n" * 9)


class Files:
    """Folders that all may search and write, and the program in another one that all may reach."""

    def __init__(self, built, runs):
        self.made = tempfile.mkdtemp(prefix="cubejobs-files-")
        os.chmod(self.made, 0o755)
        self.program, self.runs = shutil.copy(built, os.path.join(self.made, "cubejobs")), runs

    def folder(self, mode=0o777, owner=(-1, -1)):
        folder = pathlib.Path(tempfile.mkdtemp(dir=self.made))
        os.chmod(folder, mode)
        os.chown(folder, *owner)
        return folder

    def must_end(self, folder, name, errors="", words=RUN, given=JOBS, left=0, **options):
        """Writes the output to this name. It is whole in the end; or there is this error, and the file is as it was.
        As many temporary files are left."""
        file, wanted = os.path.join(folder, name), (0, b"", b"")
        old = held_by(file)
        if errors:
            wanted = 3, b"", f"failed: output: {errors}\n".encode()
        got = answer([self.program, *words, "--output", name], given, cwd=folder, umask=0o022, **options)
        must(got == wanted, f"{name}: status, output and errors are {got}")
        must(words != RUN or held_by(file) == (old if errors else REPLIES), f"{name} holds {held_by(file)}")
        must(len(left_over(folder)) == left, f"{name}: {left_over(folder)} is left")


class Parts(Files):
    """The parts of this check: each method is a row."""

    def keeps_owner_and_mode(self):
        """The superuser replaces a file of another user."""
        needs_two_users()
        folder = self.folder()
        for mode in (0o600, 0o640, 0o664, 0o400, 0o755):
            put(folder / "old.csv", mode=mode, owner=OTHERS)
            self.must_end(folder, "old.csv")
            must_be(folder / "old.csv", *OTHERS, mode)

    def drops_a_group_that_it_cannot_give(self):
        """A user replaces a file of a group that he is not in. Nobody gets a right that the old file did not give."""
        needs_two_users()
        folder = self.folder()
        file = folder / "old.csv"
        put(file, mode=0o664, owner=(NOBODY, OTHER_GROUP))
        self.must_end(folder, "old.csv", **AS_NOBODY)
        must_be(file, NOBODY, NOBODY, 0o604)
        # The file of another user, whom it cannot be given back to, in his group.
        put(file, mode=0o4775, owner=OTHERS)
        self.must_end(folder, "old.csv", user=NOBODY, group=NOBODY, extra_groups=[OTHER_GROUP])
        must_be(file, NOBODY, OTHER_GROUP, 0o775)

    def keeps_a_secret(self):
        """Nobody else can open the temporary file that replaces a file of mode 0600. That of a new file he can, so he
        sees what there is to see."""
        needs_two_users()
        folder = self.folder(mode=0o755)
        for name, may_read in (("secret.csv", False), ("new.csv", True)):
            words = [sys.executable, "-c", WATCHER, folder, str(NOBODY)]
            with subprocess.Popen(words, stdin=subprocess.PIPE, stdout=subprocess.PIPE) as watcher:
                watcher.stdout.readline()
                for _ in range(self.runs):
                    if may_read:
                        (folder / name).unlink(missing_ok=True)
                    else:
                        put(folder / name, mode=0o600)
                    self.must_end(folder, name, words=["place", "--dim", "3"], given=COMMANDS)
                out, _ = watcher.communicate(b".", timeout=60)
            seen, opened = [int(it) for it in out.split()]
            must(seen > 0, f"{name}: a second user saw no temporary file in {self.runs} runs")
            must((opened > 0) == may_read, f"{name}: a second user opened the temporary file {opened} times of {seen}")

    def leaves_nothing_at_a_signal(self):
        """A signal at a prompt, or while the jobs are answered, leaves the folder as it was."""
        for number, name in itertools.product(ENDING, ("old.csv", "new.csv")):
            folder = self.folder()
            put(folder / "old.csv")
            command = [self.program, *RUN, "--output", name]
            process = subprocess.Popen(command, cwd=folder, stdin=subprocess.PIPE, preexec_fn=heed_signals)
            process.stdin.write(JOBS)
            process.stdin.flush()
            # It has all that it gets, and waits for more.
            comes(lambda: b"sleeping" in holds(f"/proc/{process.pid}/status"), 10)
            time.sleep(0.05)
            process.send_signal(number)
            must(process.wait(timeout=10) == -number, f"{number}: status {process.returncode}")
            process.stdin.close()
            must(os.listdir(folder) == ["old.csv"], f"{number}: the folder has {os.listdir(folder)}")

    def tries_further_names(self):
        """Files under the first names of this very process are not touched."""
        folder = self.folder()
        self.must_end(folder, "new.csv", left=1500, preexec_fn=take_names)
        sizes = {os.path.getsize(folder / name) for name in left_over(folder)}
        must(sizes == {49 * 9}, f"one of 1500 other files was changed: their sizes are {sizes}")

    def follows_links(self):
        """A link stays one, and its target is replaced or created, also where it lies in another folder."""
        folder = self.folder()
        deep = folder / "deep"
        put(deep / "old.csv", mode=0o640)
        links = {"link": "deep/old.csv", "second": "link", "none": "deep/new.csv", "far": "none2"}
        links["none2"] = "deep/newest.csv"
        for name, target in links.items():
            os.symlink(target, folder / name)
        for name, target in (("second", "old.csv"), ("none", "new.csv"), ("far", "newest.csv")):
            self.must_end(folder, name)
            must((folder / name).is_symlink(), f"{name} is no link any more")
            must(holds(deep / target) == REPLIES, f"{target} is not the output")
            must(not left_over(deep), "a temporary file is left")
        must(os.stat(deep / "old.csv").st_mode & 0o777 == 0o640, "the mode has changed")

    def minds_protected_links(self):
        """In a folder that all share, neither the system nor the program lets a user follow another one's link."""
        needs_two_users()
        if holds("/proc/sys/fs/protected_symlinks").strip() != b"1":
            raise Skipped("this system does not protect links")
        folder, aim = self.folder(mode=0o1777, owner=OTHERS), self.folder(mode=0o755) / "aim.csv"
        for name, text in (("there.csv", b"old\n"), ("nowhere.csv", None)):
            if text:
                put(aim, text)
            else:
                aim.unlink()
            os.symlink(aim, folder / name)
            os.lchown(folder / name, NOBODY, NOBODY)
            with contextlib.suppress(PermissionError):
                with contextlib.suppress(FileNotFoundError):
                    os.stat(folder / name)
                raise Skipped("this system lets the superuser follow the link")
            self.must_end(folder, name, f"Denied: {name}")
            must(held_by(aim) == text, "the target was created, removed or written")

    def works_in_a_folder_with_no_text_for_a_name(self):
        odd = self.folder() / os.fsdecode(b"\xff\xfe")
        odd.mkdir()
        self.must_end(odd, "new.csv")

    def works_in_a_folder_with_a_long_path(self):
        """The path is longer than a path may be."""
        start, here = self.folder(), os.getcwd()
        os.chdir(start)
        try:
            for _ in range(30):
                os.mkdir("a" * 200)
                os.chdir("a" * 200)
            put("old.csv", mode=0o640)
            self.must_end("/proc/self/cwd", "old.csv")
            must(os.listdir() == ["old.csv"], "more than the output is there")
        finally:
            os.chdir(here)

    def works_below_a_shut_folder(self):
        needs_two_users()
        shut = self.folder()
        inner = shut / "inner"
        inner.mkdir()
        inner.chmod(0o777)
        shut.chmod(0o700)
        self.must_end(inner, "new.csv", **AS_NOBODY)

    def refuses_devices(self):
        """They are refused before any work: the input is not read."""
        folder = self.folder()
        os.symlink("/dev/null", folder / "null")
        for name in ("/dev/null", "/dev/full", "null"):
            self.must_end(folder, name, f"Special: {name}", given=b"not read")

    def refuses_a_mounted_file(self):
        """A file that is itself mounted is refused before any work."""
        if os.geteuid() != 0 or not shutil.which("unshare"):
            raise Skipped("only the superuser can mount a file")
        folder = self.folder()
        for name in ("one.csv", "other.csv"):
            put(folder / name)
        script = 'mount --bind other.csv one.csv || exit 77; "$0" "$@"'
        words = ["unshare", "-m", "sh", "-c", script, self.program, *RUN, "--output", "one.csv"]
        status, _, errors = answer(words, b"not read", cwd=folder)
        if status in (1, 77) and b"refused" not in errors:
            raise Skipped(f"no file can be mounted here: {errors.decode(errors='replace').strip()}")
        must((status, errors) == (3, b"failed: output: Special: one.csv\n"), f"status {status}, {errors}")
        must(not left_over(folder), "a temporary file is left")

    def is_refused_a_rename(self):
        """A file of another user, who lets all write to it, in a folder where each may rename his own files alone."""
        needs_two_users()
        folder = self.folder(mode=0o1777, owner=OTHERS)
        put(folder / "his.csv", mode=0o666, owner=OTHERS)
        self.must_end(folder, "his.csv", "Denied: his.csv", **AS_NOBODY)

    def minds_what_comes_between(self):
        """The file is on its disk before it is renamed. It is removed where the rename fails. Another file that got its
        name is neither renamed nor removed."""
        needs("gcc")
        shims, folder = shim("files.c", self.made), self.folder()
        under = {what: {**os.environ, "LD_PRELOAD": shims, "STAND_IN": what} for what in ("refuse", "swap", "order")}
        put(folder / "old.csv")
        self.must_end(folder, "old.csv", "Denied: old.csv", env=under["refuse"])
        self.must_end(folder, "old.csv", "Other: old.csv", left=1, env=under["swap"])
        other = folder / left_over(folder)[0]
        must(holds(other) == b"another's\n", "another's file was removed")
        other.unlink()
        self.must_end(folder, "old.csv", env=under["order"])


def main(words):
    parts = Parts(program(words), LONG_RUNS if "--long" in words else RUNS)
    try:
        return run_rows("files", [Row(title(part), part, (parts,)) for part in methods(Parts)])
    finally:
        # A path of it is longer than Python removes.
        subprocess.run(["rm", "-rf", parts.made], check=True)
