"""How an installation is used: by pkg-config, CMake, cargo, Python and man, and by its program (a part of install)."""
import os
import re
import shutil
import subprocess

from checks.built import pool
from checks.lib.clones import clone_with, tree
from checks.lib.repository import read, version_of_sources, write
from checks.lib.rows import answer, must, needs, output
from tests.install.tables import IN_RUST

CMAKE, GANG = "tests/install/CMakeLists.txt", "tests/install/gang.rs"


class Used:
    """A clone, and a prefix into which it is installed. The prefix has a space: a folder of a user may have one."""

    def __init__(self, work, built):
        self.work, self.clone, self.prefix = work, clone_with(work, built), os.path.join(work, "the prefix")

    def install(self, *words, **how):
        return answer([os.path.join(self.clone, "install"), *words], "", text=True, cwd=self.work, **how)

    def must_install(self, *words):
        status, _, said = self.install(*words)
        must(status == 0 and not said, f"install {' '.join(words)}: status {status}, errors {said[:600]!r}")

    def env(self, **more):
        lib = os.path.join(self.prefix, "lib")
        return {**os.environ, "LD_LIBRARY_PATH": lib, "PKG_CONFIG_PATH": os.path.join(lib, "pkgconfig"), **more}

    def room(self, name):
        folder = os.path.join(self.work, name)
        os.makedirs(folder)
        return folder

    def of(self, *names):
        return os.path.join(self.prefix, *names)

    def refusal(self, words, wanted, saying):
        status, out, said = self.install(*words)
        must((status, out) == (wanted, "") and saying in said, f"status {status}, {out!r}, {said!r}")

    def linked(self, source, package, room):
        """Compiles a program with the words of pkg-config, runs it, and returns its output."""
        compiler = "c++" if source.endswith("pp") else "cc"
        needs("pkg-config", compiler)
        flags = output(["pkg-config", "--cflags", "--libs", package], env=self.env()).replace("\\ ", "\0").split()
        flags = [it.replace("\0", " ") for it in flags]
        subprocess.run([compiler, source, *flags, "-o", f"{room}/a.out"], check=True)
        return output([f"{room}/a.out"], cwd=room, env=self.env())

    def with_pkg_config(self, example):
        source = self.of("share", "doc", "cubejobs", "examples", example)
        said = self.linked(source, "cubejobs", self.room(f"pkg-{example}"))
        must(said == read(os.path.splitext(source)[0] + ".out"), f"{example} has another output")

    def the_program_of_the_readme(self):
        room = self.room("readme")
        write(f"{room}/first.c", re.search(r"^```c\n(.*?)^```", read("README.md"), re.M | re.S)[1])
        must(self.linked(f"{room}/first.c", "cubejobs_regions", room) == "", "the program of README writes something")

    def configured(self, name, lines, *defines):
        """Configures a project of a user, and returns its folder, the status and what CMake says."""
        needs("cmake", "cc", "c++")
        room = self.room(f"cmake-{name}")
        write(f"{room}/CMakeLists.txt", lines)
        for file in ("regions.c", "lanes.cpp"):
            shutil.copy(os.path.join(self.clone, "examples", file), room)
        status, out, said = answer(["cmake", "-S", room, "-B", f"{room}/build", *defines], "", text=True)
        return room, status, out + said

    def built(self, name, *defines):
        """Builds and runs a project, over a shared object and over archives."""
        room, status, said = self.configured(name, read(CMAKE), *defines)
        must(status == 0, f"cmake: {said[-800:]}")
        output(["cmake", "--build", f"{room}/build"], timeout=300)
        for example in ("regions", "lanes"):
            wanted = read(os.path.join(self.clone, "examples", f"{example}.out"))
            must(output([f"{room}/build/{example}"]) == wanted, f"{example} has another output")

    def with_cmake(self):
        self.built("prefix", f"-DCMAKE_PREFIX_PATH={self.prefix}")

    def package_of_cmake(self, words, saying=""):
        """Sees what CMake says of a call of find_package: that it finds nothing, or else these words."""
        lines = read(CMAKE).replace("cubejobs REQUIRED", words)
        name = re.sub(r"\W+", "-", words)
        _, status, said = self.configured(name, lines, f"-DCMAKE_PREFIX_PATH={self.prefix}")
        must((status != 0) == bool(saying) and saying in " ".join(said.split()), f"status {status}, {said[-600:]}")

    def moved(self):
        """What was installed below a folder names neither that folder nor the prefix to CMake, and works there. It
        also works after a move, and for pkg-config with --define-prefix."""
        needs("pkg-config")
        one, other = os.path.join(self.work, "below"), os.path.join(self.work, "moved there")
        self.must_install("--prefix", "/srv/of users", "--destdir", one)
        self.built("below", f"-DCMAKE_PREFIX_PATH={one}/srv/of users")
        os.rename(f"{one}/srv/of users", other)
        self.built("moved", f"-DCMAKE_PREFIX_PATH={other}")
        for file in ("cubejobs-config.cmake", "cubejobs-config-version.cmake"):
            must("of users" not in read(other, "lib/cmake/cubejobs", file), f"{file} has a path of the installation")
        env = {**os.environ, "PKG_CONFIG_PATH": f"{other}/lib/pkgconfig"}
        said = output(["pkg-config", "--define-prefix", "--cflags", "--libs", "cubejobs_fit"], env=env)
        said = said.replace("\\ ", " ")
        must(said.split() == f"-I{other}/include -L{other}/lib -lcubejobs_fit".split(), said)

    def libraries_elsewhere(self):
        """The folder of the libraries may lie outside the prefix. A symbolic link may lead to it."""
        room = os.path.join(self.work, "elsewhere")
        self.must_install("--prefix", "/srv/p", "--libdir", "/usr/lib 64", "--destdir", room)
        self.built("elsewhere", f"-Dcubejobs_DIR={room}/usr/lib 64/cmake/cubejobs")
        os.symlink("usr/lib 64", f"{room}/lib")
        self.built("link", f"-Dcubejobs_DIR={room}/lib/cmake/cubejobs")
        shutil.rmtree(f"{room}/srv/p/include")
        _, status, said = self.configured("none", read(CMAKE), f"-Dcubejobs_DIR={room}/lib/cmake/cubejobs")
        must(status != 0 and "The headers of cubejobs are not where" in " ".join(said.split()), said[-600:])

    def compared_version(self, of, pkg_config, cmake, served, refused):
        """Installs a release of a version, and sees how packages compare it."""
        sums, room = os.path.join(self.clone, "release", "linux-x86_64", "SHA256SUMS"), os.path.join(self.work, of)
        before = read(sums)
        write(sums, before.replace(f"# version {version_of_sources()}\n", f"# version {of}\n"))
        try:
            self.must_install("--prefix", "/p", "--destdir", room)
        finally:
            write(sums, before)
        file, number = f"{room}/p/lib/cmake/cubejobs/cubejobs-config-version.cmake", of.partition("-")[0]
        said = read(room, "p/lib/pkgconfig/cubejobs_fit.pc"), read(file)
        must(f"\nVersion: {pkg_config}\n" in said[0], f"pkg-config has {said[0]}")
        must(said[1].startswith(f'set(PACKAGE_VERSION "{cmake}")\n'), f"CMake has {said[1][:60]}")
        needs("pkg-config", "cmake")
        env = {**os.environ, "PKG_CONFIG_PATH": f"{room}/p/lib/pkgconfig"}
        status, _, _ = answer(["pkg-config", f"--atleast-version={number}", "cubejobs_fit"], env=env)
        must((status == 0) == (of == number), f"pkg-config takes {of} for {number}: {status == 0}")
        for wanted, is_served in [*((it, True) for it in served.split()), *((it, False) for it in refused.split())]:
            lines = f'set(PACKAGE_FIND_VERSION "{wanted}")\ninclude("{file}")\n'
            write(f"{room}/ask.cmake", lines + 'message("${PACKAGE_VERSION_COMPATIBLE}")\n')
            _, _, said = answer(["cmake", "-P", f"{room}/ask.cmake"], "", text=True)
            must(said == ("TRUE\n" if is_served else "\n"), f"CMake takes {of} for {wanted}: {said!r}")

    def with_cargo(self, form, examples=(*IN_RUST, *pool.EXAMPLES)):
        """Builds a package of a user, which has these examples in Rust. The installed files stay as they are."""
        needs("cargo", "cc")
        before, room, rust = tree(self.prefix), self.room(f"cargo-{form}"), self.of("share", "cubejobs", "rust")
        lines = ["[package]", 'name = "user"', 'version = "0.1.0"', 'edition = "2021"', "[dependencies]",
                 f'cubejobs = {{ path = "{rust}", features = ["{form}"] }}'.replace(', features = [""]', ""),
                 f'cubejobs-pool = {{ path = "{rust}/pool" }}', ""]
        write(f"{room}/Cargo.toml", "\n".join(lines))
        write(f"{room}/src/main.rs", read(GANG))
        os.makedirs(f"{room}/examples")
        for name in examples:
            shutil.copy(f"{rust}/{'' if name in IN_RUST else 'pool/'}examples/{name}.rs", f"{room}/examples")
        words = ["cargo", "build", "--quiet", "--offline", "--release", "--bins", "--examples"]
        output(words, cwd=room, env={**os.environ, "CARGO_TARGET_DIR": f"{room}/target"}, timeout=600)
        must(output([f"{room}/target/release/user"]) == "[6, 6, 6, 6]\n", "the gang has another sum")
        must(tree(self.prefix) == before, "cargo has changed the installed files")

    def in_rust(self, form, name):
        """Runs an example of Rust."""
        needs("cargo", "cc")
        words = {"batch": [self.of("share", "doc", "cubejobs", "examples", "batch.jobs")], **pool.WORDS}.get(name, [])
        said = output([os.path.join(self.work, f"cargo-{form}", "target/release/examples", name), *words], timeout=60)
        last = said if name in IN_RUST else said.strip().splitlines()[-1]
        is_so = said == IN_RUST[name] if name in IN_RUST else re.fullmatch(pool.EXAMPLES[name], last)
        must(is_so, f"the example says {said[-200:]!r}")

    def with_cargo_doc(self):
        """Runs the tests in the documentation of the package for Rust."""
        needs("cargo", "cc")
        env = {**os.environ, "CARGO_TARGET_DIR": os.path.join(self.work, "cargo-doc")}
        words = ["cargo", "test", "--quiet", "--offline", "--doc"]
        status, said, more = answer(words, "", text=True, cwd=self.of("share", "cubejobs", "rust"), env=env,
                                    timeout=300)
        must(status == 0 and re.search(r"ok\. [1-9]\d passed; 0 failed", said), (said + more)[-600:])

    def as_packages(self):
        """Makes both packages of Rust, as soon as they may be published: cargo has no package over one that may not."""
        needs("cargo", "cc")
        room = self.room("packages")
        shutil.copytree(os.path.join(self.clone, "rust"), f"{room}/rust", ignore=shutil.ignore_patterns("target"))
        for name in ("rust/Cargo.toml", "rust/pool/Cargo.toml"):
            write(f"{room}/{name}", read(f"{room}/{name}").replace("publish = false\n", ""))
        env = {**os.environ, "CARGO_TARGET_DIR": f"{room}/target", "CARGO_TERM_COLOR": "never"}
        words = ["cargo", "package", "--offline", "--workspace", "--exclude", "cubejobs-c", "--allow-dirty"]
        status, _, said = answer(words, "", text=True, cwd=f"{room}/rust", env=env, timeout=300)
        warned = [it for it in re.findall(r"^warning: (.*)$", said, re.M)
                  if not it.startswith("manifest has no license")]
        must(status == 0 and not warned, f"cargo package: status {status}, {warned}, {said[-600:]}")

    def with_python(self):
        needs("python3")
        folder = self.of("share", "cubejobs", "python")
        said = output(["python3", "-B", "-c", "import cubejobs; print(cubejobs.Regions(3).take(3))"], cwd=folder)
        must(said == "Block(base=0, dim=3)\n", said)
        env = {**os.environ, "PYTHONPATH": folder}
        said = output(["python3", "-B", self.of("share/doc/cubejobs/examples/processes.py")], env=env)
        must(said == read(self.of("share/doc/cubejobs/examples/processes.out")), said)

    def with_man(self):
        needs("man")
        for section, name in (("1", "cubejobs"), ("3", "cubejobs_regions"), ("3", "cubejobs_lanes")):
            page = self.of("share", "man", f"man{section}", f"{name}.{section}")
            must("NAME" in output(["man", "-l", page], env={**os.environ, "MANWIDTH": "80"}), f"no page {name}")

    def with_the_program(self):
        jobs = self.of("share", "doc", "cubejobs", "examples", "jobs.csv")
        said = output([self.of("bin", "cubejobs"), "run", "--dim", "3", jobs])
        must(said.startswith("lane,seq,kind,dim,result,rounds,messages\n0,0,"), f"the program says {said[:80]!r}")
