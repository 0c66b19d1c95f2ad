"""What an installation has, how its packages compare versions, and what its examples show."""
from checks.lib.repository import version_of_sources

# The examples in C and C++ that end by themselves, with the words that they need. Their output is beside them.
EXAMPLES = ("arena.c", "blocks.cpp", "fit.c", "lanes.c", "lanes.cpp", "plan.c", "regions.c", "rounds.c", "sched.c",
            "tasks.cpp",
            "wait.c")
# The examples in Rust, with what each prints. In `blocks` there are 800 blocks each of 1, 2, 4, 8 and 16 processors,
# and in `park` the payloads 1 to 10 are added up. In `global_alloc` each of 4 threads makes vectors of 1 + 7t mod 3000
# bytes for each t below 10,000.
IN_RUST = {
    "jobs": "40 jobs ran on 248 processors in all\n",
    "first_fit": "0..2 4..8, then: a part of each block of this dimension is in use\n",
    "groups": "3000 jobs on groups of 16 workers\n", "blocks": "4000 blocks with 24800 processors in all\n",
    "park": "55\n", "tasks": "8 tasks ran jobs with a sum of 499500\n", "batch": "40 jobs have ended, and 0 are left\n",
    "global_alloc": "59452000 bytes in vectors, and each had one owner\n"}
# Words of find_package, and what CMake says where it finds nothing. Before a release, its version is not there yet.
NUMBER, _, DEV = version_of_sources().partition("-")
OTHER = "compatible with requested version"
PACKAGES = (
    ("cubejobs", ""), (f"cubejobs {NUMBER} REQUIRED", DEV and OTHER), ("cubejobs 0.1 REQUIRED", OTHER),
    ("cubejobs 99.0 REQUIRED", OTHER), ("cubejobs REQUIRED COMPONENTS fit plan sched regions_static lanes rounds", ""),
    ("cubejobs REQUIRED COMPONENTS fit nonsense",
     "cubejobs has no component nonsense, but fit, plan, sched, regions, lanes and rounds"),
    ("cubejobs REQUIRED OPTIONAL_COMPONENTS nonsense", ""))
# Versions, how pkg-config and CMake must compare them, and which requests of CMake they must serve or refuse.
VERSIONS = (
    ("0.2.1-dev", "0.2.1~dev", "0.2.0.99", "0.2 0.2.0", "0.2.1 0.2.2 0.1 0.3 0.20 1.2"),
    ("0.2.1", "0.2.1", "0.2.1", "0.2 0.2.0 0.2.1", "0.2.2 0.1.9 0.3"),
    ("0.3.0-dev", "0.3.0~dev", "0.2.99.99", "", "0.3 0.3.0 0.2 0.2.9"),
    ("1.0.0-dev", "1.0.0~dev", "0.99.99.99", "", "1.0 1.0.0 0.99"),
    ("1.2.10-dev", "1.2.10~dev", "1.2.9.99", "1.2.9 1.2", "1.2.10 1.1"),
    ("1.10.0", "1.10.0", "1.10.0", "1.10 1.10.0", "1.1 1.9 1.10.1"),
    ("10.10.10-dev", "10.10.10~dev", "10.10.9.99", "10.10.9", "10.10.10"),
    ("2.10.0-dev", "2.10.0~dev", "2.9.99.99", "", "2.10 2.9"))
# The files of each part, as patterns of their paths below the prefix: each file fits one, and each pattern has a file.
DOC = r"share/doc/cubejobs"
PARTS = {
    "c": (r"include/cubejobs\w*\.(c|h|hpp)", r"lib/libcubejobs_(fit|plan|sched|regions|lanes|rounds)\.a",
          r"lib/libcubejobs_(fit|plan|sched|regions|lanes|rounds)\.so(\.\d+\.\d+(\.\d+)?)?",
          r"lib/pkgconfig/cubejobs\w*\.pc",
          r"lib/cmake/cubejobs/cubejobs-config(-version)?\.cmake", r"share/man/man3/cubejobs_\w+\.3",
          rf"{DOC}/docs/C\.md",
          rf"{DOC}/examples/\w+\.c(pp)?", rf"{DOC}/examples/(?!processes|day|gang)\w+\.out",
          rf"{DOC}/examples/batch\.jobs",
          rf"{DOC}/examples/mpi/\w+\.(c|md)"),
    "rust": (r"share/cubejobs/rust/.*", rf"{DOC}/docs/RUST\.md", rf"{DOC}/examples/batch\.jobs"),
    "python": (r"share/cubejobs/python/cubejobs/(\w+\.py|py\.typed)", rf"{DOC}/examples/(processes|day|gang)\.(py|out)",
               r"lib/libcubejobs_(fit|plan|sched|regions)\.so\.\d+\.\d+(\.\d+)?"),
    "program": (r"bin/cubejobs", r"share/man/man1/cubejobs\.1", r"share/cubejobs/index\.html",
                r"share/bash-completion/completions/cubejobs", r"share/zsh/site-functions/_cubejobs",
                r"share/fish/vendor_completions\.d/cubejobs\.fish", rf"{DOC}/docs/GUIDE\.md",
                rf"{DOC}/examples/(schedules/)?[\w-]+\.csv"),
    "docs": (rf"{DOC}/(README|CHANGELOG|SECURITY)\.md", rf"{DOC}/docs/.*", rf"{DOC}/examples/.*"),
}
