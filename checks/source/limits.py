"""Fails where a source, a definition or a proof writes the number of a limit and not its name.

It reads the limits (src/limits.rt of cube_shape and alloc_bits, src/sizes.rt of lanes), and looks in all crates
for each literal that is such a number or a power of interest, or one less or more, in whatever form: `1024`, `0x400`,
`1 << 10`. A limit whose name an earlier file has too is called by its crate: `lanes::MAX_LANES`. Comments do not
count, nor do tests, whose rows are worked by hand. OTHERS says what else such a number may be; an entry that no literal
needs fails too, and so does a limit without a sentence. C, Rust, the page and documents cannot name a limit: WRITTEN
says where they write it out, and each of these numbers must be that of its limit. So does OF_OTHERS of limits of other
crates, whose numbers it does not look for.
"""
import re

from checks.lib.rattle_source import uncommented
from checks.lib.repository import LIMITS, crate_files, limits, place, read
from checks.lib.rows import print_faults

# Where, in which words, and what the number is there.
OTHERS = (
    (r"jobs_csv/", r"48 \+|- 48|== 48|48 ≤ byte", "the byte of the digit 0"),
    (r"jobs_csv/proofs/CsvRecords\.antt", r"c == 13", "the byte of a carriage return"),
    (r"jobs_csv/.*/(name|Name|NameLemmas|PlainLemmas)\.", r"1[67]", "the bytes of a name"),
    (r"(cli_args/src/command_line|jobs_csv/src/wanted)\.rt", r"1 to 16 bytes", "the bytes of a name"),
    (r"cli_args/src/command_line\.rt", r"  105 bytes, and 16 for each item", "the bytes of a scan"),
    (r"cli_args/", r'default_value\("16"\)|codes "16"', "the room of a line where no word says it"),
    (r"uses/src/(answering|whole)\.rt", r"capacity: 16", "the room of this caller's line"),
    (r"cubejobs_(lanes|plan|regions|sched)/src/codes\.rt", r"[A-Z_]+: u32 = \d+;", "the code of an answer"),
    (r"\w+/proofs/", r"search \(.*\) depth 20", "how deep a search goes"),
    (r"cli_commands/src/progress\.rt", r"PAUSE: u64 = 20", "the pause of the line of progress"),
    (r"cube_bench/src/rounds\.rt", r"MAX_DIM: u32 = 20", "the largest job that is measured"),
    (r"cube_bench/src/regions/random\.rt", r"<< 1[37]|in 0\.\.20", "the shifts of the generator and its first turns"),
    (r"cube_bench/src/regions/\w+\.rt", r"next\(\) >> 20", "the low bits of a random number"),
    (r"cube_bench/src/regions/\w+\.rt", r"padding: \[(0|u64); 16\]", "the words of two cache lines"),
    # Limits that have to be written out: when one is changed, its entry here is one that no literal needs.
    (r"cli_args/src/command_line\.rt", r"lane is below 16", "MAX_LANES in the help"),
    (r"jobs_csv/src/wanted\.rt", r"a number below 16", "MAX_LANES in a list of refusals"),
)
# Which file writes a limit, in which words, and which limit it is.
WRITTEN = (
    ("include/cubejobs_plan.h", r"#define CUBEJOBS_PLAN_MAX_DIM (\d+)", "MAX_BITMAP_DIM"),
    ("include/cubejobs_sched.h", r"#define CUBEJOBS_SCHED_MAX_DIM (\d+)", "MAX_BITMAP_DIM"),
    ("include/cubejobs_fit.h", r"#define CUBEJOBS_FIT_MAX_DIM (\d+)", "MAX_BITMAP_DIM"),
    ("include/cubejobs_fit.h", r"free blocks of the dimensions 0 to (\d+)", "MAX_BITMAP_DIM"),
    ("include/cubejobs_regions.h", r"#define CUBEJOBS_REGIONS_MAX_DIM (\d+)", "MAX_BITMAP_DIM"),
    ("include/cubejobs_lanes.h", r"#define CUBEJOBS_LANES_MAX_LANES (\d+)", "lanes::MAX_LANES"),
    ("include/cubejobs_lanes.h", r"#define CUBEJOBS_LANES_MAX_WORKERS (\d+)", "MAX_WORKERS"),
    ("include/cubejobs_lanes.h", r"#define CUBEJOBS_LANES_MAX_CAPACITY (\d+)", "lanes::MAX_CAPACITY"),
    ("include/cubejobs_lanes.h", r"There are 1 to ([\d,]+) lanes and as many", "lanes::MAX_LANES"),
    ("include/cubejobs_lanes.h", r"each lane holds 1 to ([\d,]+) jobs", "lanes::MAX_CAPACITY"),
    ("rust/src/fit_ffi.rs", r"const MAX_DIM: u32 = (\d+);", "MAX_BITMAP_DIM"),
    ("rust/src/regions_ffi.rs", r"const MAX_DIM: u32 = (\d+);", "MAX_BITMAP_DIM"),
    ("rust/src/regions_ffi.rs", r"const FREE_PLACES: usize = (\d+);", "MAX_BITMAP_DIM + 1"),
    ("rust/src/sched_ffi.rs", r"const MAX_DIM: u32 = (\d+);", "MAX_BITMAP_DIM"),
    ("view/index.html", r"const MAX_DIM = (\d+);", "MAX_DIM"),
    ("view/index.html", r"const MAX_STATIONS = (\d+);", "MAX_STATIONS"),
    ("mutants/cube_core/unmark_of_ones_own_mark.edit", r"\(u % (\d+)\)", "MAX_STATIONS"),
    ("mutants/cube_core/unmark_of_ones_own_mark.edit", r"\(s % (\d+)\)", "MAX_STATIONS"),
    ("mutants/cube_core/unmark_of_ones_own_mark.edit", r"\(station % (\d+)\)", "MAX_STATIONS"),
    ("README.md", r"has machines of dimension 0 to (\d+)", "MAX_DIM"),
    ("README.md", r"any number of blocks; 2\^(\d+) processors", "MAX_BITMAP_DIM"),
    ("README.md", r"lowest free block, in memory of yours \| one call at a time; 2\^(\d+) processors",
     "MAX_BITMAP_DIM"),
    ("README.md", r"A\s+run has (\d+) lanes", "MAX_LANES"),
    ("README.md", r"lanes, 1 to (\d+)\s+dispatchers", "MAX_DISPATCHERS"),
    ("README.md", r"a queue\s+of 1 to ([\d,]+) jobs", "MAX_CAPACITY"),
    ("README.md", r"([\d,]+) lanes and workers; 1 to", "lanes::MAX_LANES"),
    ("README.md", r"lanes and workers; 1 to ([\d,]+) jobs in a lane", "lanes::MAX_CAPACITY"),
    ("docs/THEOREM.md", r"dimension 0\s+to (\d+)", "MAX_DIM"),
    ("docs/THEOREM.md", r"fixed: (\d+) lanes", "MAX_LANES"),
    ("docs/THEOREM.md", r"lanes, (\d+) workers", "MAX_DISPATCHERS"),
    ("docs/THEOREM.md", r"a queue of 1 to ([\d,]+) jobs", "MAX_CAPACITY"),
    ("docs/C.md", r"largest dimension \| (\d+)", "MAX_BITMAP_DIM"),
    ("docs/C.md", r"largest dimension \| \d+ \| (\d+)", "MAX_BITMAP_DIM"),
    ("docs/RUST.md", r"FirstFit` \| dimension 0 to (\d+)", "MAX_BITMAP_DIM"),
    ("docs/RUST.md", r"regions::Machine` \| dimension 0 to (\d+)", "MAX_BITMAP_DIM"),
    ("docs/ALGORITHM.md", r"`n` is at most (\d+)", "MAX_DIM"),
    ("docs/GLOSSARY.md", r"one of at most (\d+) users of the machine", "MAX_STATIONS"),
)
# The same of a constant of another file.
OF_OTHERS = (
    ("include/cubejobs_plan.h", r"#define CUBEJOBS_PLAN_MAX_JOBS (\d+)", "crates/sched_jobs/src/nodes.rt", "MAX_SLOTS"),
    ("include/cubejobs_plan.h", r"#define CUBEJOBS_PLAN_CLASSES (\d+)", "crates/sched_jobs/src/lines.rt", "CLASSES"),
    ("include/cubejobs_sched.h", r"#define CUBEJOBS_SCHED_MAX_JOBS (\d+)", "crates/sched_jobs/src/nodes.rt",
     "MAX_SLOTS"),
    ("include/cubejobs_sched.h", r"#define CUBEJOBS_SCHED_CLASSES (\d+)", "crates/sched_jobs/src/lines.rt", "CLASSES"),
    ("include/cubejobs_sched.h", r"#define CUBEJOBS_SCHED_MAX_WORKERS (\d+)", "crates/sched_board/src/workers.rt",
     "MAX_WORKERS"),
    ("rust/src/sched_ffi.rs", r"const MAX_JOBS: u32 = ([\d_]+);", "crates/sched_jobs/src/nodes.rt", "MAX_SLOTS"),
    ("rust/src/sched_ffi.rs", r"const CLASSES: u8 = (\d+);", "crates/sched_jobs/src/lines.rt", "CLASSES"),
    ("rust/src/sched_ffi.rs", r"const MAX_WORKERS: u32 = ([\d_]+);", "crates/sched_board/src/workers.rt", "MAX_WORKERS"),
    ("docs/RUST.md", r"2\^24 jobs; ([\d,]+) workers", "crates/sched_board/src/workers.rt", "MAX_WORKERS"),
)
SUFFIX = r"(?:[ui](?:8|16|32|64|128|size))?"
POWER = rf"(?:(?P<base>[12]){SUFFIX}\s*(?P<sign>\^|<<|\.pow\()\s*)?"
# A number, with the power that it may be the exponent of; no part of a name, and no field such as `pair.0`.
DIGITS = r"(?P<digits>0[xob][\da-fA-F_]+|\d[\d_]*?)"
LITERAL = re.compile(rf"(?<![\w\-])(?<!(?<!\.)\.){POWER}{DIGITS}{SUFFIX}(?![\w\-]|\.\d)")


def value(match):
    digits = match["digits"].replace("_", "")
    number = int(digits) if digits.isdecimal() else int(digits, 0)
    if match["sign"] is None:
        return number
    return int(match["base"]) << number if match["sign"] == "<<" else int(match["base"]) ** number


def named_numbers():
    """Returns what each number of interest is called: each limit, some powers, and one less or more."""
    named, words = {}, {}
    for home, _, name, text in limits():
        own = f"{home.split('/')[1]}::{name}" if name in named else name
        named[own] = named[text] if text in named else value(LITERAL.fullmatch(text))
    named["2^MAX_DIM"] = 2 ** named["MAX_DIM"]
    named["2^(MAX_DIM + 1)"] = 2 ** (named["MAX_DIM"] + 1)
    named["2^MAX_BITS_DIM"] = 2 ** named["MAX_BITS_DIM"]
    for name, number in named.items():
        for near in (number - 1, number, number + 1):
            words.setdefault(near, []).append(name + ("", " + 1", " - 1")[near - number])
    return words


def miswritten(words):
    for file, pattern, name in WRITTEN:
        found = re.findall(pattern, read(file))
        if len(found) != 1:
            yield f"{file}: {name} stands {len(found)} times in the words {pattern!r}, and not once"
        elif name not in words.get(int(found[0].replace(",", "")), []):
            yield f"{file}: {found[0]} is not {name}"


def miswritten_of_others():
    for file, pattern, home, name in OF_OTHERS:
        found = re.findall(pattern, read(file))
        limit = re.search(rf"^pub const {name}: \w+ = (.*);", read(home), re.M)
        numbers = [re.sub("[,_]", "", it) for it in found]
        if not limit or numbers != [str(value(LITERAL.fullmatch(limit[1])))]:
            yield f"{file}: {pattern!r} is {found}, and {name} of {home} is {limit and limit[1]}"


def sources():
    """Yields the lines that count: place, number and text without a comment."""
    for file in crate_files(".rt", ".antt"):
        if place(file) not in LIMITS and not re.search(r"/tests_[a-z]+/|/tests\.rt$", file):
            for number, line in enumerate(uncommented(read(file), file.endswith(".antt")).splitlines(), 1):
                yield place(file), number, line


def unnamed(words):
    """Yields each number that should be a name, and each entry of OTHERS that no number needs."""
    needed = set()
    for file, number, line in sources():
        for match in (found for found in LITERAL.finditer(line) if value(found) in words):
            meant = {entry for entry in OTHERS if re.match(f"crates/(?:{entry[0]})", file) and any(
                other.start() <= match.start("digits") < other.end() for other in re.finditer(entry[1], line))}
            needed |= meant
            if not meant:
                yield f"{file}:{number}: {match[0]} is {' or '.join(words[value(match)])}"
    for entry in OTHERS:
        if entry not in needed:
            yield f"limits: no literal needs the entry {entry[1]!r} for {entry[0]!r}"


def main(_):
    words = named_numbers()
    untold = [f"{home}: no sentence says what {name} is" for home, sentence, name, _ in limits() if not sentence]
    return print_faults([*untold, *unnamed(words), *miswritten(words), *miswritten_of_others()])
