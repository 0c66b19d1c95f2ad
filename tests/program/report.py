"""Rows of `report`."""
from checks.lib.rows import Row
from tests.program.run import REFUSED, SHOPS
from tests.program.texts import JOBS, MOST, TOTALS, answered, first, many, refused


def totals(lanes, dims, total):
    """Returns the rows of a report, with counts worked by hand: lanes and dimensions with their counts, processors and
    idle ones, and what is free in a machine that is as large as the dimensions say."""
    size = len(dims) - 1
    rows = [f"lane,{lane},{counts}" for lane, counts in enumerate(lanes)]
    rows += [f"dim,{dim},{counts}" for dim, counts in enumerate(dims)]
    return [*rows, *(f"free,{dim},{2 ** (size - dim)},{2**size},0" for dim in range(size + 1)), f"total,-,{total}"]


NONE = "0,0,0"
# The dimension, records of jobs, and the counts of each lane, of each dimension, and of all.
REPORTS = {
    "no jobs": ("3", "", totals([NONE], [NONE] * 4, NONE)),
    "no jobs on a machine of one processor": ("0", "", totals([NONE], [NONE], NONE)),
    "two lanes": ("3", "1,allreduce,xor,0,5 6; 0,scan,max,0,2 9 4 7; 1,reduce,or,1,8 1",
        totals(["1,4,0", "2,4,0"], [NONE, "2,4,0", "1,4,0", NONE], "3,8,0")),
    "lanes that have no job": ("1", "3,allreduce,add,0,7; 3,scan,add,0,1 2; 1,broadcast,-,0,4 9",
        totals([NONE, "1,2,0", NONE, "2,3,0"], ["1,1,0", "2,4,0"], "3,5,0")),
    "one lane between that has no job": ("1", "2,allreduce,add,0,7; 2,scan,add,0,1 2; 0,broadcast,-,0,4 9",
        totals(["1,2,0", NONE, "2,3,0"], ["1,1,0", "2,4,0"], "3,5,0")),
    "five jobs of each lane": ("2", [f"{15 - at % 16},allreduce,add,0,{at} 1" for at in range(80)],
        totals(["5,10,0"] * 16, [NONE, "80,160,0", NONE], "80,160,0")),
    "jobs as large as the machine": (
        "12", [f"0,allreduce,add,0,{many(4096, 1)}"] * 4,
        totals(["4,16384,0"], [NONE] * 12 + ["4,16384,0"], "4,16384,0"),
    ),
    "jobs that do not fill their subcubes": ("3", "0,allreduce,add,0,1 2 3; 0,scan,min,0,9 4 7 3 8",
        totals(["2,12,4"], [NONE, NONE, "1,4,1", "1,8,3"], "2,12,4")),
    "idle processors of two lanes": ("2", "1,scan,xor,0,1 2 3; 0,reduce,add,2,5 3 9; 1,broadcast,-,0,4",
        totals(["1,4,1", "2,5,1"], ["1,1,0", NONE, "2,8,2"], "3,9,2")),
    "1,000 numbers": (
        "10", [f"0,allreduce,add,0,{first(1000, 1)}"] * 3,
        totals(["3,3072,72"], [NONE] * 10 + ["3,3072,72"], "3,3072,72"),
    ),
}
# The largest file of jobs that is answered.
MILLION = f"{MOST},{MOST},0"


def rows(program):
    for name, (n, given, out) in REPORTS.items():
        for shop in SHOPS:
            words = f"report --dim {n} {shop}"
            yield Row(f"report {shop}: {name}", *answered(program, words, JOBS, given, TOTALS, out))
    given, out = ["0,scan,add,0,7"] * MOST, totals([MILLION], [MILLION], MILLION)
    yield Row("report: a million jobs", *answered(program, "report --dim 0", JOBS, given, TOTALS, out))
    yield from refused(program, "report", REFUSED)
