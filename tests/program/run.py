"""Rows of `run`, and the refused files of jobs."""
from checks.lib.rows import Row, must_answer
from tests.program.texts import (
    GOOD, JOBS, MOST, NO_HEADER, REPLIES, REPLY, VALUES, answered, first, lines_of, many, refused)

OPERATIONS = ("add", "min", "max", "xor", "and", "or")
# Dispatchers, capacities and `--quiet` of `run` and `report`, none of which changes a byte.
SHOPS = (
    "", "--quiet", "--dispatchers 1 --capacity 1", "--dispatchers 2", "--capacity=1024 --dispatchers=4",
    "--dispatchers 16 --capacity 1",
)
RANKS, ONES = first(4096), many(4096, 1)
# The dimension, records of jobs, and the replies to them.
RUNS = {
    "no jobs": ("3", "", ""),
    "an all-reduce": ("3", "0,allreduce,add,0,1 2 3 4", "0,0,allreduce,2,10 10 10 10,2,8"),
    "a scan": ("3", "0,scan,add,0,1 2 3 4 5 6 7 8", "0,0,scan,3,1 3 6 10 15 21 28 36,3,24"),
    "an exclusive scan": ("3", "0,exscan,add,0,1 2 3 4 5 6 7 8", "0,0,exscan,3,0 1 3 6 10 15 21 28,3,24"),
    "an exclusive scan of one": ("0", "0,exscan,add,0,7", "0,0,exscan,0,0,0,0"),
    "a sum that wraps": ("1", "0,allreduce,add,0,18446744073709551615 1", "0,0,allreduce,1,0 0,1,2"),
    "a reduction": ("2", "0,reduce,min,2,5 3 9 4", "0,0,reduce,2,- - 3 -,2,3"),
    "a broadcast": ("2", "0,broadcast,-,1,4 9", "0,0,broadcast,1,9 9,1,1"),
    "a machine of one processor": ("0", "0,scan,add,0,7", "0,0,scan,0,7,0,0"),
    "the last lane of a machine of one processor": ("0", "15,allreduce,add,0,7", "15,0,allreduce,0,7,0,0"),
    "a root on a machine of one processor": (
        "0", "0,broadcast,-,0,7; 0,reduce,or,0,7", "0,0,broadcast,0,7,0,0; 0,1,reduce,0,7,0,0"),
    "a reduction in lane 3": ("1", "3,reduce,add,1,5 6", "3,0,reduce,1,- 11,1,1"),
    "two kinds in one lane": (
        "2", "0,reduce,min,2,5 3 9 4; 0,broadcast,-,1,4 9", "0,0,reduce,2,- - 3 -,2,3; 0,1,broadcast,1,9 9,1,1"),
    "the largest machine": ("12", "15,reduce,max,0,1 2", "15,0,reduce,1,2 -,1,1"),
    "and": ("2", "0,allreduce,and,0,12 10", "0,0,allreduce,1,8 8,1,2"),
    "or": ("2", "0,allreduce,or,0,12 10", "0,0,allreduce,1,14 14,1,2"),
    "two lanes": ("3", "1,allreduce,xor,0,5 6; 0,scan,max,0,2 9 4 7; 1,reduce,or,1,8 1",
        "0,0,scan,2,2 9 9 9,2,8; 1,0,allreduce,1,3 3,1,2; 1,1,reduce,1,- 9,1,1"),
    "lanes are sorted": (
        "3", "1,allreduce,add,0,5 6; 0,allreduce,add,0,7", "0,0,allreduce,0,7,0,0; 1,0,allreduce,1,11 11,1,2"),
    "two lanes in turn": ("3",
        "10,allreduce,add,0,1; 2,allreduce,add,0,2; 10,allreduce,add,0,3; 2,allreduce,add,0,4 4; 10,allreduce,add,0,5",
        "2,0,allreduce,0,2,0,0; 2,1,allreduce,1,8 8,1,2; 10,0,allreduce,0,1,0,0; 10,1,allreduce,0,3,0,0; "
        "10,2,allreduce,0,5,0,0"),
    "five jobs of each lane": ("2", [f"{15 - at % 16},allreduce,add,0,{at} 1" for at in range(80)],
        [f"{lane},{seq},allreduce,1,{many(2, 16 * seq + 16 - lane)},1,2" for lane in range(16) for seq in range(5)]),
    "jobs as large as the machine": ("12", f"0,broadcast,-,4095,{RANKS}; 0,reduce,max,2048,{RANKS};"
        f"0,allreduce,add,0,{ONES}; 0,scan,add,0,{ONES}; 0,exscan,add,0,{ONES}",
        f"0,0,broadcast,12,{many(4096, 4095)},12,4095; 0,1,reduce,12,{many(2048, '-')} 4095 {many(2047, '-')},12,4095;"
        f"0,2,allreduce,12,{many(4096, 4096)},12,49152; 0,3,scan,12,{first(4096, 1)},12,49152;"
        f"0,4,exscan,12,{RANKS},12,49152"),
    # against numbers with a sign, numbers of 53 bits as they are in a double, sums that stop at a limit
    "the least of numbers about 2^63": (
        "2", "0,scan,min,0,18446744073709551615 9223372036854775808 9223372036854775807 9223372036854775809",
        "0,0,scan,2,18446744073709551615 9223372036854775808 9223372036854775807 9223372036854775807,2,8"),
    "the greatest of numbers about 2^63": ("2",
        "0,scan,max,0,9223372036854775807 9223372036854775808 18446744073709551614 18446744073709551615; "
        "0,reduce,max,3,18446744073709551615 18446744073709551614 9223372036854775808 9223372036854775807",
        "0,0,scan,2,9223372036854775807 9223372036854775808 18446744073709551614 18446744073709551615,2,8; "
        "0,1,reduce,2,- - - 18446744073709551615,2,3"),
    "sums past 2^63 and past 2^64": ("2", "0,scan,add,0,9223372036854775807 1 9223372036854775807 2",
        "0,0,scan,2,9223372036854775807 9223372036854775808 18446744073709551615 1,2,8"),
    "bits past 2^63": ("1",
        "0,reduce,xor,1,18446744073709551615 1; 0,allreduce,and,0,18446744073709551615 9223372036854775808; "
        "0,allreduce,or,0,9223372036854775808 1; 0,broadcast,-,0,18446744073709551615 0",
        "0,0,reduce,1,- 18446744073709551614,1,1; 0,1,allreduce,1,9223372036854775808 9223372036854775808,1,2; "
        "0,2,allreduce,1,9223372036854775809 9223372036854775809,1,2; "
        "0,3,broadcast,1,18446744073709551615 18446744073709551615,1,1"),
    # against records that end with a buffer of 8 or 16 KiB
    "a record of 21 KB": ("10", f"0,scan,add,0,{many(1024, 2**64 - 1)}",
        f"0,0,scan,10,{' '.join(str(2**64 - 1 - rank) for rank in range(1024))},10,10240"),
    # numbers of items that fill no subcube: a place with no item is never shown, and changes no result
    "an all-reduce of three": ("3", "0,allreduce,add,0,1 2 3", "0,0,allreduce,2,6 6 6,2,8"),
    "an exclusive scan of three": ("3", "0,exscan,min,0,9 4 7", "0,0,exscan,2,18446744073709551615 9 4,2,8"),
    "an exclusive scan of seven, by each operation": ("3", [f"0,exscan,{op},0,12 10 14 8 9 11 13" for op in OPERATIONS],
        "0,0,exscan,3,0 12 22 36 44 53 64,3,24; 0,1,exscan,3,18446744073709551615 12 10 10 8 8 8,3,24;"
        "0,2,exscan,3,0 12 12 14 14 14 14,3,24; 0,3,exscan,3,0 12 6 8 0 9 2,3,24;"
        "0,4,exscan,3,18446744073709551615 12 8 8 8 8 8,3,24; 0,5,exscan,3,0 12 14 14 14 15 15,3,24"),
    "a scan of five": ("3", "0,scan,min,0,9 4 7 3 8", "0,0,scan,3,9 4 4 3 3,3,24"),
    "a reduction of three": ("3", "0,reduce,max,2,5 3 9", "0,0,reduce,2,- - 9,2,3"),
    "a broadcast of three": ("3", "0,broadcast,-,1,4 9 6", "0,0,broadcast,2,9 9 9,2,3"),
    "seven of eight, by each operation": ("3", [f"0,allreduce,{op},0,12 10 14 8 9 11 13" for op in OPERATIONS],
        [f"0,{seq},allreduce,3,{many(7, total)},3,24" for seq, total in enumerate((77, 8, 14, 15, 8, 15))]),
    "one item less than the largest machine has processors": (
        "12", f"0,scan,add,0,{many(4095, 1)}; 0,reduce,min,4094,{many(4095, 7)}",
        f"0,0,scan,12,{first(4095, 1)},12,49152; 0,1,reduce,12,{many(4094, '-')} 7,12,4095"),
    "1,000 numbers": ("10", f"0,allreduce,add,0,{first(1000, 1)}", f"0,0,allreduce,10,{many(1000, 500500)},10,10240"),
    "jobs of mixed sizes": ("3",
        "2,scan,add,0,1 1 1; 0,allreduce,max,0,4 8 6 2 5; 2,reduce,xor,0,7; 0,broadcast,-,5,1 2 3 4 5 6 7; "
        "2,scan,or,0,1 2",
        "0,0,allreduce,3,8 8 8 8 8,3,24; 0,1,broadcast,3,6 6 6 6 6 6 6,3,7; 2,0,scan,2,1 2 3,2,8; "
        "2,1,reduce,0,7,0,0; 2,2,scan,1,1 3,1,2"),
    "quoted fields": ("3", '"0",allreduce,add,0,"1 2"', "0,0,allreduce,1,3 3,1,2"),
    "blank lines": ("3", ["", "0,allreduce,add,0,1 2", ""], "0,0,allreduce,1,3 3,1,2"),
    "carriage returns": ("3", ["0,allreduce,add,0,1 2\r"], "0,0,allreduce,1,3 3,1,2"),
}

# The fault, and the lines after the header, at dimension 3.
REFUSED = {
    "no byte": ("record 0: Fields", NO_HEADER),
    "a header of four fields": ("record 0: Fields", NO_HEADER, "lane,kind,op,root"),
    "a header with another text": ("record 0: Word", NO_HEADER, "lane,kind,op,root,item"),
    "five other fields": ("record 0: Word", NO_HEADER, "a,b,c,d,e"),
    "four fields": ("Fields", "0,allreduce,add,0"),
    "three items and a bad root": ("Job BadRoot", "0,allreduce,add,1,1 2 3"),
    "the root of a broadcast of three items": ("Job BadRoot", "0,broadcast,-,3,4 9 6"),
    "the root of a reduction of five items": ("Job BadRoot", "0,reduce,min,7,4 9 6 2 5"),
    "nine items after a good record": (
        "record 2: Job TooLarge", "0,scan,add,0,1 2 3", "0,scan,add,0,1 2 3 4 5 6 7 8 9"),
    "sixteen items": ("Job TooLarge", f"0,allreduce,add,0,{many(16, 1)}"),
    "sixteen items and a bad root": ("Job TooLarge", f"0,reduce,add,99,{many(16, 1)}"),
    "no items": ("Job Empty", "0,allreduce,add,0,"),
    "no items and a bad root": ("Job Empty", "0,broadcast,-,1,"),
    "a root past the items": ("Job BadRoot", "0,broadcast,-,2,4 9"),
    "the root of an exclusive scan": ("Job BadRoot", "0,exscan,add,1,4 9"),
    "an exclusive scan with no operation": ("Word", "0,exscan,-,0,4"),
    "the root of a scan": ("Job BadRoot", "0,scan,add,1,4 9"),
    "the root of an all-reduce": ("Job BadRoot", "0,allreduce,add,1,4 9"),
    "lane 16": ("Number", "16,scan,add,0,4"),
    "a zero too many": ("Number", "0,allreduce,add,00,1"),
    "two spaces": ("Number", "0,allreduce,add,0,1  2"),
    "an item of 2^64": ("Number", "0,allreduce,add,0,18446744073709551616"),
    "a sign": ("Number", "0,allreduce,add,0,+1"),
    "a cut record": ("record 2: Number", "0,scan,add,0,1 2", "0,scan,add,0,1 2 "),
    "no such operation": ("Word", "0,scan,plus,0,4"),
    "no such kind": ("Word", "0,gather,add,0,4"),
    "a reduction with no operation": ("Word", "0,reduce,-,0,1"),
    "a broadcast with an operation": ("Word", "0,broadcast,add,0,1"),
    "a broadcast with nothing for an operation": ("Word", "0,broadcast,,0,1"),
    "a kind that is no text": ("Word", "0,\udcff,add,0,1"),
    "the lane before the kind": ("Number", "16,gather,add,0,4"),
    "the first of two faults": ("record 2: Word", "0,scan,add,0,4", "0,scan,plus,0,4", "x"),
    # against another order of faults than the fields from left to right, then the job
    "nine items": ("Job TooLarge", "0,allreduce,add,0,1 1 1 1 1 1 1 1 1"),
    "nine items and a bad root": ("Job TooLarge", "0,reduce,add,9,1 1 1 1 1 1 1 1 1"),
    "a bad root and an item that is no number": ("Number", "0,broadcast,-,9,4 x"),
    "three items, of which one is no number": ("Number", "0,scan,add,1,4 x 6"),
    "a kind before an item": ("Word", "0,gather,add,0,x"),
    "an operation before a root": ("Word", "0,scan,plus,x,4"),
    "six fields of which the first is no number": ("Fields", "x,scan,add,0,4,"),
    # against numbers that are cut to 8, 32 or 64 bits
    "lane 256": ("Number", "256,scan,add,0,4"),
    "lane 2^32": ("Number", "4294967296,scan,add,0,4"),
    "lane 2^64": ("Number", "18446744073709551616,scan,add,0,4"),
    "a root of 2^32": ("Job BadRoot", "0,broadcast,-,4294967296,4 9"),
    "a root of 2^64 - 1": ("Job BadRoot", "0,reduce,add,18446744073709551615,4 9"),
    "a root of 2^64": ("Number", "0,broadcast,-,18446744073709551616,4 9"),
    "the root of a scan is 2^32": ("Job BadRoot", "0,scan,add,4294967296,4"),
    # against a cut that is noticed only where a number gets smaller: cut to 64 bits this is more than 3 * 10^18
    "an item of 3 * 10^19": ("Number", "0,scan,add,0,30000000000000000000"),
    # against other ways to write a number
    "an item with a zero too many": ("Number", "0,scan,add,0,07"),
    "an item of -0": ("Number", "0,scan,add,0,-0"),
    "an item with a point": ("Number", "0,scan,add,0,7.0"),
    "an item in other digits": ("Number", "0,scan,add,0,٧"),
    "an item in base 16": ("Number", "0,scan,add,0,0x7"),
    "an item with an underscore": ("Number", "0,scan,add,0,1_000"),
    # against words that only begin as they should, or that match in capital letters
    "a capital letter": ("Word", "0,Scan,add,0,7"),
    "a word that goes on": ("Word", "0,scans,add,0,7"),
    "a word that is cut short": ("Word", "0,scan,ad,0,7"),
    "a header in capital letters": ("record 0: Word", NO_HEADER, JOBS.upper()),
    "a header of six fields": ("record 0: Fields", NO_HEADER, JOBS + ",more"),
    # against fields that are trimmed, texts that end at NUL, and line ends that are line feeds alone
    "a space before the kind": ("Word", "0, scan,add,0,7"),
    "a space after the lane": ("Number", "0 ,scan,add,0,7"),
    "one space and no items": ("Number", "0,scan,add,0, "),
    "a tab between items": ("Number", "0,scan,add,0,7\t8"),
    "a line of one space": ("Fields", " "),
    "a carriage return within a line": ("Fields", "0,scan\r,add,0,7"),
    "a carriage return within quotes": ("Number", '0,scan,add,0,"7\r"'),
    "NUL after an item": ("Number", "0,scan,add,0,7\x00"),
    "NUL after a kind": ("Word", "0,scan\x00,add,0,7"),
    "a line of NUL": ("Fields", "\x00"),
    "the mark of an end of file after an item": ("Number", "0,scan,add,0,7\x1a"),
    # against lines that are cut at each comma and line end, and quotes that are dropped, or that open anywhere
    "a comma within quotes": ("Number", '0,scan,add,0,"7,8"'),
    "a doubled quote, and a comma within quotes": ("Number", '0,scan,add,0,"7"",8"'),
    "a doubled quote in a word": ("Word", '0,"sc""an",add,0,7'),
    "a quote within a word": ("Word", '0,sc"an",add,0,7'),
    "a quote within a field, and a comma": ("Fields", '0,scan,add,0,7",8"'),
    "quotes with no items": ("Job Empty", '0,scan,add,0,""'),
    "a backslash in a word": ("Word", "0,sc\\an,add,0,7"),
    "a backslash in a word within quotes": ("Word", '0,"sc\\an",add,0,7'),
    "a word within single quotes": ("Word", "0,'scan',add,0,7"),
    "a space before quotes": ("Number", '0,scan,add,0, "7"'),
    "semicolons": ("Fields", "0;scan;add;0;7"),
    "a line of two quotes": ("Fields", '""'),
    "a line end within quotes in a number": ("Number", '"0\n",scan,add,0,7'),
    "a line end within quotes in the header": ("record 0: Word", NO_HEADER, '"lane\n",kind,op,root,items'),
    # against lines that are counted in place of records, and comments
    "a word after blank lines": ("Word", "", "", "0,scan,plus,0,4"),
    "blank lines alone": ("record 0: Fields", NO_HEADER, "", ""),
    "a line of # after the header": ("Fields", "# jobs"),
    "a job after #": ("Number", "#0,scan,add,0,7"),
    "a line of # before the header": ("record 0: Fields", NO_HEADER, "# jobs", JOBS, "0,scan,add,0,7"),
    # against byte order marks that are taken off elsewhere than at the start of the file
    "a byte order mark before a job": ("Number", "\ufeff0,scan,add,0,7"),
    "two byte order marks": ("record 0: Word", NO_HEADER, "\ufeff\ufeff" + JOBS),
    "a byte order mark after a blank line": ("record 0: Word", NO_HEADER, "", "\ufeff" + JOBS),
    "two bytes of a byte order mark": ("record 0: Word", NO_HEADER, "\udcef\udcbb" + JOBS),
    "a byte order mark alone": ("record 0: Fields", NO_HEADER, "\ufeff"),
    "a job too many": ("record 1000001: TooMany", *["3,allreduce,add,0,1"] * MOST, "x"),
}

# Other texts of the same file of one job.
UNUSUAL = {
    "a last line with no end": GOOD.rstrip("\n"),
    "a byte order mark": "\ufeff" + GOOD,
    "a quote that stays open": f'{JOBS}\n0,scan,add,0,"7',
    "a blank line first": "\n" + GOOD,
    # against line ends that are line feeds alone, fields that end with their quotes, quotes that are read before a mark
    "line ends that are carriage returns": GOOD.replace("\n", "\r"),
    "blank lines with each line end": f"{JOBS}\r\r\n\n\r0,scan,add,0,7\n\r",
    "each field in quotes": '"lane","kind","op","root","items"\n"0","scan","add","0","7"\n',
    "text after the quotes of a field": f'{JOBS}\n0,"sc"an,""add,0,7\n',
    "a byte order mark before quotes": f'\ufeff"lane"{JOBS[4:]}\n0,scan,add,0,7\n',
}

# Words at dimension 3, in other ways. A number of a command line is one as Rust reads it, unlike one in a file.
OTHER_WORDS = {
    "one word for an option and its number": "--dim=3",
    "zeros before a number": "--dim 003",
    "a sign before a number": "--dim +3",
    "the dimension last": "--capacity 1 --quiet --dim 3",
    "two dashes at the end": "--dim 3 --",
}


# The dimension, records of jobs, and the lines of `--long`.
LONG = {
    "no jobs": ("3", "", ""),
    "a scan": ("2", "0,scan,add,0,4 5 6", "0,0,0,4; 0,0,1,9; 0,0,2,15"),
    # against lines of places that hold nothing, and places that are counted from 1
    "a reduction": ("2", "0,reduce,min,2,5 3 9 4", "0,0,2,3"),
    # against lines in the order of the file, or of the places of all jobs
    "three jobs in two lanes": (
        "1", "7,allreduce,max,0,2 9; 3,exscan,add,0,8 1; 7,broadcast,-,1,4 6",
        "3,0,0,0; 3,0,1,8; 7,0,0,9; 7,0,1,9; 7,1,0,6; 7,1,1,6"),
    "the greatest number": ("0", "15,scan,or,0,18446744073709551615", "15,0,0,18446744073709551615"),
}


def values_of(replies):
    """Returns the lines of `--long` for lines of replies: one for each number of a result."""
    for reply in lines_of(replies):
        lane, seq, _, _, result, _, _ = reply.split(",")
        yield from (f"{lane},{seq},{place},{value}" for place, value in enumerate(result.split(" ")) if value != "-")


def rows(program):
    for name, (n, given, out) in LONG.items():
        yield Row(f"run --long, worked: {name}", *answered(program, f"run --long --dim {n}", JOBS, given, VALUES, out))
    for name, (n, given, out) in RUNS.items():
        lines = [*values_of(out)]
        yield Row(f"run --long: {name}", *answered(program, f"run --dim {n} --long -q", JOBS, given, VALUES, lines))
    yield from refused(program, "run --long", {name: REFUSED[name] for name in ("no byte", "four fields", "lane 16")})
    for name, (n, given, out) in RUNS.items():
        for shop in SHOPS:
            yield Row(f"run {shop}: {name}", *answered(program, f"run --dim {n} {shop}", JOBS, given, REPLIES, out))
    for name, given in UNUSUAL.items():
        yield Row(f"run: {name}", must_answer, ([program, "run", "--dim", "3"], given, 0, REPLY, ""))
    for name, words in OTHER_WORDS.items():
        yield Row(f"run: {name}", must_answer, ([program, "run", *words.split()], GOOD, 0, REPLY, ""))
    yield from refused(program, "run", REFUSED)
