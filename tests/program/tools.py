"""Rows of `check` and `messages`, which run no job and write no file."""
import os
import tempfile

from checks.lib.rows import Row, answer, must, must_answer, output, shown
from tests.program.texts import MOST

LISTED = "record,line,field,text,fault,wanted\n"
MESSAGES = "round,from,to\n"
JOBS_HEADER, COMMANDS_HEADER, CALLS_HEADER = "lane,kind,op,root,items\n", "command,name,dim\n", "station,call,arg\n"
LANE = '"a number below 16, with no sign and no leading zero"'
KIND = '"broadcast, reduce, allreduce, scan or exscan"'
FIVE, OTHER = '"5 fields: lane,kind,op,root,items"', "another file: this is the input of"
# The words after `check`, the input, the status, and the rows.
CHECKS = {
    "a good file": ("run --dim 3", JOBS_HEADER + "0,scan,add,0,1 2 3\n", 0, ""),
    "an empty list of jobs": ("run --dim 0", JOBS_HEADER, 0, ""),
    "no byte": ("run --dim 0", "", 1, f"0,1,,,Fields,{FIVE}\n"),
    # against a list that stops at the first fault, or leaves out the last record
    "the first and the last record": (
        "run --dim 3", JOBS_HEADER + "16,scan,add,0,1\n0,scan,add,0,1\n1,sum,add,0,1", 1,
        f"1,2,lane,16,Number,{LANE}\n3,4,kind,sum,Word,{KIND}\n"),
    "jobs that no machine of the dimension runs": (
        "run --dim 1", JOBS_HEADER + "0,scan,add,0,1 2 3\n0,scan,add,1,1\n0,scan,add,0,\n", 1,
        "1,2,,,Job TooLarge,no more items than the machine has processors\n"
        '2,3,,,Job BadRoot,"the rank of an item as root; for allreduce, scan and exscan 0"\n'
        "3,4,,,Job Empty,one item at least\n"),
    # against a line that counts records
    "a line after blank lines and a quoted line end": (
        "place --dim 3", COMMANDS_HEADER + '\n\n"free",a,-\n"free","\n",-\ntake,a,4\n', 1,
        '2,5,name,"\n",Word,"1 to 16 bytes, each of them a to z or a digit"\n'
        '3,7,dim,4,Number,"for take a number from 0 to N, for free -"\n'),
    # against the line before the record
    "a last record after a blank line, with no line end": (
        "replay", CALLS_HEADER + "0,run,-\n\n0,run,1", 1,
        '2,4,arg,1,Word,"for take a node, for step a number from 1 to 100, for any other -"\n'),
    "a dimension by its letter": ("run -n 1", JOBS_HEADER + "0,scan,add,0,1 2\n", 0, ""),
    "a schedule": (
        "replay", CALLS_HEADER + "0,step,0\n0,step,1\n0,stop,-\n", 1,
        '1,2,arg,0,Number,"for take a node, for step a number from 1 to 100, for any other -"\n'
        '3,4,call,stop,Word,"take, release, step, run or retire"\n'),
    "the input of place": ("run --dim 3", COMMANDS_HEADER + "take,a,1\n", 1, f"0,1,,,Fields,{OTHER} place\n"),
    "the input of run": ("place --dim 3", JOBS_HEADER, 1, f"0,1,,,Fields,{OTHER} run\n"),
    "the input of replay": ("place --dim 3", CALLS_HEADER, 1, f"0,1,command,station,Word,{OTHER} replay\n"),
    "a wrong header, and nothing after it": (
        "replay", "station,call,args\nx\n", 1, '0,1,arg,args,Word,"3 fields: station,call,arg"\n'),
    "a record too many": (
        "place --dim 0", COMMANDS_HEADER + "free,a,-\n" * (MOST + 2), 1,
        f"{MOST + 1},{MOST + 2},,,TooMany,no record after the last that a file may have\n"),
    "three faults of 300,000 records": (
        "place --dim 3",
        COMMANDS_HEADER + "".join("free,A,-\n" if at in (1, 150000, 300000) else "free,a,-\n" for at in range(1, 300001)),
        1, "".join(f'{at},{at + 1},name,A,Word,"1 to 16 bytes, each of them a to z or a digit"\n'
                   for at in (1, 150000, 300000))),
}
# The words after `messages`, and the rows.
LISTS = {
    "a broadcast of root 1": ("--shape broadcast --dim 2 --root 1", "0,1,0\n1,1,3\n1,0,2\n"),
    "a reduction to root 2": ("--shape reduce --dim 2 --root 2", "0,1,0\n0,3,2\n1,0,2\n"),
    "an all-reduce": ("--shape allreduce -n 1", "0,0,1\n0,1,0\n"),
    "a scan": ("--shape scan --dim 1", "0,0,1\n0,1,0\n"),
    "an exclusive scan": ("--shape=exscan --dim=1 --root=0", "0,0,1\n0,1,0\n"),
    "one processor": ("--shape reduce --dim 0", ""),
}
# The words, and the first line of standard error.
BAD = {
    "no kind of input": ("check", "'cubejobs check' requires a subcommand but one was not provided"),
    "no such kind": ("check report --dim 3", "unrecognized subcommand 'report'"),
    "no dimension": ("check run", "the following required arguments were not provided:"),
    "a dimension of a schedule": ("check replay --dim 3", "unexpected argument '--dim' found"),
    "an output": ("check run --dim 3 --output x", "unexpected argument '--output' found"),
    "a dimension that is too large": ("check place --dim 13", "invalid value '13' for '--dim <N>': 13 is not in 0..=12"),
    "no shape": ("messages --dim 3", "the following required arguments were not provided:"),
    "no such shape": ("messages --shape walk --dim 3", "invalid value for '--shape <S>'"),
    "a root past the last rank": ("messages --shape reduce --dim 3 --root 8", "invalid value for '--root <R>'"),
    "a root of a scan": ("messages --shape scan --dim 3 --root 1", "invalid value for '--root <R>'"),
    "a file of messages": ("messages --shape scan --dim 3 x", "unexpected argument 'x' found"),
    "help of no kind of input": ("help check report", "unrecognized subcommand 'report'"),
    "help of messages with a word": ("help messages x", "unexpected argument 'x' found"),
}
# The words that ask for help, and those that ask for the same help.
HELPS = {
    "help check": "check --help", "help messages": "messages --help", "help check run": "check run --help",
    "help check replay": "check replay --help", "check help": "check --help",
}


def must_be_bad(program, words, first):
    status, out, err = answer([program, *words.split()])
    must((status, out) == (2, b""), f"status {status}, output {shown(out)}")
    must(err.decode().split("\n")[0] == f"error: {first}", f"errors {shown(err)}")


def must_read_a_file(program):
    with tempfile.TemporaryDirectory() as folder:
        file = os.path.join(folder, "jobs.csv")
        must_answer([program, "check", "run", "--dim", "3", file], "", 3, "", f"failed: input: Missing: {file}\n")
        with open(file, "w", encoding="utf-8") as jobs:
            jobs.write(JOBS_HEADER + "x,scan,add,0,1\n")
        rows = LISTED + f"1,2,lane,x,Number,{LANE}\n"
        must_answer([program, "check", "run", "--dim", "3", file], "", 1, rows, "")


def same_help(program, words, same):
    text = output([program, *same.split()])
    must(same.split()[0] in text, f"{same} says {shown(text)}")
    must_answer([program, *words.split()], "", 0, text, "")


def rows(program):
    for name, (words, text, status, listed) in CHECKS.items():
        yield Row(f"check: {name}", must_answer, ([program, "check", *words.split()], text, status, LISTED + listed, ""))
    for name, (words, listed) in LISTS.items():
        yield Row(f"messages: {name}", must_answer, ([program, "messages", *words.split()], "", 0, MESSAGES + listed, ""))
    for name, (words, first) in BAD.items():
        yield Row(f"bad command line of a tool: {name}", must_be_bad, (program, words, first))
    for words, same in HELPS.items():
        yield Row(f"help: {words}", same_help, (program, words, same))
    yield Row("check: a file that is named", must_read_a_file, (program,))
    for words in ("check run --dim 0", "messages --shape scan --dim 1"):
        full = ["sh", "-c", f'exec "$0" {words} >/dev/full', program]
        yield Row(f"{words}: output that is full", must_answer, (full, "", 3, "", "failed: record 0: Write\n"))
