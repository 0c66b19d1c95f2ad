"""Rows of command lines that are refused, whatever the input is; and each help, and the version."""
import re

from checks.lib.rows import Row, answer, must, must_answer, output, shown
from tests.program.texts import (
    ANSWERS, BAD, CALLS, COMMANDS, EVENTS, JOBS, REPLIES, TOTALS, VALUES, VERSION, WRITE)

COMMANDS_OF_CLI = ("run", "report", "place", "replay")
N, D, C, S = "--dim <N>", "--dispatchers <D>", "--capacity <C>", "--stations <S>"
RANGES = {N: "0..=12", D: "1..=16", C: "1..=1024", S: "1..=48"}
# The words, the last of which is a number that is out of range, and the option.
OUT_OF_RANGE = {
    "dimension 13": ("run --dim 13", N),
    "dimension -1": ("place --dim=-1", N),
    "dimension 256 + 3": ("run --dim 259", N),
    "dimension 2^32 + 3": ("run --dim 4294967299", N),
    "no stations at all": ("replay --dim 3 --stations 0", S),
    "49 stations": ("replay --dim 3 --stations 49", S),
    "2^32 + 1 stations": ("replay --dim 3 --stations 4294967297", S),
    "no dispatchers": ("run --dim 3 --dispatchers 0", D),
    "17 dispatchers": ("run --dim 3 --dispatchers 17", D),
    "no capacity": ("run --dim 3 --capacity 0", C),
    "a capacity of 1025": ("run --dim 3 --capacity 1025", C),
    "a report with dimension 13": ("report --dim 13", N),
    "a report with 17 dispatchers": ("report --dim 3 --dispatchers 17", D),
    "a report with no capacity": ("report --dim 3 --capacity 0", C),
}
# The words, the last of which is no number, the option, and why it is none.
LETTERS, NO_TEXT = "invalid digit found in string", "the command line is not UTF-8 text"
NO_NUMBERS = {
    "dimension 2^64": (["run", "--dim", str(2**64)], N, "number too large to fit in target type"),
    "no digits": (["run", "--dim", "three"], N, LETTERS),
    "dispatchers that are no digits": (["run", "--dim", "3", "--dispatchers", "two"], D, LETTERS),
    "a capacity that is no digits": (["run", "--dim", "3", "--capacity", "x"], C, LETTERS),
    # against numbers that are trimmed, or read in other ways
    "no text for a number": (["run", "--dim", ""], N, "cannot parse integer from empty string"),
    "a space before a number": (["run", "--dim", " 3"], N, LETTERS),
    "a number with a point": (["run", "--dim", "3.0"], N, LETTERS),
    "a number in base 16": (["run", "--dim", "0x3"], N, LETTERS),
}
# The words, and the option that is there twice.
TWICE = {
    "two outputs": ("run --dim 3 --output a --output b", "--output <FILE>"),
    "two dimensions": ("run --dim 3 --dim 3", N),
    "two dimensions in two ways": ("run --dim 3 --dim=3", N),
    "two dimensions, one by its letter": ("run --dim 3 -n 3", N),
    "two counts of dispatchers": ("run --dim 3 --dispatchers 2 --dispatchers 2", D),
    "a report that is quiet twice": ("report --dim 3 --quiet --quiet", "--quiet"),
    "a run that is long twice": ("run --dim 3 --long --long", "--long"),
}
# The words, and the one that is not expected.
UNEXPECTED = {
    "stations of a run": ("run --dim 3 --stations 2", "--stations"),
    "a word too many": ("run --dim 3 one more", "more"),
    "an option that is cut short": ("run --di 3", "--di"),
    "an option before the command": ("--dim 3 run", "--dim"),
    # against words that are taken for a number or for an option
    "a negative number as a word of its own": ("run --dim -1", "-1"),
    "an option in capital letters": ("run --DIM 3", "--DIM"),
    "the first letter of an option": ("run -d 3", "-d"),
    "a quiet place by its letter": ("place --dim 3 -q", "-q"),
    "two dashes": ("run --dim 3 - -", "-"),
    "an option after two dashes": ("run -- --dim 3", "3"),
    "a long report": ("report --dim 3 --long", "--long"),
    "a long place": ("place --dim 3 --long", "--long"),
    "a long run by the letter": ("run --dim 3 -l", "-l"),
    "stations of a report": ("report --dim 3 --stations 2", "--stations"),
    "stations of a place": ("place --dim 3 --stations 1", "--stations"),
    "a quiet place": ("place --dim 3 --quiet", "--quiet"),
    "dispatchers of a place": ("place --dim 3 --dispatchers 2", "--dispatchers"),
}
# The words, and the first line of standard error.
NO_VALUE = "a value is required for '{}' but none was supplied"
MISSING, NO_MORE = "the following required arguments were not provided:", "found; no more were expected"
OTHERS = {
    "no command": ("", "'cubejobs' requires a subcommand but one was not provided"),
    "no such command": ("walk", "unrecognized subcommand 'walk'"),
    "capital letters": ("RUN --dim 3", "unrecognized subcommand 'RUN'"),
    "no dimension": ("run", MISSING),
    "no stations": ("replay --dim 3", MISSING),
    "an output with no name": ("place --dim 3 --output", NO_VALUE.format("--output <FILE>")),
    "an input that is no text": (["run", "--dim", "3", b"\xff"], NO_TEXT),
    "a dimension with no number": ("run --dim", NO_VALUE.format(N)),
    "an option for a number": ("run --dim --capacity 3", NO_VALUE.format(N)),
    "help of a command as a word": ("run help", MISSING),
    "help with a value": ("run --help=3", f"unexpected value '3' for '--help' {NO_MORE}"),
    "help of no command": ("help walk", "unrecognized subcommand 'walk'"),
    "help after a number out of range": ("run --dim 13 --help", f"invalid value '13' for '{N}': 13 is not in 0..=12"),
    "a report with no dimension": ("report", MISSING),
    "a quiet run with a value": ("run --dim 3 --quiet=yes", f"unexpected value 'yes' for '--quiet' {NO_MORE}"),
    "a long run with a value": ("run --dim 3 --long=1", f"unexpected value '1' for '--long' {NO_MORE}"),
    "a word that is no text": (["run", "--dim", b"\xff"], NO_TEXT),
    "a command that is no text": ([b"\xff"], NO_TEXT),
}


def bad_command_lines():
    """Yields each command line that is refused: its name, its words, and the first line of standard error."""
    for name, (words, option) in OUT_OF_RANGE.items():
        number = re.split("[ =]", words)[-1]
        yield name, words, f"invalid value '{number}' for '{option}': {number} is not in {RANGES[option]}"
    for name, (words, option, why) in NO_NUMBERS.items():
        yield name, words, f"invalid value '{words[-1]}' for '{option}': {why}"
    for name, (words, option) in TWICE.items():
        yield name, words, f"the argument '{option}' cannot be used multiple times"
    for name, (words, word) in UNEXPECTED.items():
        yield name, words, f"unexpected argument '{word}' found"
    for name, (words, said) in OTHERS.items():
        yield name, words, said


# What a help must say: each of these is a pattern that some part of it has.
RANGE = r"\b{} ?(to|\.\.=?|-) ?{}\b".format
OF_A_SHOP = [RANGE(1, 16), r"default: 2\b", RANGE(1, 1024), r"default: 16\b", r"--quiet\b", r"\bterminal\b"]
JOB_FAULTS = [r"\bEmpty\b", r"\bTooLarge\b", r"\bBadRoot\b"]
WRITTEN_LIMITS = [r"\b0 to 12\b", r"\b1 to 48\b", r"more records after the header than 1000000\n"]
FAULTS = "Missing Folder Denied Special Other Fields Number Word TooMany Read Write OutOfMemory".split()
OF_EVERY_FILE = [
    r"\[FILE\]", r"--output <FILE>", *(rf"\b{fault}\b" for fault in FAULTS), RANGE(0, 12), r"\b1[, ]?000[, ]?000\b",
    r"(?i)exit status", r"record 0", r"blank line", r"(?i)memory",
]
# What the help of a command must not say, since the command cannot answer it.
NOT_OF_A_COMMAND = [r"\bSpent\b", r"\bJob Empty\b", r"\bTooLarge\b", r"\bBadRoot\b", r"--quiet\b", r"--long\b"]
EACH = [rf"\b{name}\b" for name in COMMANDS_OF_CLI]
OF_RUN = [JOBS, REPLIES, VALUES, r"--long\b", *OF_EVERY_FILE, *OF_A_SHOP, *JOB_FAULTS, r"\bSpent\b",
          r"cubejobs run --dim \d"]
HELPS = {
    "the program": ("--help", [*EACH, r"Usage: cubejobs <COMMAND>", r"-V, --version"]),
    "the program, in short": ("-h", EACH),
    "run": ("run --help", OF_RUN),
    "report": ("report --help", [JOBS, TOTALS, *OF_EVERY_FILE, *OF_A_SHOP, r"\bSpent\b", r"cubejobs report --dim \d"]),
    "place": ("place --help", [COMMANDS, ANSWERS, *OF_EVERY_FILE, r"cubejobs place --dim \d"]),
    "run, after a good option": ("run --dim 3 --help", [JOBS, REPLIES]),
    "replay": (
        "replay --help", [CALLS, EVENTS, *OF_EVERY_FILE, RANGE(1, 48), *WRITTEN_LIMITS, r"cubejobs replay --dim \d"]),
}


def must_be_bad(program, words, first):
    status, out, err = answer([program, *(words.split() if isinstance(words, str) else words)], BAD)
    must((status, out) == (2, b""), f"status {status}, output {shown(out)}")
    must(err.decode().split("\n")[0] == f"error: {first}", f"errors {shown(err)}")


def must_help(program, words, patterns):
    status, out, err = answer([program, *words.split()])
    must((status, err) == (0, b""), f"status {status}, errors {shown(err)}")
    lacking = [pattern for pattern in patterns if not re.search(pattern, out.decode())]
    must(not lacking, f"it does not have {', '.join(lacking)}")
    unwanted = [it for it in NOT_OF_A_COMMAND if words.startswith(("place", "replay")) and re.search(it, out.decode())]
    must(not unwanted, f"it has {', '.join(unwanted)}")


def same_help(program, command):
    must_answer([program, "help", command], "", 0, output([program, command, "--help"]), "")


def rows(program):
    for name, words, first in bad_command_lines():
        yield Row(f"bad command line: {name}", must_be_bad, (program, words, first))
    for name, (words, patterns) in HELPS.items():
        yield Row(f"help: {name}", must_help, (program, words, patterns))
    for command in COMMANDS_OF_CLI:
        yield Row(f"help: help {command}", same_help, (program, command))
    for words in ([*of, word] for word in ("--version", "-V") for of in ([], *([it] for it in COMMANDS_OF_CLI))):
        yield Row(f"version: {' '.join(words)}", must_answer, ([program, *words], "", 0, VERSION, ""))
    for word in ("--help", "--version"):
        full = ["sh", "-c", f'exec "$0" {word} >/dev/full', program]
        yield Row(f"{word}: output that is full", must_answer, (full, "", 3, "", WRITE))
