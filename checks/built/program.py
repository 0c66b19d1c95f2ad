"""Runs the built program as its users do: every command, every status, and the bytes of both outputs.

Each row of the tables is an input and the answer that it must have. The answers were worked out by hand from the file
formats and the definitions; only the lines on bad command lines are taken over, from `clap`. A row fails where the
status, standard output or standard error is another one. A comment `against` names wrong programs that answer the rows
after it in another way. `checks/run program FILE` tries the program FILE.
"""
from checks.lib.rows import run_rows
from checks.lib.toolchain import program
from tests.program import command_lines, devices, events, named_files, place, replay, report, run, tools

PARTS = (run, report, place, replay, command_lines, devices, named_files, events, tools)


def main(words):
    built = program(words)
    return run_rows("program", [row for part in PARTS for row in part.rows(built)])
