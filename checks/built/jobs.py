"""Runs what passes jobs in bench/jobs: the lanes by their library, by hand, and a queue of crossbeam where cargo has
its crates. Each job must come out once, and in order: `bench/lanes_c --check`, which times nothing.
"""
import subprocess

from checks.lib.repository import path
from checks.lib.rows import needs


def main(words):
    needs("gcc")
    return subprocess.run([path("bench", "lanes_c"), "--check", *words], check=False).returncode
