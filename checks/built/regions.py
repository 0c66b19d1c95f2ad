"""Runs the other allocators of bench/peers with a table of owners, and the bitmap tree in the same scenarios if
`cube_bench` is built. No processor may have two owners, and at the end each machine must be whole: `bench/regions
--check`, which times nothing.
"""
import subprocess

from checks.lib.repository import path
from checks.lib.rows import needs


def main(words):
    needs("gcc")
    return subprocess.run([path("bench", "regions"), "--check", *words], check=False).returncode
