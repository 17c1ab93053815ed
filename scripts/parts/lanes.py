"""Runs the program on a test that is repeated 4,000 times beside itself, and looks a thousand times a second how many threads the run has: as many as it has lanes, and one
for a plain run, whatever the number of lanes. No report shows that. Prints a line for each case.
"""
import os
import pathlib
import subprocess
import tempfile
import time

# The words, how many threads there are, and how many bytes the name of the plan's key has: each step compares it, so that a run lasts.
CASES = [
    ([], 4, 500_000),
    (["--lanes", "1"], 1, 500_000),
    (["--lanes", "2"], 2, 500_000),
    (["--lanes", "16"], 16, 500_000),
    (["--store", "cells", "--lanes", "3"], 3, 500_000),
    (["--store", "plain"], 1, 1_000),
    (["--store", "plain", "--lanes", "16"], 1, 1_000),
]


def plan_of(size):
    """The plan, which is refused without `--large`."""
    key = f'[[key]]\nlabel = "a"\nname = "{"n" * size}"\n'
    return key + '[[node]]\nid = "[a:b]"\nmode = "concurrent"\ntest = ["put a x", "want a x", "remove a"]\nrepeat = 4000\n'


def most_threads(program, words, plan):
    """The most threads that were seen at once in a run of the plan with these words, and its exit status."""
    most = 0
    with subprocess.Popen([program, "run", "--large", *words, plan], stdout=subprocess.DEVNULL) as run:
        while run.poll() is None:
            most = max(most, len(os.listdir(f"/proc/{run.pid}/task")))
            time.sleep(0.001)
        return most, run.returncode


def main(program, _words):
    passed = failed = 0
    with tempfile.TemporaryDirectory() as folder:
        plan = pathlib.Path(folder) / "plan.toml"
        for words, threads, size in CASES:
            plan.write_text(plan_of(size), encoding="utf-8")
            found = most_threads(program, words, plan)
            right = found == (threads, 0)
            passed, failed = passed + right, failed + (not right)
            said = "as it has to be" if right else f"NOT as it has to be: {found[0]} threads and status {found[1]}, not {threads} and 0"
            print(f"lanes {' '.join(['run', *words])}: {said}")
    return passed, failed
