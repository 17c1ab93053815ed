"""Runs the proved program on each plan of examples/cases/rows and examples/cases/outside, as a plain run and on 1, 2, 4, 8 and 16 lanes, and compares what it writes
with the plan's report, byte by byte, and its exit status with whether a node failed there. A plan some of whose nodes may run beside others is run 20 times
on each of these numbers of lanes, and `check --races` has to find it free of races, but for factories that fail. Prints a line for each plan.

The 60 outside cases have the reports that follow from what the store of JUnit 5.9.2 answered for the same calls (its `ExtensionValuesStore`, measured on
2026-11-22). Their plans use trees, namespaces, two labels for one key, all store steps but `computefail`, closes that fail and steps that fail. The files are
as they were measured: a report there is never changed so that it fits.
"""
import pathlib
import subprocess

TOP = pathlib.Path(__file__).resolve().parent.parent.parent
LANES = [1, 2, 4, 8, 16]

# How often a plan is run whose report could depend on the schedule.
TIMES = 20


def words_of(plan):
    """The command lines that the plan is run with."""
    times = TIMES if b'"concurrent"' in plan else 1
    on_lanes = [["run", "--lanes", str(lanes)] for lanes in LANES]
    return [["run", "--store", "plain"]] + on_lanes * times


def difference(program, words, plan, report):
    """What is wrong with a run of the plan with these words, or nothing."""
    ran = subprocess.run([program, *words, "--brief"], input=plan, capture_output=True, timeout=120)
    status = 1 if b" failed closed " in report else 0
    if (ran.returncode, ran.stdout, ran.stderr) == (status, report, b""):
        return None
    told = (ran.stdout + ran.stderr)[:1000].decode(errors="replace")
    return f"{' '.join(words)}: status {ran.returncode}\n{told}"


def races(program, plan):
    """What is wrong with what `check --races` says of a plan that has one report, or nothing."""
    if b'"concurrent"' not in plan or b"computefail" in plan:
        return None
    ran = subprocess.run([program, "check", "--races"], input=plan, capture_output=True, timeout=120)
    return None if ran.stdout.startswith(b"no races: one report") else f"check --races says {ran.stdout[:1000].decode(errors='replace')}"


def main(program, _words):
    passed = failed = 0
    for file in [*sorted((TOP / "examples/cases/rows").glob("*.toml")), *sorted((TOP / "examples/cases/outside").glob("*.toml"))]:
        plan, report = file.read_bytes(), file.with_suffix(".report").read_bytes()
        runs = words_of(plan)
        wrong = next(filter(None, (difference(program, words, plan, report) for words in runs)), None) or races(program, plan)
        passed, failed = passed + (wrong is None), failed + (wrong is not None)
        print(f"{file.parent.name}/{file.stem}: " + ("its report" if wrong is None else f"NOT as it has to be: {wrong}") + f" ({len(runs)} runs)")
    return passed, failed
