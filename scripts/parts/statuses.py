"""Runs the program on each of examples/ and of examples/cases, and compares its report, what it says on standard error and its exit status with the example's files.

A line of examples/cases/statuses has the example's name, its exit status and, where they are none of its files, what its standard output (- where it is one) and its standard
input are. Where a file is not there (`.args` of its words, `.report`, `.errors`) it is as if it were empty. Prints a line for each example.
"""
import os
import pathlib
import subprocess
import tempfile

TOP = pathlib.Path(__file__).resolve().parent.parent.parent


def read(path):
    return path.read_bytes() if path.is_file() else b""


def example_of(top, name):
    """Where the files of the example with this name stand, without their endings: beside its plan, if that is one of the first examples."""
    first = top / "examples" / name
    return first if first.with_name(first.name + ".toml").is_file() else top / "examples" / "cases" / name


def differences(program, name, status, output="-", given=None):
    """What is not as the example's files have it."""
    example = example_of(TOP, name)
    words = read(example.with_name(example.name + ".args")).decode().splitlines()
    file = TOP / given if given else example.with_name(example.name + ".toml")
    # (a directory can be opened so, and not by `open`)
    given = os.open(file if file.exists() else os.devnull, os.O_RDONLY)
    with open(output, "wb") if output != "-" else tempfile.TemporaryFile() as written:
        ran = subprocess.run([program, *words], cwd=TOP, stdin=given, stdout=written, stderr=subprocess.PIPE, timeout=120)
        os.close(given)
        report = b""
        if output == "-":
            written.seek(0)
            report = written.read()
    ended, errors = ran.returncode, ran.stderr
    told = [f"status {ended}"] if ended != int(status) else []
    for what, found, suffix in [("standard output", report, ".report"), ("standard error", errors, ".errors")]:
        if found != read(example.with_name(example.name + suffix)):
            told.append(f"{what}: {found[:1000].decode(errors='replace')}")
    return told


def main(program, _words):
    passed = failed = 0
    for line in (TOP / "examples" / "cases" / "statuses").read_text(encoding="utf-8").splitlines():
        if line.strip():
            told = differences(program, *line.split())
            passed, failed = passed + (not told), failed + bool(told)
            print(f"example {line.split()[0]}: " + ("as in its files" if not told else "NOT as it has to be: " + "; ".join(told)))
    return passed, failed
