"""Makes a folder with an engine by scripts/new-engine, and runs the engine by the folder's `run`, unproved: it lists its tests as its template has to, all of them pass, and its
status is 0. Until a source changes, `run` compiles nothing again; a source with a mistake is compiled once, and the mistake is told.

So do the other engines of examples/engines, each in a folder of its own: ten shell commands, and the tests of a web server of Python's, which stand in docs/GUIDE.md. Where
a command does not end, the engine ends it. One test of the web server fails, with a whole message of several lines, one is aborted, and afterwards neither server nor folder is there.
No file has more lines than it should, in the layout of `rt fmt`.

The folder has the crates that the engine needs and no others, without their wrong bodies. One that is there and not empty, and what is no name of a crate, are refused
by one line, and nothing is made; so is each where `rt` is not on the path. Whether it is proved is not tried here: `rt ci` in such a folder does that.
"""
import os
import pathlib
import re
import shutil
import subprocess
import tempfile

TOP = pathlib.Path(__file__).resolve().parent.parent.parent
NAME = "my_engine"
ENGINES = TOP / "examples" / "engines"
TEMPLATE = ENGINES / "template"
HANDLES = "Handles allowed: Threads, Wait, Net, Processes.\n"
# How many lines each engine has at most.
MOST_LINES = {"template": 40, "shell": 75, "web": 160}
# What `run` says where it compiles.
BUILDS = "building the program unproved"
ALL_PASSED = re.compile(r"3 tests in \d+\.\d{3} s: 3 passed\n")
WRONG_NAMES = ["My_engine", "my-engine", "2nd", "ext_store", "regex"]


def run(*words, **how):
    return subprocess.run(words, **how, capture_output=True, text=True, stdin=subprocess.DEVNULL)


def is_refused(folder, name):
    """Whether no such engine is made, and one line says why."""
    before = list(folder.iterdir()) if folder.exists() else None
    ran = run(TOP / "scripts" / "new-engine", folder, name)
    after = list(folder.iterdir()) if folder.exists() else None
    return ran.returncode == 1 and re.fullmatch("new-engine: .*\n", ran.stderr) and before == after


def is_in_layout(folder, name):
    """Whether the engine's file is as `rt fmt` lays it out, and has no more lines than it should."""
    source = folder / "crates" / name / "src" / "main.rt"
    before = source.read_text(encoding="utf-8")
    run("rt", "fmt", cwd=source.parent.parent)
    return source.read_text(encoding="utf-8") == before and before.count("\n") <= MOST_LINES.get(name, MOST_LINES["template"])


def made_of(folder, name):
    """Makes the engine of this listing in the folder. Answers whether it is made."""
    made = run(TOP / "scripts" / "new-engine", folder, name)
    if made.returncode != 0:
        return False
    shutil.copy(ENGINES / f"{name}.rt.in", folder / "crates" / name / "src" / "main.rt")
    (folder / "HANDLES").write_text(HANDLES, encoding="utf-8")
    return True


def checks_of_shell(folder):
    """Makes the engine of ten shell commands in the folder, and checks it."""
    if not made_of(folder, "shell"):
        return {"the engine of shell commands is made": False}
    ran = run(folder / "run", "--durations", "3")
    shell = folder / "sh"
    shell.write_text("#!/bin/sh\nexec sleep 60\n", encoding="utf-8")
    shell.chmod(0o755)
    late = run(folder / "run", env={**os.environ, "PATH": f"{folder}:{os.environ['PATH']}"})
    return {
        "all ten shell commands pass": re.fullmatch(r"10 tests in \d+\.\d{3} s: 10 passed\n", ran.stdout) and ran.returncode == 0,
        "it tells its three slowest tests": len(re.findall(r"^took \d+\.\d{3} s  \[engine:shell\]", ran.stderr, re.M)) == 3,
        "a command that does not end is ended": late.stdout.count("    the command took too long\n") == 10 and late.returncode == 1 and BUILDS not in late.stderr,
        "its file has its layout and few lines": is_in_layout(folder, "shell"),
    }


def checks_of_web(folder):
    """Makes the engine of a web server in the folder, and checks it."""
    if not made_of(folder, "web"):
        return {"the engine of a web server is made": False}
    ran = run(folder / "run", "--lanes", "4")
    left = [*pathlib.Path(tempfile.gettempdir()).glob("web-[0-9]*")]
    failed = re.search(r"^failed  \[engine:web\]/\[class:Orders\]/\[test:three\]\n    /add/3: wanted sum 7, got HTTP/1\.0 200 OK\n(    .*\n)+    sum 6\n", ran.stdout, re.M)
    served = run("pgrep", "-f", "HTTPServer").stdout
    return {
        "the web server's tests end as they should": re.search(r"^12 tests in \d+\.\d{3} s: 10 passed, 1 failed, 1 aborted$", ran.stdout, re.M) and ran.returncode == 1,
        "the message of the failed one is whole": failed,
        "its server and its folder are gone": not left and not served,
        "its file has its layout and few lines, too": is_in_layout(folder, "web"),
    }


def checks_of_mistake(folder):
    """Writes a mistake into the engine's source, and checks that it is compiled once and told."""
    source = folder / "crates" / NAME / "src" / "main.rt"
    text = source.read_text(encoding="utf-8")
    source.write_text(text.replace("tests.share(6);", "tests.share(none);"), encoding="utf-8")
    ran = run(folder / "run")
    source.write_text(text, encoding="utf-8")
    return {"a mistake is compiled once, and told": ran.returncode == 3 and ran.stderr.count("error[") == 1 and "main.rt:" in ran.stderr}


def main(_program, _words):
    with tempfile.TemporaryDirectory(prefix="new-engine-") as name:
        folder = pathlib.Path(name) / "engine"
        without_rt = run(TOP / "scripts" / "new-engine", folder, NAME, env={**os.environ, "PATH": "/usr/bin:/bin"})
        refused = all(is_refused(folder, it) for it in WRONG_NAMES)
        made = run(TOP / "scripts" / "new-engine", folder, NAME)
        refused = refused and is_refused(folder, NAME)
        crate = folder / "crates" / NAME
        if not crate.is_dir():
            print(f"new engine: none is made: {made.stderr}")
            return 0, 1
        ran, again, listed = run(folder / "run"), run(folder / "run"), run(folder / "run", "--list")
        crates = [it.split(":")[0] for it in (folder / "crates.txt").read_text(encoding="utf-8").splitlines()]
        checks = {
            "its crates are those of its crates.txt": sorted(crates) == sorted(it.name for it in folder.glob("crates/*")),
            "none of them has wrong bodies": not list(folder.glob("crates/*/must-fail*")),
            "its tests pass": ALL_PASSED.fullmatch(ran.stdout) and ran.returncode == 0,
            "it lists its tests": listed.stdout == (TEMPLATE / "stdout").read_text(encoding="utf-8").replace("new_engine", NAME) and listed.returncode == 0,
            "it is compiled once": BUILDS in ran.stderr and BUILDS not in again.stderr and ALL_PASSED.fullmatch(again.stdout),
            "its file has its layout and few lines": is_in_layout(folder, NAME),
            "another folder or name is refused": refused,
            "without rt on the path it is refused by a sentence": without_rt.returncode == 1 and without_rt.stderr == "new-engine: the command rt of the Rattle kit is not on the path\n",
            **checks_of_mistake(folder),
            **checks_of_shell(pathlib.Path(name) / "shell"),
            **checks_of_web(pathlib.Path(name) / "web"),
        }
    for what, holds in checks.items():
        print(f"new engine: {what}: {'yes' if holds else 'NO'}")
    if not all(checks.values()):
        print(made.stderr + ran.stdout + ran.stderr)
    failed = sum(not it for it in checks.values())
    return len(checks) - failed, failed
