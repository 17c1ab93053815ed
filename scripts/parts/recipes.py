"""Runs the recipes of examples/processes from copies of their own, each as its README says: as far as this machine has pytest-xdist and a JDK. What it has not is said, and counts nothing.

The servers of the recipes are `sleep 300`. A command of that name, which comes first on the path, tells a file the number of its process: so it is seen how many were started, and that each was stopped.
"""
import os
import pathlib
import shutil
import signal
import subprocess
import tempfile
import time

TOP = pathlib.Path(__file__).resolve().parent.parent.parent
RECIPES = TOP / "examples" / "processes"

# ServerTests.java without JUnit and the store: with these it is tried by bindings/test.
FORK = """\
import java.nio.file.Path;

class Fork {
    public static void main(String[] words) {
        String server = SharedText.compute(Path.of(System.getenv("RUN")), "server", () -> Long.toString(new ProcessBuilder("sleep", "300").start().pid()));
        if (!ProcessHandle.of(Long.parseLong(server)).orElseThrow().isAlive()) throw new AssertionError("no server");
    }
}
"""

# A run by shared.py alone, whose texts are the numbers of servers: it makes those that it is told and says so, then it waits for a line.
RUN = """\
import os, signal, subprocess, sys
import shared

def start():
    return str(subprocess.Popen(["sleep", "300"], stdout=subprocess.DEVNULL).pid)

def stop(name, text):
    if name in sys.argv[1].split(","):
        os.kill(int(text), signal.SIGKILL)
        print("stopped", name, flush=True)
    raise FileNotFoundError("another fault")

with shared.run("runs", stop) as folder:
    for name in sys.argv[2:]:
        shared.shared_text(folder, name, start)
    os.chdir("/")
    print("made", flush=True)
    sys.stdin.readline()
"""


class Room:
    """A copy of a recipe."""

    def __init__(self, folder, recipe):
        self.folder = pathlib.Path(folder, recipe)
        self.log = pathlib.Path(folder, "servers")
        shutil.copytree(RECIPES, folder, dirs_exist_ok=True, ignore=shutil.ignore_patterns("__pycache__", ".pytest*"))
        commands = pathlib.Path(folder, "commands")
        commands.mkdir()
        (commands / "sleep").write_text(f'#!/bin/sh\necho $$ >>"{self.log}"\nexec /bin/sleep "$@"\n', encoding="utf-8")
        (commands / "sleep").chmod(0o755)
        self.environment = {"PATH": f"{commands}:{os.environ['PATH']}", "PYTHONDONTWRITEBYTECODE": "1"}

    def start(self, words, given=subprocess.DEVNULL):
        return subprocess.Popen(words, cwd=self.folder, env=self.environment, stdin=given, stdout=subprocess.PIPE, stderr=subprocess.STDOUT, text=True)

    def run(self, words):
        """The status of a command and what it says."""
        running = self.start(words)
        said, _ = running.communicate(timeout=120)
        return running.returncode, said

    def started(self):
        """The servers that were started, by the numbers of their processes."""
        return self.log.read_text(encoding="utf-8").split() if self.log.exists() else []

    def wait_for_servers(self, count):
        """Waits until so many servers were started, at most a minute."""
        for _ in range(6000):
            if len(self.started()) >= count:
                return
            time.sleep(0.01)
        raise TimeoutError(f"{count} servers")

    def left(self):
        """The folders of runs that are left."""
        return [*self.folder.glob(".pytest-runs/*"), *self.folder.glob("runs/*")]

    def servers(self):
        """Of each server that was started, whether it runs still."""
        return [lives(it) for it in self.started()]


def lives(process):
    """Whether a process runs, and has not only left its number behind."""
    for _ in range(100):
        try:
            if pathlib.Path("/proc", process, "stat").read_text(encoding="utf-8").rpartition(")")[2].split()[0] == "Z":
                return False
        except OSError:
            return False
        time.sleep(0.01)
    return True


def python_with_xdist():
    """A Python that has pytest-xdist."""
    for it in ("python3", "/usr/bin/python3"):
        if subprocess.run([it, "-c", "import pytest, xdist"], capture_output=True).returncode == 0:
            return it
    return None


def by_itself(room):
    """shared.py without a runner."""
    (room.folder / "run.py").write_text(RUN, encoding="utf-8")
    names = "server,db"

    def start(*made):
        it = room.start(["python3", "run.py", names, *made], subprocess.PIPE)
        return it, [it.stdout.readline() for _ in made[:1]]

    def end(it):
        said, _ = it.communicate("\n", timeout=120)
        return it.returncode, said

    empty, _ = start()
    yield "shared.py: a run without a text leaves no folder", end(empty)[0] == 0 and room.left() == []
    first, made = start("server", "db")
    room.wait_for_servers(2)
    yield "shared.py: a run makes its texts", made == ["made\n"] and room.servers() == [True] * 2
    status, said = end(first)
    stops = [said.find(it) for it in ("stopped db", "the shared text db was not closed", "stopped server", "the shared text server was not closed")]
    yield "shared.py: it closes them, the latest first; a fault is told, and stops no other", status == 0 and -1 not in stops and said.count("stopped") == 2 and said.find("stopped db") < said.find("stopped server") and room.servers() == [False] * 2 and room.left() == []
    killed, _ = start("server")
    room.wait_for_servers(3)
    killed.kill()
    killed.wait()
    yield "shared.py: one that is killed leaves them", room.servers() == [False] * 2 + [True] and len(room.left()) == 1
    (room.folder / "runs" / "run-theirs").mkdir()
    (room.folder / "runs" / "run-theirs" / "file").touch()
    (room.folder / "runs" / "new-1-2").mkdir()
    both = [start("server")[0] for _ in range(2)]
    room.wait_for_servers(5)
    yield "shared.py: of two runs at once one closes it, and each what it made", room.servers() == [False] * 3 + [True] * 2 and [end(it)[0] for it in both] == [0, 0] and room.servers() == [False] * 5
    yield "shared.py: what is no run's stays", [it.name for it in room.left()] == ["run-theirs"]


def by_pytest(room):
    python = python_with_xdist()
    if not python:
        print("recipes: pytest-xdist: not tried here: no pytest-xdist")
        return
    suite = [python, "-m", "pytest", "-q", "-p", "no:cacheprovider"]
    status, said = room.run([*suite, "-n", "4"])
    yield "pytest-xdist: 4 workers share a server", status == 0 and "12 passed" in said and room.servers() == [False] and room.left() == []
    yield "pytest-xdist: so does pytest without workers", room.run(suite)[0] == 0 and room.servers() == [False] * 2 and room.left() == []
    yield "pytest-xdist: and without xdist", room.run([*suite, "-p", "no:xdist"])[0] == 0 and room.servers() == [False] * 3 and room.left() == []
    tests = room.folder / "test_server.py"
    short = tests.read_text(encoding="utf-8")
    tests.write_text(short.replace("sleep(0.02)", "sleep(2)"), encoding="utf-8")
    killed = room.start([*suite, "-n", "4"])
    room.wait_for_servers(4)
    for _ in range(6000):
        if [*room.folder.glob(".pytest-runs/run-*/server")]:
            break
        time.sleep(0.01)
    killed.kill()
    killed.communicate()
    tests.write_text(short, encoding="utf-8")
    yield "pytest-xdist: a run that is killed leaves the server", room.servers() == [False] * 3 + [True]
    yield "pytest-xdist: and the next run stops it", room.run([*suite, "-n", "4"])[0] == 0 and room.servers() == [False] * 5 and room.left() == []


def by_shell(room):
    suite = ["./suite", "bash", "-c", "seq 12 | xargs -P 4 -n 1 ./one-test"]
    yield "shell: a process a test", room.run(suite)[0] == 0 and room.servers() == [False]
    yield "shell: the status is that of the suite", room.run(["./suite", "false"])[0] == 1
    stopped = room.start(["./suite", "bash", "-c", "./one-test; echo tested; /bin/sleep 300"])
    stopped.stdout.readline()
    began = time.monotonic()
    stopped.send_signal(signal.SIGTERM)
    stopped.communicate(timeout=60)
    yield "shell: a suite that is stopped stops the server, at once", stopped.returncode == 130 and room.servers() == [False] * 2 and time.monotonic() - began < 30
    status, said = room.run(["./one-test"])
    yield "shell: a test outside of a suite starts nothing", status != 0 and len(room.started()) == 2


def by_jvm(room):
    if not shutil.which("javac"):
        print("recipes: jvm: not tried here: no JDK")
        return
    (room.folder / "Fork.java").write_text(FORK, encoding="utf-8")
    status, said = room.run(["javac", "SharedText.java", "Fork.java"])
    yield "jvm: it compiles", status == 0 and not said
    status, said = room.run(["../shell/suite", "bash", "-c", "seq 4 | xargs -P 4 -n 1 java Fork"])
    yield "jvm: 4 forks share a server", status == 0 and not said and room.servers() == [False]


def main(_program, _words):
    counts = {True: 0, False: 0}
    for cases, recipe in ((by_itself, "pytest"), (by_pytest, "pytest"), (by_shell, "shell"), (by_jvm, "jvm")):
        with tempfile.TemporaryDirectory() as folder:
            for what, good in cases(Room(folder, recipe)):
                counts[bool(good)] += 1
                print(f"recipes: {what}: {'yes' if good else 'NO'}", flush=True)
    return counts[True], counts[False]
