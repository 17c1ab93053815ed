"""Runs several processes of the trial engine, crates/trial_engine, that share texts, the proved one if no other is given, and kills some of them. Prints a line for each case.

The engine tells a file (`TRIAL_LOG`) when it begins to make a text, when it has, and when it closes one. A further word `times` measures looks and makes by 1, 4 and 16 processes.
"""
import collections
import fcntl
import json
import os
import pathlib
import random
import signal
import subprocess
import tempfile
import time

TOP = pathlib.Path(__file__).resolve().parent.parent.parent
PROVED = TOP / "crates" / "trial_engine" / "out" / "trial_engine"
NAMES = ["server", "schema"]
ROUNDS = 20
LOOKS = 1000


class Room:
    """A working directory, in which processes of the engine share texts."""

    def __init__(self, program, folder, tests="Texts", looks=0):
        self.tests, self.looks = tests, looks
        self.program, self.folder, self.log = program, pathlib.Path(folder), pathlib.Path(folder, "log")
        self.shared = self.folder / "shared"
        self.shared.mkdir()

    def start(self, *words):
        environment = {"PATH": os.environ["PATH"], "TRIAL_LOG": str(self.log), "TRIAL_LOOKS": str(self.looks)}
        return subprocess.Popen([self.program, self.tests, *words], cwd=self.folder, env=environment, stdin=subprocess.DEVNULL, stdout=subprocess.PIPE, stderr=subprocess.STDOUT, text=True)

    def start_sharing(self):
        return self.start("--shared", self.shared)

    def close(self):
        return ended(self.start("--close", self.shared))

    def told(self, what=""):
        """What was made and closed, in order, as words."""
        lines = self.log.read_text(encoding="utf-8").splitlines() if self.log.exists() else []
        return [it.split() for it in lines if it.startswith(what)]

    def wait_for(self, *line):
        """Waits until the log has a line that begins so."""
        wait_until(lambda: any(it[: len(line)] == list(line) for it in self.told()), " ".join(line))

    def own_folder(self, process):
        """The folder of the run of this process, once it has one."""
        wait_until(lambda: [*self.folder.glob(f".trial-runs/run-{process.pid}-*")], f"folder of {process.pid}")
        return next(self.folder.glob(f".trial-runs/run-{process.pid}-*"))

    def run_folders(self):
        """The folders of runs, and that in which they lie."""
        return sorted(it.name for it in [*self.folder.glob(".trial-runs"), *self.folder.glob(".trial-runs/*")])

    def closes_as_made(self):
        """Whether each process closed what it made, the latest first, and nothing else."""
        by_process = {it[2] for it in self.told("made") + self.told("closed")}
        made, closed = ({of: names(it for it in self.told(what) if it[2] == of) for of in by_process} for what in ("made", "closed"))
        return all(closed[of] == made[of][::-1] for of in by_process)


def wait_until(holds, what):
    """Waits until this holds, at most a minute."""
    for _ in range(12000):
        if holds():
            return
        time.sleep(0.005)
    raise TimeoutError(what)


def ended(process):
    """The status of a process and what it said."""
    said, _ = process.communicate(timeout=120)
    return process.returncode, said


def names(lines):
    return [it[1] for it in lines]


def sharing(room):
    """Two processes in the folder of a parent."""
    both = [ended(it) for it in [room.start_sharing(), room.start_sharing()]]
    made = room.told("made")
    yield "two processes share what one of them made", all(it[0] == 0 for it in both) and names(made) == NAMES
    yield "and leave it open", not room.told("closed")
    third = ended(room.start_sharing())
    yield "one that comes later finds it", third[0] == 0 and names(room.told("made")) == NAMES
    yield "--close closes each once, the latest first", room.close() == (0, "") and names(room.told("closed")) == NAMES[::-1] and not room.shared.exists()
    again, without = room.close(), ended(room.start_sharing())
    yield "a second --close tells that there is no folder", again[0] == 3 and again[1].startswith("trial: ") and len(room.told("closed")) == 2
    yield "tests that share there fail then", without[0] == 1 and "the folder of shared texts: " in without[1]


def owning(room):
    """Runs with folders of their own."""
    both = [ended(it) for it in [room.start(), room.start()]]
    yield "a run closes what it made, the latest first", all(it[0] == 0 for it in both) and len(room.told("made")) == 4 and room.closes_as_made()
    yield "and each its own", sorted(room.told("closed")) == sorted(["closed", *it[1:]] for it in room.told("made"))
    yield "and leaves no folder", room.run_folders() == []
    repeated = ended(room.start("--repeat", "2"))
    yield "each run of --repeat makes anew", repeated[0] == 0 and len(room.told("made")) == 8 and sorted(room.told("closed")) == sorted(["closed", *it[1:]] for it in room.told("made"))
    room.log.unlink(missing_ok=True)
    running = room.start()
    room.wait_for("made", "schema")
    room.log.unlink()
    room.log.mkdir()
    status, said = ended(running)
    yield "a close that fails is told, and stops no other", status == 3 and all(f"trial: the shared text {it} was not closed: " in said for it in NAMES) and room.run_folders() == []


def killed_user(room):
    """A process that makes a text is killed."""
    first = room.start_sharing()
    room.wait_for("makes", "server")
    second = room.start_sharing()
    first.kill()
    status = ended(second)[0]
    ended(first)
    makes, made = room.told("makes server"), room.told("made server")
    yield "a maker that is killed leaves it to the next", status == 0 and [it[2] for it in makes] == [str(first.pid), str(second.pid)] and [it[2] for it in made] == [str(second.pid)]
    yield "which is closed once", room.close()[0] == 0 and names(room.told("closed")) == NAMES[::-1]


def killed_owner(room):
    """A run that owns a folder is killed, and another lives meanwhile."""
    first, living = room.start(), room.start()
    for it in (first, living):
        # It tells that it has made a text before the text stands: killed between, it would leave it to nobody.
        server = room.own_folder(it) / "server"
        wait_until(server.exists, server)
    first.kill()
    ended(first)
    stood = [it.name for it in room.own_folder(first).iterdir() if it.name in NAMES]
    owned = [it for it in room.told("made") if it[2] == str(first.pid) and it[1] in stood]
    os.kill(living.pid, signal.SIGSTOP)
    third = ended(room.start())[0]
    closed = [["made", *it[1:]] for it in room.told("closed")]
    yield "what a killed run owned is closed by the next", third == 0 and [it for it in closed if it[2] == str(first.pid)] == owned[::-1]
    yield "and not what a living one owns", not any(it[2] == str(living.pid) for it in closed) and len(room.run_folders()) == 2
    os.kill(living.pid, signal.SIGCONT)
    left = [it for it in room.told("made") if it[2] == str(first.pid) and it not in owned]
    yield "each is closed once", ended(living)[0] == 0 and sorted(["made", *it[1:]] for it in room.told("closed")) == sorted(it for it in room.told("made") if it not in left) and room.run_folders() == []


def closing_owner(room):
    """A run that owns a folder begins to close it while a process of the run makes a text there, and other runs come."""
    owner = room.start()
    folder = room.own_folder(owner)
    wait_until((folder / "schema").exists, "schema")
    making = os.open(folder, os.O_RDONLY)
    fcntl.flock(making, fcntl.LOCK_SH)  # as a maker has it
    wait_until(lambda: waits(owner), "the close")
    os.kill(owner.pid, signal.SIGSTOP)
    others = [ended(room.start())[0]]
    os.close(making)
    others.append(ended(room.start())[0])
    yield "what a run has begun to close no other closes", others == [0, 0] and not any(it[2] == str(owner.pid) for it in room.told("closed")) and folder.exists()
    os.kill(owner.pid, signal.SIGCONT)
    yield "and it closes that itself", ended(owner)[0] == 0 and room.closes_as_made() and room.run_folders() == []


def made_anew(room):
    """The path of a folder is made anew while processes wait for a lock of the one before."""
    ended(room.start_sharing())
    for before, kind, start in (("closed", fcntl.LOCK_SH, lambda: room.start("--close", room.shared)), ("made", fcntl.LOCK_EX, room.start_sharing)):
        room.shared.mkdir(exist_ok=True)
        for it in NAMES if before == "made" else []:
            (room.shared / it).unlink(missing_ok=True)
        old = os.open(room.shared, os.O_RDONLY)
        fcntl.flock(old, kind)
        waiting = start()
        wait_until(lambda: waits(waiting), before)
        room.shared.rename(room.folder / f"not {before}")
        room.shared.mkdir()
        os.close(old)
        status, said = ended(waiting)
        if before == "closed":
            yield "a close that waited leaves what was made anew at its path", status == 0 and room.shared.exists() and not room.told("closed")
            ended(room.start_sharing())
        else:
            yield "and so does a maker that waited", status == 1 and "the folder of shared texts: " in said and [*room.shared.glob("*")] == []


def waits(process):
    """Whether a process waits for a lock of a file."""
    return any(it.split()[1] == "->" and it.split()[5] == str(process.pid) for it in pathlib.Path("/proc/locks").read_text(encoding="utf-8").splitlines())


def others_files(room):
    """Folders that hold what no run wrote."""
    theirs = room.shared / "theirs"
    theirs.write_text("theirs", encoding="utf-8")
    refused = room.close()
    yield "--close refuses a folder of no run", refused[0] == 3 and "it is none of a run" in refused[1] and [*room.shared.glob("*")] == [theirs]
    used, closed = ended(room.start_sharing()), room.close()
    yield "--close removes the files of the run alone, and tells that others stay", used[0] == 0 and closed[0] == 3 and "and stays" in closed[1] and names(room.told("closed")) == NAMES[::-1] and [*room.shared.glob("*")] == [theirs]
    theirs.unlink(missing_ok=True)
    room.shared.mkdir(exist_ok=True)
    yield "--close removes an empty folder", room.close() == (0, "") and not room.shared.exists()
    runs = room.folder / ".trial-runs"
    for name in ("run-theirs", "run-empty", "new-1-2", "new-1-3", "mine"):
        (runs / name).mkdir(parents=True)
    (runs / "run-theirs" / "file").touch()
    (runs / "new-1-3" / "texts.order").touch()
    (runs / "run-file").touch()
    swept = ended(room.start())
    yield "a run leaves what is no run's, and removes what one left that was killed as it began", swept[0] == 0 and ".trial-runs" not in swept[1] and room.run_folders() == [".trial-runs", "mine", "run-file", "run-theirs"]
    room.log.unlink()
    room.shared.mkdir(exist_ok=True)
    running = room.start_sharing()
    room.wait_for("makes", "server")
    with open(room.shared / "texts.order", "a", encoding="utf-8") as order:
        order.write("\nser")
    used, closed = ended(running), room.close()
    yield "behind a line that was cut off all is closed", used[0] == 0 and closed == (0, "") and names(room.told("closed")) == NAMES[::-1]


def killed_often(room, rounds):
    """Four processes in one folder, of which some are killed at any time; then the folder is closed, by a closer that is killed, too, and by another."""
    wrong = []
    for seed in range(rounds):
        chance, at = random.Random(seed), len(room.told())
        room.shared.mkdir(exist_ok=True)
        running = [room.start_sharing() for _ in range(4)]
        for it in running[: chance.randrange(4)]:
            time.sleep(chance.random() * 0.25)
            it.kill()
        statuses = {it.pid: ended(it)[0] for it in running}
        closer = room.start("--close", room.shared)
        time.sleep(chance.random() * 0.02)
        closer.kill()
        ended(closer)
        stayed = room.shared.exists()
        if stayed:
            room.close()
        lines = room.told()[at:]
        made, closed = (collections.Counter((name, pid) for what, name, pid in lines if what == it) for it in ("made", "closed"))
        # Behind a kill between 'made' and its place in the folder nobody can close it; behind one of the closer it comes twice for one text at most.
        lost = [it for it in made if it not in closed and statuses[int(it[1])] == 0]
        good = not lost and not room.shared.exists() and all(it in (0, -signal.SIGKILL) for it in statuses.values())
        good = good and sorted(names([("closed", *it) for it in closed])) == sorted(NAMES) and closed.keys() <= made.keys() and sorted(closed.values()) in ([1, 1], [1, 2] if stayed else [1, 1])
        wrong += [] if good else [(seed, lines, statuses)]
    for it in wrong:
        print(f"processes: round {it}")
    yield f"of {rounds} rounds of kills none lost or doubled a text", not wrong


def times(program):
    """The milliseconds of a look and of a make, by so many processes at once."""
    for count in (1, 4, 16):
        with tempfile.TemporaryDirectory() as folder:
            room = Room(program, folder, "Looking", LOOKS)
            running = [room.start("--shared", room.shared, "--lanes", "1", "--report", "json") for _ in range(count)]
            nodes = [json.loads(line) for it in running for line in ended(it)[1].splitlines()]
            for what in ("looks", "makes"):
                millis = [it["millis"] / LOOKS for it in nodes if it.get("id", "").endswith(f"[test:{what}]")]
                print(f"processes: {count} at once, {what}: {sum(millis) / count:.3f} ms each, at most {max(millis):.3f}")


def main(program, words):
    program = str(pathlib.Path(program).resolve() if pathlib.Path(program).name == "trial_engine" else PROVED)
    if "times" in words:
        times(program)
    counts = {True: 0, False: 0}
    for cases in (sharing, owning, killed_user, killed_owner, closing_owner, others_files, made_anew, lambda room: killed_often(room, ROUNDS)):
        with tempfile.TemporaryDirectory() as folder:
            for what, good in cases(Room(program, folder)):
                counts[bool(good)] += 1
                print(f"processes: {what}: {'yes' if good else 'NO'}", flush=True)
    return counts[True], counts[False]
