"""Runs the program with `--progress`, and prints a line for each case.

Some runs are held up at their end: the report is longer than the pipe that it is written to, which is read only when the line of the progress has come. By then all nodes
have ended.

Others, at terminals and with `--durations`, are stopped by a signal once a line names the tests that run. So these took at least as long as the stop, on any machine.
"""
import re
import signal
import subprocess
import threading
import time

from parts.terminal import IN_ALL, SLOWEST, TIME, ran

# As many nodes as a plan may have, whose ids make the report longer than a pipe: it holds 65,536 bytes.
IDS = ["[engine:x]"] + [f"[engine:x]/[test:{number}{'x' * 300}]" for number in range(255)]

PLAN = "".join(f'[[node]]\nid = "{id}"\n' + ("test = []\n" if "/" in id else "") for id in IDS)

REPORT = "".join(f"{id} successful closed 0\n" for id in IDS)
REPORT += "tests 255 successful 255 aborted 0 failed 0 skipped 0\ncomputed 0 found 0 closed 0 close faults 0\n"

# A line, of which only a run on a busy machine has more than the last.
LINE = re.compile(rb"\d+ of 256 nodes(, running: .*)?\n")

LAST = b"256 of 256 nodes\n"

# The line before all others.
READING = "reading the plan"

# A line at a terminal, which is not broken and takes the place of the one before.
AT_TERMINAL = re.compile(r"(\x1b\[A\r\x1b\[K)?\x1b\[\?7l(.*)\x1b\[\?7h")

# How many seconds a line may take: one comes after a second.
PATIENCE = 60

# How many seconds a run is stopped.
STOPPED = 4

# The nodes of a run that is stopped, but for the tests that are running then.
OTHERS = ["[engine:x]", *(f"[engine:x]/[test:{number}]" for number in range(6)), "[engine:x]/[class:A]"]


def told(program, words):
    """The lines on standard error while the report waits, after how many seconds the first came, what comes behind them, the report, the exit status, and whether all else came
    behind the line that the plan is read."""
    begun = time.monotonic()
    with subprocess.Popen([program, *words], stdin=subprocess.PIPE, stdout=subprocess.PIPE, stderr=subprocess.PIPE) as run:
        run.stdin.write(PLAN.encode())
        run.stdin.close()
        clock = threading.Timer(PATIENCE, run.kill)
        clock.start()
        reading = run.stderr.readline().decode()
        lines = [run.stderr.readline()]
        waited = time.monotonic() - begun
        while LINE.fullmatch(lines[-1]) and lines[-1] != LAST:
            lines.append(run.stderr.readline())
        report = run.stdout.read()
        others = run.stderr.read()
        clock.cancel()
        return lines, waited, others, report, run.wait(), reading == READING + "\n"


def slow_plan(names, steps):
    """A plan whose last tests have these names and so many steps, each of which compares a key's long name. Their ids have a control character."""
    plan = f'[[key]]\nlabel = "a"\nname = "{"n" * 4_000_000}"\n'
    for id in OTHERS:
        plan += f'[[node]]\nid = "{id}"\n' + ("test = []\n" if "test" in id else "")
    for name in names:
        plan += f'[[node]]\nid = "[engine:x]/[class:A]/[test:\\u001b{name}]"\nmode = "concurrent"\ntest = {["none a"] * steps}\n'
    return plan


def stopped_run(program, words, plan, sign):
    """Runs the plan, and stops the run for a while once it has told this: its status, what it wrote, and how many seconds it took in all and from that line on."""
    seen = []

    def stop(child, told):
        while child.poll() is None and not seen:
            if sign in b"".join(told[2]).decode():
                seen.append(time.monotonic())
                child.send_signal(signal.SIGSTOP)
                time.sleep(STOPPED)
                child.send_signal(signal.SIGCONT)
            time.sleep(0.005)

    begun = time.monotonic()
    found = ran(program, ["run", "--large", "--progress", "--durations", *words], plan, {1, 2}, beside=stop)
    ended = time.monotonic()
    return *found, ended - begun, ended - seen[0] if seen else 0


def are_right(slowest, ran_in, tests, measured, behind):
    """Whether these times are those of a run that was stopped. What is measured here is the most, then come what the report says, all nodes together and the tests. All have
    the stop in them. But for the tests, of which one may end long before the other, none is much less than the time from the line on."""
    times = [it for it in map(SLOWEST.fullmatch, slowest) if it]
    if len(times) != 6 or not ran_in:
        return False
    *below, in_all = [*times[: len(tests)], times[5]]
    took = [measured, *(float(it[1]) for it in (ran_in, in_all, *below))]
    if in_all[2] != IN_ALL or sorted(it[2] for it in below) != tests:
        return False
    return took == sorted(took, reverse=True) and took[-1] >= STOPPED and took[2] >= 0.75 * behind


def stopped(program, words, names, steps):
    """A run that is stopped while tests of these names run: whether the line that names them comes once, each on its lane, whether the times are right, and what it wrote."""
    tests = [f"[engine:x]/[class:A]/[test:\\u{{1b}}{name}]" for name in names]
    sign = f"6 of {len(OTHERS) + len(names)} nodes, running: "
    orders = [range(len(names)), reversed(range(len(names)))]
    lines = {sign + "; ".join(f"{test} on lane {lane}" for test, lane in zip(tests, lanes)) for lanes in orders}
    status, report, errors, measured, behind = stopped_run(program, words, slow_plan(names, steps), sign)
    reading, *said = errors[:-1].split("\n")
    shown = [AT_TERMINAL.fullmatch(line) for line in said[:-6]]
    if reading == READING and all(shown):
        said[:-6] = [it[2] for it in shown]
    right = [sum(line in lines for line in said[:-6]) == 1, status == 0 and are_right(said[-6:], TIME.search(report), tests, measured, behind)]
    # A short run may have been over before it was stopped: it is made again with more steps.
    if status == 0 and not all(right) and measured < 2 * STOPPED:
        return stopped(program, words, names, 2 * steps)
    return *right, f"status {status} after {measured} s, {behind} s from the line on, {report!r}, {errors!r}"


def rewritten(program, steps):
    """Whether each line at a terminal but the first takes the place of the one before, and none comes behind the last node; no line of a dumb terminal does. And what was said."""
    plan = slow_plan(["m", "n"], steps).replace("concurrent", "same_thread")
    words = ["run", "--large", "--progress", "--store", "plain"]
    status, report, errors = ran(program, words, plan, {1, 2})
    reading, *lines = errors[:-1].split("\n")
    shown = [AT_TERMINAL.fullmatch(line) for line in lines]
    # A short run is made again with more steps.
    if status == 0 and all(shown) and len(shown) < 2:
        return rewritten(program, 2 * steps)
    right = (status, reading) == (0, READING) and all(shown) and [bool(it[1]) for it in shown] == [False] + [True] * (len(shown) - 1) and "running" in shown[-1][2]
    _, report, errors = ran(program, words, plan, {2}, {"TERM": "dumb"})
    return right and not "\x1b" in errors and errors.startswith(READING + "\n"), f"{status}, {lines!r}, {errors!r}"


def cases(program):
    """What is looked at, whether it is right, and what came."""
    for words in ["--lanes", "2"], ["--store", "plain"], ["--lanes", "2", "--failures"]:
        lines, waited, others, report, status, is_read = told(program, ["run", "--progress", *words])
        right = is_read and waited >= 1 and (lines[-1], others, report, status) == (LAST, b"", REPORT.encode(), 0)
        yield f"run {' '.join(words)}", right, f"status {status}, {lines + [others]}, the first after {waited} s"
    for words, names, steps in (["--store", "plain"], ["m"], 150), (["--lanes", "2"], ["m", "n"], 2_000):
        line, times, said = stopped(program, words, names, steps)
        yield f"run {' '.join(words)} that is stopped, its line", line, said
        yield f"run {' '.join(words)} that is stopped, its times", times, said
    yield "run at a terminal, its lines", *rewritten(program, 300)


def main(program, _words):
    passed = failed = 0
    for name, right, said in cases(program):
        passed, failed = passed + right, failed + (not right)
        print(f"progress of {name}: " + ("as it has to be" if right else f"NOT as it has to be: {said}"))
    return passed, failed
