"""Runs the program at terminals of its own: what it says there beyond what it says in a pipe, and that nothing raw reaches them.

What has to come out is written here, by docs/PLANS.md, and in examples/sessions, which the word --write writes. Prints a line for each case.
"""
import json
import os
import pathlib
import pty
import re
import select
import subprocess
import tempfile
import termios
import threading
import unicodedata

TOP = pathlib.Path(__file__).resolve().parent.parent.parent
README = TOP / "README.md"
SESSIONS = TOP / "examples" / "sessions"

# What the sessions show. A folder stands in the name of a plan.
SESSION = [
    "run examples/server.toml",
    "run examples/missing.toml",
    "run examples/refused.toml",
    "check --lint examples/cases/lint.toml",
    "check --all examples/cases/explained/all_nodes.toml",
    "run --help",
]

ROOT = '[[node]]\nid = "[engine:x]"\n'

# A plan with each status, and with control characters in an id and in a fault.
PLAN = (
    ROOT
    + '[[node]]\nid = "[engine:x]/[test:a]"\ntest = ["put! b x up 1"]\n'
    + '[[node]]\nid = "[engine:x]/[test:b]"\ntest = ["want a x"]\n'
    + '[[node]]\nid = "[engine:x]/[test:c]"\ntest = ["abort later"]\n'
    + '[[node]]\nid = "[engine:x]/[class:D]"\nbefore_all = [["fail \\u001b[2J\\tand\\nthen\\u009b\\u202e"]]\n'
    + '[[node]]\nid = "[engine:x]/[class:D]/[test:\\u0007d]"\ntest = []\n'
    + '[[node]]\nid = "[engine:x]/[class:E]"\nbefore_all = [["abort now"]]\n'
)

LINES = [
    ("[engine:x]", "successful", " closed 1"),
    ("[engine:x]/[test:a]", "successful", ""),
    ("[engine:x]/[test:b]", "failed", ": want a x: none"),
    ("[engine:x]/[test:c]", "aborted", ": later"),
    ("[engine:x]/[class:D]", "failed", ": \\u{1b}[2J\\tand\\nthen\\u{9b}\\u{202e}"),
    ("[engine:x]/[class:D]/[test:\\u{7}d]", "skipped", ""),
    ("[engine:x]/[class:E]", "aborted", ": now"),
]

COLORS = {"successful": "32", "aborted": "33", "failed": "31", "skipped": "2"}  # in the order of the totals

# The line of the time behind the report.
TIME = re.compile(r"^ran in (\d+\.\d{3}) s\n\Z", re.M)

REFUSED = ROOT + '[[node]]\nid = "[engine:x]/[test:a]"\ntest = [\n  "put a x",\n  "pot a x",\n]\n'

# What a terminal takes as orders.
ORDERS = "\x1b[2J\u009b\u202e"

BOTH = "error: the argument '--explain' cannot be used with '--brief'\n"

LINE = "plan: P8 node 1\n"

WHY = (
    'node 1: step 1 of its test, "pot a x", is none of the steps: did you mean "put"? '
    'The steps are put, put!, want, none, remove, compute, compute!, computefail, fail, abort ("[engine:x]/[test:a]", line 7)\n'
)


# A plan whose steps name more keys than there are places: one step fails.
FULL = ROOT + '[[node]]\nid = "[engine:x]/[test:a]"\ntest = [' + ", ".join(f'"none k{number}"' for number in range(65)) + "]\n"

# Two tests that race, and a text that no step stores, with characters in all that is told of them that give orders to a terminal.
RACING = ROOT + "".join(
    f'[[node]]\nid = "[engine:x]/[test:\\u001b\\u2066{name}]"\nmode = "concurrent"\ntest = ["put \\u0007a x up 1", "want b \\u009b{name}"]\n' for name in "mn"
)


def is_order(character):
    """Whether a terminal takes a character as an order: a control character, or one that turns the direction of a text."""
    return unicodedata.category(character) == "Cc" or unicodedata.bidirectional(character) in ("LRE", "RLE", "PDF", "LRO", "RLO", "LRI", "RLI", "FSI", "PDI")


def escaped(text):
    """A text as a terminal is shown it: what it takes as an order is escaped, but for line feeds."""
    names = {"\n": "\n", "\t": "\\t", "\r": "\\r"}
    return "".join(names.get(it, f"\\u{{{ord(it):x}}}") if is_order(it) else it for it in text)


def for_people(colored):
    """The report of the plan at a terminal, without the line of its time."""

    def shown(status):
        return f"\x1b[{COLORS[status]}m{status}\x1b[0m" if colored else status

    def lines(rows):
        return "".join(f"{id} {shown(status)}{rest}\n" for id, status, rest in rows)

    faults = [row for row in LINES if row[1] in ("failed", "aborted")]
    totals = "tests 4" + "".join(f" {shown(status)} 1" for status in COLORS) + f"\ncontainers {shown('aborted')} 1 {shown('failed')} 1\n"
    return lines(row for row in LINES if row not in faults) + "\n" + lines(faults) + "\n" + totals


def read_all(end, told):
    """Reads what comes out of a terminal until nobody writes to it."""
    while True:
        try:
            more = os.read(end, 65536)
        except OSError:
            return
        if not more:
            return
        told.append(more)


def ran(program, words, plan, terminals, environment=None, beside=None):
    """Runs the program where these of its outputs (1 and 2) are terminals: its status, and what it wrote to each. What is to be done beside it is handed the process
    and what it has written so far."""
    told, threads, ends = {1: [], 2: []}, [], {}
    for stream in (1, 2):
        reader, writer = pty.openpty() if stream in terminals else os.pipe()
        if stream in terminals:
            modes = termios.tcgetattr(writer)
            modes[1] &= ~termios.OPOST
            termios.tcsetattr(writer, termios.TCSANOW, modes)
            termios.tcsetwinsize(writer, (24, 80))
        ends[stream] = writer
        threads.append((reader, threading.Thread(target=read_all, args=(reader, told[stream]))))
    variables = {"PATH": os.environ["PATH"], "TERM": "xterm", **(environment or {})}
    child = subprocess.Popen([program, *words], stdin=subprocess.PIPE, stdout=ends[1], stderr=ends[2], env=variables)
    for end in ends.values():
        os.close(end)
    for _, thread in threads:
        thread.start()
    if beside:
        threading.Thread(target=beside, args=(child, told)).start()
    child.communicate(plan.encode(), timeout=120)
    for reader, thread in threads:
        thread.join()
        os.close(reader)
    return child.returncode, *(b"".join(told[stream]).decode() for stream in (1, 2))


def reports(program):
    """The form of a run's report: words, which outputs are terminals, the environment, and whether the report is for people, in colours or not, or else the
    same as in a pipe."""
    cases = [
        ([], {1}, {}, True),
        ([], {1, 2}, {}, True),
        (["--color", "auto"], {1}, {}, True),
        (["--color", "never"], {1}, {}, False),
        (["--color", "always"], {1}, {"NO_COLOR": "1", "TERM": "dumb"}, True),
        (["--color", "always"], set(), {}, True),
        ([], {1}, {"NO_COLOR": "1"}, False),
        ([], {1}, {"NO_COLOR": ""}, True),
        ([], {1}, {"TERM": "dumb"}, False),
        ([], set(), {}, None),
        ([], {2}, {}, None),
        (["--color", "never"], set(), {}, None),
        (["--color", "auto"], set(), {}, None),
        (["--report", "text"], {1}, {}, None),
        (["--report", "text", "--color", "always"], set(), {}, None),
        (["--report", "json"], {1}, {}, None),
        (["--report", "junit"], {1}, {}, None),
        (["--tree"], {1}, {}, None),
        (["--tree", "--color", "always"], {1}, {}, None),
    ]
    for words, terminals, environment, colored in cases:
        for store in (["--lanes", "2"], ["--store", "plain"]):
            status, report, errors = ran(program, ["run", *store, *words], PLAN, terminals, environment)
            if colored is None:
                form = [word for word in words if word not in ("--color", "always", "never", "auto")]
                wanted = ran(program, ["run", *store, *form], PLAN, set())[1]
                wanted = escaped(wanted) if 1 in terminals and "json" not in words else wanted
                right = (report, errors) == (wanted, "") and "ran in" not in report
            else:
                right = TIME.sub("", report) == for_people(colored) and bool(TIME.search(report)) and errors == ""
            yield f"run {' '.join(store + words)} at {sorted(terminals)} with {environment}", right and status == 1, report + errors


def explanations(program):
    """The second line of a refusal, which --brief alone leaves out, at a terminal and in a pipe."""
    words_and_lines = [([], LINE + WHY), (["--explain"], LINE + WHY), (["--brief"], LINE), (["--explain", "--brief"], BOTH), (["--brief", "--explain"], BOTH)]
    for command in (["run"], ["check"], ["check", "--races"], ["check", "--all"]):
        for words, wanted in words_and_lines:
            for terminals in (set(), {1}, {2}):
                found = ran(program, [*command, *words], REFUSED, terminals)
                yield f"refused by {' '.join(command + words)} at {sorted(terminals)}", found == (2, "", wanted), repr(found)
    why = "the id: it is empty\n"
    for words, wanted in [([], "id: I1\n" + why), (["--explain"], "id: I1\n" + why), (["--brief"], "id: I1\n"), (["--explain", "--brief"], BOTH)]:
        for terminals in (set(), {2}):
            found = ran(program, ["id", *words, ""], "", terminals)
            yield f"id {' '.join(words)} at {sorted(terminals)}", found == (2, "", wanted), repr(found)
    found = ran(program, [], REFUSED, set())
    yield "refused without a word", found == (2, "", LINE + WHY), repr(found)


def unread(program):
    """Why a plan could not be read, at a terminal and in a pipe."""
    with tempfile.TemporaryDirectory() as folder:
        locked, long, huge = (f"{folder}/{name}.toml" for name in ("locked", "long", "huge"))
        for path, bytes_of in [(locked, b""), (long, b"#" * 1_048_577)]:
            with open(path, "wb") as file:
                file.write(bytes_of)
        os.chmod(locked, 0)
        with open(huge, "wb") as file:
            file.truncate(67_108_864)
        run = [program, "run"]
        in_64_mib = ["bash", "-c", 'ulimit -v 65536 && exec "$0" "$@"', *run, "--large"]
        cases = [
            (3, run, f"{folder}/none.toml", "read failed: \"{}\" can't be opened\n", 'the plan: "{}": No such file or directory (os error 2)\n'),
            (3, run, folder, "read failed\n", 'the plan: "{}": Is a directory (os error 21)\n'),
            (2, run, long, "plan too long\n", 'the plan: "{}" has more than 1048576 bytes. With the word --large a plan may have 67108864\n'),
            (3, in_64_mib, huge, "run: no memory\n", "the run: memory was refused\n"),
        ]
        if os.geteuid() != 0:
            cases.append((3, run, locked, "read failed: \"{}\" can't be opened\n", 'the plan: "{}": Permission denied (os error 13)\n'))
        for wanted, command, path, line, why in cases:
            for terminals, words, is_there in [({2}, [], True), (set(), [], True), (set(), ["--explain"], True), ({2}, ["--brief"], False)]:
                found = ran(command[0], [*command[1:], *words, path], "", terminals)
                right = found == (wanted, "", line.format(path) + (why.format(path) if is_there else ""))
                yield f"run {' '.join(words)} of {path[len(folder):] or 'a folder'} at {sorted(terminals)}", right, repr(found)


SLOWEST = re.compile(r"took (\d+\.\d{3}) s (.+)")

# What is told of all nodes together.
IN_ALL = "from the start of the first node to the end of the last"


def durations(program):
    """The times of the slowest tests and of all nodes, beside the report as it is without them."""
    report = ran(program, ["run"], PLAN, set())[1]
    tests = {id for id, status, _ in LINES if "[test:" in id and status != "skipped"}
    for words in ([], ["--store", "plain"], ["--failures"]):
        status, found, errors = ran(program, ["run", "--durations", *words], PLAN, set())
        behind = ran(program, ["run", *words], PLAN, set())[2]
        lines = errors[: len(errors) - len(behind)].splitlines()
        times = [SLOWEST.fullmatch(line) for line in lines]
        right = status == 1 and found == report and errors.endswith(behind) and len(lines) == 4 and all(times)
        if right:
            nodes, seconds = [it[2] for it in times], [float(it[1]) for it in times]
            right = set(nodes[:3]) == tests and nodes[3] == IN_ALL
            right = right and seconds[:3] == sorted(seconds[:3], reverse=True) and seconds[3] >= seconds[0]
        yield f"run --durations {' '.join(words)}", right, errors
    status, found, errors = ran(program, ["run", "--durations"], ROOT, set())
    right = status == 0 and errors == f"took 0.000 s {IN_ALL}\n"
    yield "run --durations of one node", right, errors
    found = ran(program, ["run", "--durations"], REFUSED, set())
    yield "run --durations of a refused plan", found == (2, "", LINE + WHY), repr(found)
    # Beside JSON it is JSON or nothing.
    for plan, faults in (PLAN, 4), (FULL, 1):
        words = ["run", "--store", "plain", "--report", "json"]
        status, report, errors = ran(program, [*words, "--durations", "--failures"], plan, set())
        right = status == 1 and errors.count('{"id":') == len(errors.splitlines()) == faults
        yield f"run --report json --durations --failures with {faults} faults", right, errors
        found = ran(program, [*words, "--durations"], plan, set())
        yield f"run --report json --durations with {faults} faults", found == (1, report, ""), repr(found)


def escapes(program):
    """All that goes to a terminal is that of a pipe, with what the terminal takes as an order escaped. What is JSON is that of a pipe, and can be read, and reads as the plan
    has it."""
    cases = [
        (["run", "--store", "plain", "--tree"], PLAN),
        (["run", "--store", "plain", "--report", "text"], PLAN),
        (["run", "--store", "plain", "--tree", "--failures"], PLAN),
        (["check", "--tree"], RACING),
        (["check", "--races"], RACING),
        (["check", "--lint"], RACING),
        (["id", "[engine:x]/[test:\x1b]"], ""),
        (["id", "--make", "engine=x", "test=\x1b"], ""),
    ]
    for words, plan in cases:
        status, *piped = ran(program, words, plan, set())
        for terminals in ({1}, {2}, {1, 2}):
            wanted = [escaped(text) if stream in terminals else text for stream, text in enumerate(piped, 1)]
            found = ran(program, words, plan, terminals)
            right = found == (status, *wanted) and escaped("".join(piped)) != "".join(piped)
            yield f"{' '.join(words)!a} at {sorted(terminals)}", right, repr(found)
    for words, plan in [
        (["run", "--store", "plain", "--report", "json", "--failures"], PLAN),
        (["check", "--races", "--report", "json"], RACING),
    ]:
        status, *piped = ran(program, words, plan, set())
        found = ran(program, words, plan, {1})
        texts = "".join(piped)
        read = json.dumps([json.loads(line) for line in texts.splitlines()], ensure_ascii=False)
        right = found == (status, *piped) and not any(map(is_order, texts.replace("\n", ""))) and any(map(is_order, read))
        yield f"{' '.join(words)} at [1]", right, repr(found)


def usage(program):
    """What is wrong with a command line, at a terminal and in a pipe."""
    for words in "run --lanes %", "run --report %", "run --%", "run a %", "%", "check % %", "check --report %", "id", "id a --%":
        line = [word.replace("%", ORDERS) for word in words.split()]
        status, report, errors = ran(program, line, "", set())
        found = ran(program, line, "", {1, 2})
        right = found == (status, report, escaped(errors)) and (status, report) == (2, "") and (errors != escaped(errors)) == ("%" in words)
        yield f"wrong words {words}", right, repr(found)
    for words in "run /%", "run --json /%/x", "run --html /%/x", "id %":
        _, _, errors = ran(program, [word.replace("%", ORDERS) for word in words.split()], PLAN, {1, 2})
        yield f"refused words {words}", errors.count("\n") > 0 and not any(map(is_order, errors.replace("\n", ""))), repr(errors)
    for field in ("mode", "locks", "test", "x"):
        plan = f'{ROOT}{field} = {json.dumps(ORDERS if field == "mode" else [ORDERS])}\n[[key]]\nlabel = {json.dumps(ORDERS + " ")}\n'
        _, _, errors = ran(program, ["check", "--all"], plan, {1, 2})
        yield f"refused text of {field}", errors.count("\n") > 1 and not any(map(is_order, errors.replace("\n", ""))), repr(errors)


def unread_pipes(program):
    """Standard output is a pipe that nobody reads: nothing is said."""
    for words in ["run"], ["run", "--report", "json"], ["run", "--tree", "--lanes", "1"], ["check"], ["check", "--tree"], ["check", "--lint"], ["check", "--races"], ["id", "[a:b]"], ["id", "--make", "a=b"], ["--help"], ["run", "--help"], ["--version"]:
        reader, writer = os.pipe()
        os.close(reader)
        done = subprocess.run([program, *words], input=PLAN.encode(), stdout=writer, stderr=subprocess.PIPE, timeout=120)
        os.close(writer)
        yield f"{' '.join(words)} into a pipe that nobody reads", (done.returncode, done.stderr) == (3, b""), repr(done)


def typed(program):
    """A plan that is typed at a terminal: what is said before it is read."""
    notice = "extrun: reading a plan from the terminal; end it with Ctrl-D\n"
    report = ran(program, ["run", "--store", "plain", "--brief"], ROOT, set())[1]
    for words, at_terminal, wanted in [
        (["run"], True, notice),
        (["run", "-"], True, notice),
        (["run", "--brief"], True, notice),
        (["run"], False, ""),
    ]:
        master, terminal = pty.openpty()
        reader, errors = pty.openpty() if at_terminal else os.pipe()
        if at_terminal:
            modes = termios.tcgetattr(errors)
            modes[1] &= ~termios.OPOST
            termios.tcsetattr(errors, termios.TCSANOW, modes)
        child = subprocess.Popen([program, *words], stdin=terminal, stdout=subprocess.PIPE, stderr=errors)
        os.close(terminal)
        os.close(errors)
        # What is asked comes before what is typed.
        is_asked = wanted and select.select([reader], [], [], 20)[0]
        said = os.read(reader, 4096).decode() if is_asked else ""
        os.write(master, ROOT.encode() + b"\x04")
        written = child.communicate(timeout=120)[0].decode()
        others = []
        read_all(reader, others)
        said += b"".join(others).decode()
        os.close(reader)
        os.close(master)
        yield f"{' '.join(words)} of a typed plan, said to a {'terminal' if at_terminal else 'pipe'}", (child.returncode, written, said) == (0, report, wanted), f"{written!r} {said!r}"


def readme(program):
    """What README.md shows of a terminal, but for colours and the digits of the time."""
    blocks = [it for it in README.read_text(encoding="utf-8").split("```\n") if it.startswith("$ ./extrun run examples/")]
    shown = [it.split("\n", 1) for it in "".join(blocks).split("$ ./extrun ")[1:]]
    for line, wanted in shown:
        plan = line.split()[-1]
        _, report, errors = ran(program, [*line.split()[:-1], TOP / plan], "", {1, 2}, {"NO_COLOR": "1"})
        yield f"{line}, as README.md shows it", TIME.sub("", report + errors) == TIME.sub("", wanted), report + errors
    yield "README.md shows two plans", len(shown) == 2, str(shown)


def session(program):
    """What a terminal shows of some commands, without its colours: they are of the terminal's own palette, light or dark."""
    shown = ""
    for words in SESSION:
        _, report, errors = ran(program, [TOP / word if word.startswith("examples/") else word for word in words.split()], "", {1, 2})
        shown += f"$ extrun {words}\n" + re.sub("\x1b\\[[0-9]*m", "", TIME.sub("ran in T s\n", report + errors))
    return shown


def sessions(program):
    shown = session(program)
    yield "of 80 columns", shown == (SESSIONS / "extrun-80.txt").read_text(encoding="utf-8"), shown
    for words in ["--help"], ["run", "--help"], ["check", "--help"], ["id", "--help"], ["help"], ["help", "run"]:
        status, report, errors = ran(program, words, "", {1, 2})
        long = [line for line in report.splitlines() if len(line) > 80]
        yield f"{' '.join(words)}, in lines of 80 columns", (status, errors, long) == (0, "", []) and report.count("\n") > 10, report + errors


def main(program, words):
    if words == ["--write"]:
        (SESSIONS / "extrun-80.txt").write_text(session(program), encoding="utf-8")
    passed = failed = 0
    for part in (sessions, reports, escapes, explanations, unread, usage, unread_pipes, typed, durations, readme):
        for name, right, told in part(program):
            passed, failed = passed + right, failed + (not right)
            print(f"terminal {name}: " + ("as it has to be" if right else f"NOT as it has to be: {told!r}"))
    return passed, failed
