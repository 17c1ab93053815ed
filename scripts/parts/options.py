"""Runs the trial engine, crates/trial_engine, the proved one if no other is given, with each option of the command line that engines have, and compares what comes out with what has to. Prints a line for each case.

What a case says is written here, by docs/ENGINES.md. Times are compared as `T`. The XML is read by Python's own parser. With `--write` the sessions at terminals are written to examples/sessions in place of being compared.
"""
import concurrent.futures
import itertools
import json
import os
import pathlib
import pty
import re
import signal
import subprocess
import tempfile
import threading
import xml.etree.ElementTree

from parts.terminal import read_all

TOP = pathlib.Path(__file__).resolve().parent.parent.parent
PROVED = TOP / "crates" / "trial_engine" / "out" / "trial_engine"
SESSIONS = TOP / "examples" / "sessions"
MANY = 1000

FAILING = "[engine:trial]/[class:Failing]"
THIRD = "[engine:trial]/[class:Flaky]/[test:third]"
LINES = 'wanted <sum> 7, got:\nsum 6 & "more"\n\nthe end'
LINES_TOLD = '    wanted <sum> 7, got:\n    sum 6 & "more"\n    \n    the end\n'
COLORS = [([], {"NO_COLOR": ""}), ([], {}), ([], {"NO_COLOR": "", "TERM": "dumb"}), (["--color", "never"], {"NO_COLOR": ""})]
WAITS = [("Locked", "waited for locks"), ("Meeting", "waited for what is shared"), ("Meeting", "made what is shared in")]
SKIPPED = [("Broken", "never", "what it stands in did not pass before"), ("Unmade", "two", "so many had failed that no more were begun")]
ATTEMPTS = "attempt 1: not yet\nattempt 2: not yet"
BOTH = "first\nafter each: second\nof two lines"


def masked(text):
    """The text without its times."""
    return re.sub(r"\d+\.\d{3} s", "T", text)


class Ran:
    """What a run of the program gave: the text of both streams, and the status."""

    def __init__(self, program, words, many=0):
        environment = {"PATH": os.environ["PATH"], "TERM": "xterm", "TRIAL_TESTS": str(many)}
        ran = subprocess.run([program, *words], capture_output=True, text=True, stdin=subprocess.DEVNULL, env=environment, timeout=120)
        self.out, self.err, self.status = masked(ran.stdout), masked(ran.stderr), ran.returncode

    def tests(self):
        """The ids of a list of tests."""
        return self.out.splitlines()


def at_terminal(program, words, columns, **variables):
    """What a terminal of so many columns shows of a run, and the status: standard output and standard error are both it. Colours are off, unless `variables` of the environment say otherwise."""
    parent, child = pty.openpty()
    shown = []
    reader = threading.Thread(target=read_all, args=(parent, shown))
    environment = {"PATH": os.environ["PATH"], "TERM": "xterm", "NO_COLOR": "1", "TRIAL_TESTS": "0", "COLUMNS": str(columns), **variables}
    ran = subprocess.Popen([program, *words], stdin=child, stdout=child, stderr=child, env=environment)
    os.close(child)
    reader.start()
    status = ran.wait(timeout=120)
    reader.join()
    os.close(parent)
    lines = masked(b"".join(shown).decode().replace("\r\n", "\n")).splitlines()
    return "".join(line[at : at + columns] + "\n" for line in lines for at in range(0, max(len(line), 1), columns)), status


def selecting(program):
    """Which tests the words select."""
    everything = Ran(program, ["--list"]).tests()
    failing = [it for it in everything if it.startswith(FAILING)]
    callbacks = [it for it in everything if "[class:Callbacks]" in it]
    nothing = Ran(program, ["Failing", "Nowhere", "--skip", "Failing"])
    unread = subprocess.Popen([program, "--list"], stdout=subprocess.PIPE, stderr=subprocess.PIPE, env={"TRIAL_TESTS": str(MANY)})
    unread.stdout.close()
    yield "--list has all tests in their order", len(everything) == 22 and everything[0] == "[engine:trial]/[class:Slow]/[test:sleeps]" and everything[-1].endswith("[class:Unmade]/[test:two]")
    yield "a part of an id selects", Ran(program, ["--list", "Failing"]).tests() == failing and len(failing) == 4
    yield "one of several parts selects", Ran(program, ["--list", "s:Failing", "lbacks]"]).tests() == callbacks + failing
    yield "--skip leaves out", Ran(program, ["--list", "Failing", "--skip", "needs", "--skip", "both"]).tests() == [failing[0], failing[3]]
    yield "--exact takes whole ids", Ran(program, ["--list", "--exact", failing[1]]).tests() == [failing[1]]
    yield "--exact takes what stands in a class", Ran(program, ["--list", "--exact", FAILING]).tests() == failing
    yield "--exact takes no part of an id", Ran(program, ["--list", "--exact", FAILING[:-1], "[class:Failing]"]).status == 4
    yield "--exact holds for --skip, too", Ran(program, ["--list", "Failing", "--exact", "--skip", failing[0]]).status == 4
    yield "a reader that wants no more of a list is no fault", unread.wait(timeout=60) == 0 and unread.stderr.read() == b""
    yield "no test selected is status 4, and said", (nothing.out, nothing.err, nothing.status) == ("", "trial: no test is selected\n", 4)


def sharding(program):
    """Shards of many tests part them, and are the same whatever else is there."""
    everything = Ran(program, ["--list", "Many"], MANY).tests()
    shards = [Ran(program, ["--list", "Many", "--shard", f"{part}/7"], MANY).tests() for part in range(1, 8)]
    half = Ran(program, ["--list", "Many", "--shard", "3/7"], MANY // 2).tests()
    yield "shards of 1,000 tests are disjoint and whole", len(everything) == MANY and sorted(sum(shards, [])) == sorted(everything)
    yield "none of them is much larger than the others", all(MANY / 7 * 0.7 < len(it) < MANY / 7 * 1.3 for it in shards)
    yield "tests of a shard stay in it when tests are added", set(half) == set(shards[2]) & set(Ran(program, ["--list", "Many"], MANY // 2).tests())
    for words in ["0/2", "3/2", "1", "a/2", "1/0", "-1/2"]:
        wrong = Ran(program, [f"--shard={words}"])
        yield f"--shard {words} is refused", wrong.status == 2 and wrong.err.startswith("error: --shard takes K/N") and not wrong.out


def failed_again(program, folder):
    """The tests that failed in an earlier run are run again, and no others."""
    earlier, wrong = str(folder / "earlier.json"), folder / "wrong.json"
    first = Ran(program, ["Failing", "Unmade", "--json", earlier])
    again = Ran(program, ["--failed", earlier, "--list"])
    rerun = Ran(program, ["--failed", earlier, "--report", "json"])
    failed = [it for it in map(json.loads, rerun.out.splitlines()) if it.get("test")]
    wrong.write_text('{"id":\n', encoding="utf-8")
    refused, missing = Ran(program, ["--failed", str(wrong)]), Ran(program, ["--failed", str(folder / "none")])
    wanted = [f"{FAILING}/[test:lines]", f"{FAILING}/[test:both]", "[engine:trial]/[class:Unmade]/[test:one]", "[engine:trial]/[class:Unmade]/[test:two]"]
    yield "--failed selects what failed before", first.status == 1 and again.tests() == wanted
    classes, long = str(folder / "classes.json"), str(folder / ("d" * 100) / "none")
    broken, below = Ran(program, ["Broken", "Unclosed", "Rows", "--json", classes]), Ran(program, ["--failed", classes, "--list"])
    yield "and runs it again", [it["id"] for it in failed] == wanted and all(it["status"] == "failed" for it in failed)
    yield "--failed selects the tests of classes that failed", broken.status == 1 and below.tests() == ["[engine:trial]/[class:Broken]/[test:never]", "[engine:trial]/[class:Unclosed]/[test:passes]"]
    yield "and runs them again", Ran(program, ["--failed", classes]).out.endswith("2 tests in T: 1 passed, 1 skipped; 2 containers did not pass themselves\n1 skipped: what it stands in did not pass before\n")
    yield "of these --skip leaves out", Ran(program, ["--failed", classes, "--skip", "Broken", "--list"]).tests() == below.tests()[1:]
    yield "a long name is told whole", Ran(program, ["--failed", long]).err == f"trial: {long}: No such file or directory (os error 2)\n"
    yield "a file that is no report is told", refused.status == 3 and refused.err == f"trial: {wrong}: line 1 is no line of a report in JSON\n"
    yield "so is one that is not there", missing.status == 3 and missing.err.startswith(f"trial: {folder}/none: ")


def running(program):
    """How tests are run."""
    alone, together = Ran(program, ["Meeting", "--lanes", "1"]), Ran(program, ["Meeting", "--lanes", "2"])
    locked = subprocess.run([program, "Locked", "--lanes", "2"], capture_output=True, text=True, env={})
    seconds = float(re.search(r" in (\d+\.\d+) s", locked.stdout)[1])
    flaky, twice = Ran(program, ["Flaky", "--retries", "2"]), Ran(program, ["Flaky", "--retries", "1"])
    rows = Ran(program, ["Rows", "--report", "tree"])
    storing = Ran(program, ["Storing", "--report", "text"])
    callbacks = Ran(program, ["Callbacks", "--report", "text"])
    nested, many = Ran(program, ["Nested"]), Ran(program, ["Many"], 65_600)
    # (A job in the background has this signal ignored, and so has what it starts.)
    signal.signal(signal.SIGINT, signal.default_int_handler)
    interrupted = subprocess.Popen([program, "Slow"], stdout=subprocess.DEVNULL, stderr=subprocess.DEVNULL, env={})
    interrupted.send_signal(signal.SIGINT)
    yield "--lanes 2 runs two tests at once", together.out == "2 tests in T: 2 passed\n" and together.status == 0
    yield "--lanes 1 does not", alone.out.count("    nobody came\n") == 2 and alone.status == 1
    yield "without it there are as many lanes as processors", Ran(program, ["Meeting"]).status == (0 if os.cpu_count() > 1 else 1)
    yield "tests with one lock are apart", seconds >= 0.2
    yield "--retries runs a test again", flaky.out == f"flaky   {THIRD}\n    attempt 1: not yet\n    attempt 2: not yet\n\n1 test in T: 1 flaky\n" and flaky.status == 0
    yield "no more often than it says, and all attempts are told", twice.out == f"failed  {THIRD}\n    attempt 1: not yet\n    attempt 2: not yet\n\n1 test in T: 1 failed\n" and twice.status == 1
    yield "a test that may be run twice finds at its second attempt what it stored at the first", "[test:twice] successful closed 1 took T flaky, passed at attempt 2\n" in storing.out
    yield "of rows in reserve those that come are run and told", "case:#1 successful" in rows.out and "case:#2" not in rows.out and "tests 1 successful 1" in rows.out
    yield "a test is handed what each node above it shares", nested.status == 0
    yield "callbacks come in JUnit's order", "tests 2 successful 2 " in callbacks.out and "[class:Callbacks] successful closed 1" in callbacks.out
    yield "more nodes than a run may have are told", (many.err, many.status) == ("trial: 65602 nodes are selected, and a run has 65536 at most\n", 3)
    yield "Ctrl-C ends it", interrupted.wait(timeout=60) == -signal.SIGINT
    for words, status in [(["--lanes", "0"], 2), (["--lanes", "33"], 2), (["--retries", "x"], 2), (["--fail-fast=0"], 2), (["--shuffle=x"], 2), (["--bogus"], 2), (["--help"], 0)]:
        yield f"{' '.join(words)} is status {status}", Ran(program, words).status == status


def stopping(program):
    """What --fail-fast leaves out, and that nothing is made for it."""
    one, two = (Ran(program, ["Failing", "Flaky", "Callbacks", "--lanes", "1", f"--fail-fast={it}", "--report", "text"]) for it in (1, 2))
    told = Ran(program, ["Failing", "Flaky", "--lanes", "1", "--fail-fast"])
    mixed = Ran(program, ["Broken", "Unmade", "--lanes", "1", "--fail-fast"])
    stopped = Ran(program, ["Broken", "Unmade", "--lanes", "1", "--fail-fast", "--report", "json"])
    some = Ran(program, ["Callbacks", "Flaky", "--skip", "Flaky", "--report", "text"])
    yield "--fail-fast begins no test after the first that fails", one.status == 1 and " failed 1 skipped 6\n" in one.out
    yield "and makes nothing for the others", "\ncomputed 1 found 0 closed 1 close" in one.out
    yield "--fail-fast=2 after the second", " failed 2 skipped " in two.out
    yield "why tests were skipped is told", told.out.endswith("\n4 skipped: so many had failed that no more were begun\n")
    reasons = {it["id"]: it["fault"] for it in map(json.loads, stopped.out.splitlines()) if it.get("status") == "skipped"}
    yield "each skipped test says why", reasons == {f"[engine:trial]/[class:{name}]/[test:{test}]": why for name, test, why in SKIPPED}
    yield "each reason with its count", "2 skipped; 1 container did not pass itself\n1 skipped: so many had failed that no more were begun\n1 skipped: what it stands in did not pass before\n" in mixed.out
    yield "what no selected test shares is not made", "computed 1 found" in some.out and "closed 1 close" in some.out and "Flaky" not in some.out


def ordering(program):
    """--shuffle gives each seed an order, the same each time; --repeat runs all again."""
    listed = Ran(program, ["--list", "Many"], 50).tests()
    orders = [Ran(program, ["--list", "Many", f"--shuffle={seed}"], 50) for seed in (1, 1, 2)]
    seeded = Ran(program, ["--list", "Many", "--shuffle"], 50)
    told = re.fullmatch(r"the order is that of --shuffle=(\d+)\n", seeded.err)
    repeated, ended = Ran(program, ["Rows", "--repeat", "3"]), Ran(program, ["Flaky", "--repeat", "3"])
    yield "--shuffle=SEED orders all tests anew", orders[0].out != orders[2].out != "" and all(sorted(it.tests()) == sorted(listed) != it.tests() for it in orders)
    yield "the same seed gives the same order", orders[0].out == orders[1].out
    yield "--shuffle tells its seed, which gives the order again", told and Ran(program, ["--list", "Many", f"--shuffle={told[1]}"], 50).out == seeded.out
    yield "tests that run in turn keep their order", all(Ran(program, ["--list", "Callbacks", f"--shuffle={it}"]).out == Ran(program, ["--list", "Callbacks"]).out for it in range(4))
    yield "--repeat runs all so often", repeated.out == "1 test in T: 1 passed\n" * 3 and repeated.err == "run 1 of 3\nrun 2 of 3\nrun 3 of 3\n"
    yield "and ends with a run that fails", ended.err == "run 1 of 3\n" and ended.status == 1


def telling(program, folder):
    """What is told of a run."""
    xml, js = str(folder / "r.xml"), str(folder / "r.json")
    people = Ran(program, ["Failing", "Broken", "Unclosed", "--lanes", "1"])
    text = Ran(program, ["Failing", "--lanes", "1", "--report", "text", "--junit", xml, "--json", js, "--durations", "2"])
    nodes = [json.loads(it) for it in pathlib.Path(js).read_text(encoding="utf-8").splitlines()]
    cases = {it.get("name"): it for it in xml_of(xml).iter("testcase")}
    again = [json.loads(it) for it in Ran(program, ["third", "--retries", "2", "--report", "json", "--junit", xml]).out.splitlines()]
    attempts = next(xml_of(xml).iter("testcase"))
    Ran(program, ["Broken", "Unmade", "--lanes", "1", "--fail-fast", "--junit", xml])
    skips = {(it.get("classname"), it.get("name")): (skip.get("message"), skip.text) for it in xml_of(xml).iter("testcase") for skip in it.iter("skipped")}
    slow = Ran(program, ["Slow", "--slow", "1", "--lanes", "1", "--durations", "1"])
    with concurrent.futures.ThreadPoolExecutor(6) as pool:
        just = list(pool.map(lambda _: Ran(program, ["sleeps", "--slow", "2"]).err, range(6)))
    colored, unwritten = Ran(program, ["Failing", "--color", "always"]), Ran(program, ["Failing", "--lanes", "1", "--junit", "/nowhere/x.xml", "--html", "/nowhere/y.html", "--json", str(folder / "other.json")])
    yield "people are told what did not pass, whole", people.out == (
        f"failed  {FAILING}/[test:lines]\n{LINES_TOLD}\n"
        f"aborted {FAILING}/[test:needs]\n    no network drive\n\n"
        f"failed  {FAILING}/[test:both]\n    first\n    after each: second\n    of two lines\n\n"
        "failed  [engine:trial]/[class:Broken]\n    before all: no class\n\n"
        "failed  [engine:trial]/[class:Unclosed]\n    close: it does not close\n\n"
        "6 tests in T: 2 passed, 2 failed, 1 aborted, 1 skipped; 2 containers did not pass themselves\n"
        "1 skipped: what it stands in did not pass before\n"
    )  # fmt: skip
    yield "the text has times, and all lines of a message", f"{FAILING}/[test:lines] failed closed 0 took T: wanted <sum> 7, got:\n    sum 6 & \"more\"\n    \n    the end\n" in text.out
    yield "JSON has messages whole, and all faults", [it["fault"] for it in nodes if it.get("test")] == [LINES, "no network drive", BOTH, None]
    yield "JSON has attempts, and what they said", [(it.get("attempt"), it["fault"]) for it in again if it.get("test")] == [(3, ATTEMPTS)]
    yield "XML has the attempts before, each with what it said", [(it.get("type"), it.get("message"), it.findtext("stackTrace")) for it in attempts] == [("failed", "not yet", "not yet")] * 2
    yield "XML says why tests were skipped", skips == {(name, test): (why, why) for name, test, why in SKIPPED}
    yield "JSON has times", all("millis" in it for it in nodes if it.get("test"))
    yield "XML has messages whole, and all faults", "".join(cases["lines"].find("failure").itertext()) == LINES and "".join(cases["both"].find("failure").itertext()) == BOTH
    yield "XML has times and class names", all(float(it.get("time")) >= 0 and it.get("classname") == "Failing" for it in cases.values()) and len(cases) == 4
    yield "--durations tells the slowest tests alone", re.fullmatch(r"(took T  \[engine:trial\]/\[class:Failing\]/\[test:\w+\]\n){2}", text.err)
    yield "--slow tells of a test that runs longer, once", slow.err.startswith("slow    > 1 s  [engine:trial]/[class:Slow]/[test:sleeps]\n") and slow.err.count("slow ") == 1
    yield "also of one that ends before the next look", just == ["slow    > 2 s  [engine:trial]/[class:Slow]/[test:sleeps]\n"] * 6
    yield "and --durations how long it took", slow.err.endswith("took T  [engine:trial]/[class:Slow]/[test:sleeps]\n")
    shown = ["\x1b[31mfailed" in at_terminal(program, ["lines", *it], 200, **variables)[0] for it, variables in COLORS]
    waited = "".join(Ran(program, [name, "--lanes", "2", "--durations", "9"]).err for name in ("Locked", "Meeting"))
    yield "--durations tells what the tests waited for", all(re.search(rf"\[class:{name}\]/\[test:\w+\], {what} T\n", waited) for name, what in WAITS)
    yield "--color always has colours", "\x1b[31mfailed \x1b[0m" in colored.out and "\x1b[" not in people.out
    yield "at a terminal there are colours, but not with NO_COLOR, TERM=dumb or --color never", shown == [True, False, False, False]
    yield "a file that can't be written is status 3", unwritten.status == 3
    yield "each is named", unwritten.err == "".join(f"trial: /nowhere/{it} was not written: No such file or directory (os error 2)\n" for it in ("x.xml", "y.html"))
    yield "all else is told", unwritten.out.endswith("4 tests in T: 1 passed, 2 failed, 1 aborted\n") and LINES_TOLD in unwritten.out
    other = folder / "other.json"
    yield "and other files are written", other.exists() and len(other.read_text(encoding="utf-8").splitlines()) == 7


def escaping(program):
    """No text gives an order to a terminal."""
    raw, orders = Ran(program, ["Escaping", "--report", "text"]), re.compile("[\x00-\x09\x0b-\x1f\x7f-\x9f\u202a-\u202e\u2066-\u2069]")
    for form in ("text", "tree", "json"):
        shown, _ = at_terminal(program, ["Escaping", "--report", form], 400)
        yield f"--report {form} gives a terminal no orders", "[31mred" in shown and not orders.search(shown)
    yield "elsewhere the report is as it is", "failed closed 0 took T: \x1b[31mred\u202e\n" in raw.out
    for words in (["--lanes", "\x1b[2J"], ["--\x1b[2J"], ["--shuffle=\u202e"], ["--failed", "/\x1b[2J/\u202e"], ["--report=\u202e"], ["-\x9b"]):
        wrong = Ran(program, words)
        yield f"so do words such as {ascii(words)}", wrong.status in (2, 3, 4) and wrong.err and not orders.search(wrong.err)


def xml_of(path):
    return xml.etree.ElementTree.parse(path).getroot()


def sessions(program, writing):
    """What terminals of 80 and of 40 columns show is what the files of examples/sessions say."""
    words = ["Failing", "Storing", "Rows", "--lanes", "1"]
    for columns in (80, 40):
        shown, status = at_terminal(program, words, columns)
        path = SESSIONS / f"{columns}.txt"
        if writing:
            path.parent.mkdir(exist_ok=True)
            path.write_text(shown, encoding="utf-8")
        yield f"a session at {columns} columns is that of examples/sessions", status == 1 and path.is_file() and shown == path.read_text(encoding="utf-8")


def main(given, words):
    writing = "--write" in words
    program = given if pathlib.Path(given).name == PROVED.name else PROVED
    with tempfile.TemporaryDirectory(prefix="options-") as name:
        folder, passed, failed = pathlib.Path(name), 0, 0
        parts = [
            selecting(program), sharding(program), failed_again(program, folder), running(program), stopping(program),
            ordering(program), telling(program, folder), escaping(program), sessions(program, writing),
        ]  # fmt: skip
        for what, holds in itertools.chain.from_iterable(parts):
            print(f"options: {what}: {'yes' if holds else 'NO'}", flush=True)
            passed, failed = passed + bool(holds), failed + (not holds)
    return passed, failed
