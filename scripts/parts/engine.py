"""Runs the example engine, the proved one if no other is given, and looks at its report in JSON and at its page.

Where a test ran is read from the page's data: what has one lock is apart, what is isolated is alone, what runs in turn comes last. The page of the proved engine stays as an
example, crates/demo_engine/out/page.html. Once more it runs where no file can grow: the factory of the database fails, and each test by its kept fault. Nothing is left of the
run's folder. Of what `--list` prints `rt ci` makes sure.
"""
import json
import pathlib
import re
import resource
import subprocess
import tempfile

TOP = pathlib.Path(__file__).resolve().parent.parent.parent
PROVED = TOP / "crates" / "demo_engine" / "out" / "demo_engine"
PAGE = PROVED.with_name("page.html")
DATA = re.compile(r'id="data">(.*)</script>')
POST = "no post at attempt 1"
FAULTS = {
    "[class:Post]/[test:letter]": POST,
    "[class:Post]/[test:parcel]": POST,
    "[class:Office]/[test:lease]": "close: the lease was lost",
    "[class:Audit]/[test:eve]": "found 0, wanted 1",
}
TESTS = [
    "[class:Accounts]/[test:gift]", "[class:Accounts]/[test:loan]", *list(FAULTS)[:3], "[class:Office]/[test:alone]", "[class:Audit]/[test:sum]",
    "[class:Audit]/[test:eve]", "[class:Audit]/[test:paid]/[case:#1]", "[class:Audit]/[test:paid]/[case:#2]",
]  # fmt: skip


def run(program, *which, may_write=True, kept=None):
    """What is reported of each of these tests, the page's data, the exit status, and what is left in the folder for temporary files. The page is kept in a file, if one is given. Where
    it may not write, each write to a file fails."""
    limits = [] if may_write else [(resource.RLIMIT_FSIZE, (0, 0))]
    words = [*which, "--lanes", "4", "--report", "json"]
    with tempfile.TemporaryDirectory(prefix="engine-example-") as folder, tempfile.TemporaryDirectory() as other:
        page = kept or pathlib.Path(other) / "page.html"
        ran = subprocess.run(
            [program, *words, *(["--html", page] if may_write else [])], env={"TMPDIR": folder}, capture_output=True, text=True, timeout=120,
            restore_signals=may_write, preexec_fn=lambda: [resource.setrlimit(*it) for it in limits],
        )  # fmt: skip
        left = list(pathlib.Path(folder).iterdir())
        shown = json.loads(DATA.search(page.read_text(encoding="utf-8"))[1]) if may_write else {}
    rows = [json.loads(it) for it in ran.stdout.splitlines() if it.startswith("{")]
    nodes = {it["id"].removeprefix("[engine:demo]/"): it for it in rows if it.get("test")}
    return nodes, shown, ran.returncode, left


def spans_of(shown):
    """When each test of a page ran, by its id below the engine."""

    def id_of(place):
        parent, name, *_ = shown["nodes"][place]
        return name if parent in (None, 0) else f"{id_of(parent)}/{name}"

    return {id_of(node): (begun, ended) for node, _, begun, ended, _ in shown["attempts"] if shown["nodes"][node][2]}


def drawn(shown):
    """The tests of a page of which an attempt is drawn as failed, in order."""
    return sorted(shown["nodes"][node][1] for node, *_, status in shown["attempts"] if status == 1)


def are_apart(spans, one, other):
    return spans[one][1] <= spans[other][0] or spans[other][1] <= spans[one][0]


def value_of(shown, name):
    """The rows of the values that stand in the context of a node of this name."""
    return [it for it in shown["values"] if shown["nodes"][it[1]][1] == name]


def main(given, _words):
    program = given if pathlib.Path(given).name == PROVED.name else PROVED
    nodes, shown, status, left = run(program, kept=PAGE if program == PROVED else None)
    failing, _, failing_status, failing_left = run(program, may_write=False)
    # Alone they have a lane each, so nothing but the lock keeps them apart.
    spans, of_accounts = spans_of(shown), spans_of(run(program, "Accounts")[1])
    [database], [post], [lease] = (value_of(shown, it) for it in ("[engine:demo]", "[class:Post]", "[test:lease]"))
    ran_failing = [it for it in failing.values() if it["status"] == "failed"]
    checks = {
        "its tests are those that have to come": list(nodes) == TESTS == [it for it in TESTS if it in spans],
        "those fail that have to, each with its fault": {it: row["fault"] for it, row in nodes.items() if row["status"] == "failed"} == FAULTS,
        "each of them is drawn as failed": drawn(shown) == ["[test:eve]", "[test:lease]", "[test:letter]", "[test:parcel]"],
        "its exit status is 1, since tests fail": status == failing_status == 1,
        "nothing is left of its folder": left == failing_left == [],
        "two tests that have one lock are apart": are_apart(of_accounts, TESTS[0], TESTS[1]),
        "the isolated test is alone": all(it == TESTS[5] or are_apart(spans, it, TESTS[5]) for it in TESTS),
        "the audit comes last": all(spans[it][1] <= spans[last][0] for last in TESTS[6:] for it in TESTS[:6]),
        "the database is made once, found by all others and closed": database[7] == len(TESTS) - 1 and database[8] is not None and database[11] is None,
        "the post is told as failed, and its fault as found once": post[6:9] == [POST, 1, None],
        "the lease is told with the fault of its close": lease[11] == "the lease was lost",
        "each test fails by one fault where the factory does, and no case comes": list(failing) == TESTS[:8] and len(ran_failing) == 8 and len({it["fault"] for it in ran_failing}) == 1,
        "no value is made then": all(it["computed"] == it["closed"] == 0 for it in failing.values()),
    }
    for what, holds in checks.items():
        print(f"engine example: {what}: {'yes' if holds else 'NO'}")
    failed = sum(not it for it in checks.values())
    return len(checks) - failed, failed
