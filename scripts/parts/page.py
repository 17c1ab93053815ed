"""Reads the pages that engines and `extrun run` write (`--html`): the data in them by Python's JSON parser, the whole by its HTML parser, and by chromium where that is there.

What is clicked there is written by a script that stands behind that of a copy of the page. The runs are those of crates/trial_engine and of plans: of one alone where its program is given, and else of both proved programs. Prints a line for each case.
"""
import functools
import html.parser
import itertools
import json
import os
import pathlib
import re
import shutil
import subprocess
import tempfile

TOP = pathlib.Path(__file__).resolve().parent.parent.parent
PROVED = TOP / "crates" / "trial_engine" / "out" / "trial_engine"
DATA = re.compile(r'<script type="application/json" id="data">(.*?)</script>', re.S)
STATUSES = ["successful", "failed", "aborted", "skipped"]
VOID = {"meta", "link", "input", "path", "circle", "br"}
CLICKS = """<script>
addEventListener('error', it => console.error(it.message));
setTimeout(() => {
  const shown = () => document.getElementById('shown').textContent, rows = () => document.querySelectorAll('#tree li[data-n]').length, told = [];
  const text = document.getElementById('text');
  text.value = 'TEXT';
  text.dispatchEvent(new Event('input'));
  setTimeout(() => {
    told.push(shown(), rows());
    clear();
    [...document.querySelectorAll('#statuses button')].find(it => it.textContent.includes('aborted')).click();
    told.push(shown(), rows());
    clear();
    const root = document.querySelector('#tree details');
    told.push(shown(), root.open);
    root.querySelector('summary').click();
    told.push(root.open);
    root.querySelector('summary').click();
    told.push(root.open);
    for (const key of ['ArrowRight', 'ArrowDown', 'Escape']) {
      document.getElementById('chart').dispatchEvent(new KeyboardEvent('keydown', { key }));
      const card = document.getElementById('card');
      told.push(card.hidden ? 'none' : /lane \\d+/.exec(card.textContent)[0]);
    }
    choose({ kind: 'bar', i: 0, lane: D.attempts[0][1] });
    told.push(document.getElementById('card').textContent.includes('CARD'));
    document.body.append(Object.assign(document.createElement('pre'), { id: 'clicked', textContent: told.join('; ') }));
  }, 500);
}, 1000);
</script>
"""
HOSTILE = '</script><!-- & "\u202e \U0001f600 \x7f'


class Nesting(html.parser.HTMLParser):
    """Whether each tag of a page is closed in its turn, and what it would load."""

    def __init__(self, text):
        super().__init__()
        self.open, self.faults = [], []
        self.feed(text)
        self.faults += self.open

    def handle_starttag(self, tag, attributes):
        if tag not in VOID:
            self.open.append(tag)
        self.faults += [value for name, value in attributes if name in ("src", "href") and not value.startswith(("#", "data:,"))]

    def handle_endtag(self, tag):
        if tag not in VOID and (not self.open or self.open.pop() != tag):
            self.faults.append(f"/{tag}")


class Page:
    """A page of a run, and the data in it."""

    def __init__(self, program, words, given="", many=0, course=False):
        with tempfile.TemporaryDirectory() as folder:
            self.file = pathlib.Path(folder) / "page.html"
            environment = {"PATH": os.environ["PATH"], "TRIAL_TESTS": str(many), **({"TRIAL_COURSE": "1"} if course else {})}
            ran = subprocess.run([program, *words, "--html", self.file], input=given, capture_output=True, text=True, env=environment, timeout=300)
            self.status = ran.returncode
            self.text = self.file.read_text(encoding="utf-8")
        self.json = DATA.search(self.text)[1]

    @functools.cached_property
    def data(self):
        return json.loads(self.json)

    def ids(self):
        """The id of each node."""
        ids = []
        for parent, name, _, _ in self.data["nodes"]:
            ids.append(name if parent is None else f"{ids[parent]}/{name}")
        return ids

    def named(self, table, name):
        """The rows of a table whose node has this id below the engine."""
        at = 1 if table in ("waits", "values") else 0
        return [it for it in self.of(table) if it[at].partition("/")[2] == name]

    def of(self, table):
        """The rows of a table, whose first field that is a node is its id."""
        at = {"attempts": 0, "faults": 0, "waits": 1, "values": 1}[table]
        ids = self.ids()
        return [[*row[:at], ids[row[at]], *row[at + 1 :]] for row in self.data[table]]

    def is_whole(self):
        """Whether it stands by itself: the data can end no script, and nothing is loaded."""
        return self.json.isascii() and not re.search("[<\x00-\x1f\x7f]", self.json) and not Nesting(self.text).faults

    def is_in_order(self):
        """Whether attempts lie within the run, and in one lane beside one another."""
        wall, lanes, last = self.data["run"]["wall"], self.data["run"]["lanes"], {}
        for _, lane, begun, ended, _ in sorted(self.data["attempts"], key=lambda it: it[2:4]):
            if not last.get(lane, 0) <= begun <= ended <= wall or lane >= lanes:
                return False
            last[lane] = ended
        return True


def json_of(program, words):
    """The id, whether it is a test, and the status of each node by the report in JSON."""
    ran = subprocess.run([program, *words, "--report", "json"], capture_output=True, text=True, stdin=subprocess.DEVNULL, env={}, timeout=300)
    return [(it["id"], it["test"], it["status"]) for it in map(json.loads, ran.stdout.splitlines()) if "id" in it]


def of_all(program):
    page = Page(program, ["--lanes", "3"])
    told = [(name, bool(row[2]), STATUSES[row[3]]) for name, row in zip(page.ids(), page.data["nodes"])]
    tests = {name for name, is_test, _ in told if is_test}
    ran = {it[0] for it in page.of("attempts") if it[0] in tests}
    faults = [(node.partition("/")[2], attempt, place, text) for node, attempt, place, text in page.of("faults")]
    values = {row[1].rpartition(":")[2]: row for row in page.of("values")}
    yield "the nodes are those of the report", told == json_of(program, ["--lanes", "3"])
    yield "it stands by itself", page.is_whole() and page.data["version"] == 1
    yield "tests lie in the lanes on which they ran", page.is_in_order() and page.data["run"]["lanes"] == 3
    yield "each test that ran has an attempt", ran == {name for name, is_test, status in told if is_test and status != "skipped"}
    yield "a fault has its text, its place and its attempt", ("[class:Failing]/[test:both]", 1, "test", "first") in faults
    yield "so has one of a callback", ("[class:Failing]/[test:both]", None, "after each", "second\nof two lines") in faults
    yield "one of a callback of a class", ("[class:Broken]", None, "before all", "no class") in faults
    yield "and one of a close", ("[class:Unclosed]", None, "close", "it does not close") in faults
    yield "a value is closed, and the fault of its close is told", values["Unclosed]"][11] == "it does not close" and values["Unclosed]"][8] is not None
    yield "its close begins once it was found last", values["Callbacks]"][5] < values["Callbacks]"][9] <= values["Callbacks]"][10]
    yield "a factory that fails is told", values["Unmade]"][6] == "nothing to be had" and values["Unmade]"][8:] == [None] * 4
    yield "how often a value was found is told", values["Callbacks]"][7] == 11
    yield "and how often a fault that was kept", values["Unmade]"][7] == 1


def of_waits(program):
    meeting, locked, alone = (Page(program, [name, "--lanes", "2"]) for name in ("Meeting", "Locked", "Slow"))
    [(key, _, maker, _, begun, ended, *_)] = meeting.data["values"]
    waits = meeting.data["waits"]
    yield "a wait for a value is told with who made it", len(waits) == 1 and all(it[4:] == [1, 0, maker] and it[1] != maker and begun <= it[3] for it in waits) and ended - begun >= 50_000
    yield "it ends when the value is there", all(it[2] < ended <= it[3] for it in waits)
    yield "its key is the name of the node that shares it", key == "[class:Meeting]"
    waits, ends = locked.data["waits"], {it[0]: it[3] for it in locked.data["attempts"]}
    yield "a wait for a lock is told with who held it", len(waits) == 1 and all(it[4:6] == [0, 0] and it[6] not in (None, it[1]) and it[3] - it[2] >= 50_000 for it in waits) and locked.data["locks"] == ["count"]
    yield "it ends when that one has ended", all(ends[it[6]] <= it[3] for it in waits)
    waits = alone.data["waits"]
    yield "so is that of a test that is alone", len(waits) == 1 and all(it[4:6] == [0, None] and it[6] is not None and it[3] - it[2] >= 9_000 for it in waits)


def of_attempts(program):
    page = Page(program, ["Flaky", "--retries", "2"])
    attempts = page.data["attempts"]
    yield "attempts are told one by one", [it[4] for it in attempts] == [1, 1, 0] and page.is_in_order()
    yield "with their faults", [(it[1], it[3]) for it in page.data["faults"]] == [(1, "not yet"), (2, "not yet")]
    yield "an aborted test's attempt is aborted", [it[4] for it in Page(program, ["needs"]).data["attempts"]] == [2]


def of_course(program):
    """What is told of calls of containers, of tests whose bodies pass, and of what is closed."""
    page, closing = Page(program, ["Staged", "Late"], course=True), Page(program, ["Closing", "--lanes", "2"], course=True)
    (before, behind), [one] = ([it[2:] for it in page.named("attempts", name)] for name in ("[class:Staged]", "[class:Staged]/[test:one]"))
    yield "calls of a container stand before its tests and behind them", before[1] - before[0] >= 60_000 and behind[1] - behind[0] >= 40_000 and before[1] <= one[0] and one[1] <= behind[0]
    yield "each with its status", (before[2], one[2], behind[2]) == (0, 0, 1) and page.is_in_order()
    late = {it: [row[4] for row in page.named("attempts", f"[class:Late]/[test:{it}]")] for it in ("before", "after", "close", "keeps")}
    yield "a test whose body passes is shown as it ended", late == {"before": [2], "after": [1], "close": [1], "keeps": [1]}
    [value] = page.named("values", "[class:Late]/[test:keeps]")
    yield "another value's close is not that of what is shared", value[8] is not None and value[11] is None
    [holds], waits = closing.data["values"], closing.data["waits"]
    yield "a lock is held until its test has closed", [it[6] for it in waits] == [holds[1]] and all(holds[9] <= it[2] and holds[10] <= it[3] for it in waits)


def of_locks(extrun):
    """What is told of waits for locks in plans of four tests beside one another that take a while."""
    steps = json.dumps(["put a x", *["want a x"] * 50_000])
    test = f'mode = "concurrent"\ntest = {steps}\n'

    def waits(of_engine, of_first):
        """The waits, each with when the bars of who waits and of who held the lock begin, and the page."""
        nodes = "".join(f'[[node]]\nid = "[engine:x]/[test:{it}]"\n{test}{"" if it else of_first}' for it in range(4))
        page = Page(extrun, ["run", "--lanes", "5", "--large"], f'[[node]]\nid = "[engine:x]"\n{of_engine}{nodes}')
        begun = {it[0]: it[2] for it in page.data["attempts"]}
        return [(it, begun[it[1]], begun[it[6]]) for it in page.data["waits"]], page

    told, page = waits('locks = ["READ_WRITE a"]\n', "")
    order = [it[0] for it in sorted(page.data["attempts"], key=lambda it: it[2])]
    began_at_once = len({it[1] for it in page.data["attempts"]}) == 4
    yield "of tests that begin at once and write each but the first waits", not began_at_once or len(told) == 3
    yield "a wait for a lock of the engine is told with the test that held it last", told and all(it[4:6] == [0, 0] and it[6] == order[order.index(it[1]) - 1] for it, _, _ in told) and page.data["locks"] == ["a"]
    yield "a bar begins where the wait ends", page.is_in_order() and all(held <= begun == it[3] and it[3] - it[2] >= 100 for it, begun, held in told)
    told, page = waits('locks = ["READ a"]\n', 'locks = ["READ_WRITE a"]\n')
    yield "tests that read wait for the one that writes, and for no other", told and all(1 in (it[1], it[6]) and it[1] != it[6] for it, _, _ in told)
    late = f'mode = "concurrent"\nbefore_all = [{json.dumps(["put b x", *["want b x"] * 5_000])}]\n[[node]]\nid = "[engine:x]/[class:late]/[test:alone]"\n{test}isolated = true\n'
    told, page = waits(f'[[node]]\nid = "[engine:x]/[class:late]"\n{late}', "")
    yield "a test that is alone waits for those that began before, for no lock with a name", told and all(2 in (it[1], it[6]) and it[4:6] == [0, None] for it, _, _ in told)
    told, page = waits('locks = ["READ a"]\n', "")
    yield "none waits where all read", not told and page.data["locks"] == ["a"]


def of_plans(extrun):
    ids = [f"[test:{number}]" for number in range(1000)]
    plan = "".join(f'[[node]]\nid = "[engine:x]{it}"\n' + ("test = []\nmode = \"concurrent\"\n" if it else "") for it in ["", *(f"/{it}" for it in ids)])
    page = Page(extrun, ["run", "--lanes", "4", "--large"], plan)
    yield "of a plan of 1,000 tests, too", page.status == 0 and page.is_whole() and page.is_in_order() and page.ids()[1:] == [f"[engine:x]/{it}" for it in ids]
    yield "in less than 200 kB", len(page.text) < 200_000
    yield "which says that it has no values, and has no locks where there are none", "not shown" in page.data["run"]["note"] and page.data["locks"] == page.data["waits"] == []
    step = json.dumps("fail " + HOSTILE.replace(" ", "_"), ensure_ascii=False).replace("\x7f", "\\u007F")
    page = Page(extrun, ["run", "--store", "plain"], f'[[node]]\nid = "[engine:x]"\ntest = [{step}]\n')
    yield "texts that look like HTML stay texts", page.is_whole() and [it[1:] for it in page.data["faults"]] == [[1, "test, step 0", HOSTILE.replace(" ", "_")]]


def clicked(page, text, card):
    """What chromium shows of a page, what is told of clicks there, which look for a text and for one in the first card, and what is wrong; none where there is no chromium."""
    browser = next(filter(None, map(shutil.which, ["chromium", "chromium-headless-shell", "google-chrome"])), None)
    if not browser:
        print("in a browser: skipped, since there is no chromium")
        return None
    with tempfile.TemporaryDirectory() as folder:
        file = pathlib.Path(folder) / "clicks.html"
        script = CLICKS.replace("TEXT", text).replace("CARD", card)
        file.write_text(page.replace("</body>", f"{script}</body>"), encoding="utf-8")
        words = ["--headless", "--no-sandbox", "--disable-gpu", f"--user-data-dir={folder}/user", "--virtual-time-budget=5000", "--enable-logging=stderr", "--dump-dom"]
        ran = subprocess.run([browser, *words, file.as_uri()], capture_output=True, text=True, timeout=120)
    shown = re.sub(r"<[^>]*>", " ", ran.stdout.partition("<body")[2].partition("<script")[0])
    found = re.search('<pre id="clicked">(.*?)</pre>', ran.stdout)
    return " ".join(shown.split()), re.sub(r"(?<=\d)\s(?=\d)", "", found[1]) if found else "", "CONSOLE" in ran.stderr


def of_many(extrun):
    """What chromium shows of a plan of 65,000 tests, as if only lanes 1 and 3 had run some."""
    nodes = ['[[node]]\nid = "[engine:x]"\n']
    for place in range(130):
        nodes.append(f'[[node]]\nid = "[engine:x]/[class:{place}]"\n')
        nodes += [f'[[node]]\nid = "[engine:x]/[class:{place}]/[test:{it}]"\ntest = [{json.dumps("abort no") if it == 7 else ""}]\n' for it in range(500)]
    page = Page(extrun, ["run", "--lanes", "4", "--large"], "".join(nodes))
    for row in page.data["attempts"]:
        row[1] = 1 + row[0] % 2 * 2
    seen = clicked(page.text.replace(page.json, json.dumps(page.data)), "[TEST:77]", "[class:0]")
    if seen:
        yield "65,000 tests are filtered, folded and pointed at in a browser", seen[1] == "130 of 65000 tests; 101; 130 of 65000 tests; 101; 65000 tests; true; false; true; lane 1; lane 3; none; true"
        yield "without an error, in less than 4 MB", not seen[2] and len(page.text) < 4_000_000


def in_browser(program):
    """What chromium shows of the page of an engine."""
    seen = clicked(Page(program, ["Failing", "--lanes", "1"]).text, "BOTH", "[test:lines]")
    if seen:
        yield "in a browser it shows what failed", all(it in seen[0] for it in ["2 failed", "1 aborted", "1 passed", "wanted &lt;sum&gt; 7, got:"])
        yield "its tests are filtered, folded and pointed at", seen[1] == "1 of 4 tests; 3; 1 of 4 tests; 3; 4 tests; true; false; true; lane 0; lane 0; none; true"
        yield "without an error", not seen[2]


def told(part):
    """The cases of a part. One fails where they end by an error."""
    try:
        yield from part
    except (ArithmeticError, AttributeError, LookupError, OSError, TypeError, ValueError, subprocess.SubprocessError) as fault:
        yield f"all is there that is looked at ({fault!r})", False


def main(program, _words):
    is_trial, parts = pathlib.Path(program).name == "trial_engine", []
    if not is_trial:
        parts += [of_plans(program), of_locks(program), of_many(program)]
    if is_trial or pathlib.Path(program) == TOP / "crates/extrun/out/extrun":
        trial = program if is_trial else PROVED
        parts += [of_all(trial), of_waits(trial), of_attempts(trial), of_course(trial), in_browser(trial)]
    passed = failed = 0
    for case, is_right in itertools.chain.from_iterable(map(told, parts)):
        passed, failed = passed + bool(is_right), failed + (not is_right)
        print(f"page, {case}: " + ("as it has to be" if is_right else "NOT as it has to be"), flush=True)
    return passed, failed
