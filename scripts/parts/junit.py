"""Runs the program with `--report junit` on each plan of examples/cases/rows and examples/cases/outside and on examples/cases/junit.toml, as a plain run, and reads what it
writes with Python's own XML parser. Each suite and each case has to be what the same run says in JSON, with the same message, and the numbers of cases its totals
there: a container that failed or aborted itself is one case more. The totals in JSON have to be those of the report's text. Prints a line for each plan.

The files of `--junit` and `--json` have to be those reports with times: of each node that ran in JSON, and the same of each case of a test in XML. One that cannot be
written is told, once the report and the other file are written.

Attempts no plan has. A report that has them stands in crates/test_runs/src/timed.rt, whose test makes sure that it is written so: it is read here by the same parser,
and has to have the times and attempts that the engine knew, as TIMED has them, in milliseconds.
"""
import json
import pathlib
import re
import subprocess
import tempfile
import urllib.parse
import xml.etree.ElementTree

TOP = pathlib.Path(__file__).resolve().parent.parent.parent

# What no document of XML 1.0 has.
FORBIDDEN = re.compile("[\0-\x08\x0b\x0c\x0e-\x1f\ufffe\uffff]")

ELEMENTS = {"failed": "failure", "aborted": "skipped", "skipped": "skipped", "successful": None}
TYPES = {"failure": "failed", "skipped": None}

TIMED_REPORT = TOP / "crates" / "test_runs" / "src" / "timed.rt"
# Of each element what is known of its node: the time, and the message and the text of each attempt that failed before one passed. A container's own case has no time.
TIMED = [
    ("testsuites", None, 3_661_999, []),
    ("testsuite", "A", 1304, []),
    ("testcase", "a()", 1234, [("not <yet>", "not <yet>\nno"), ("failed at attempt 2", None)]),
    ("testcase", "b()", 70, []),
    ("testcase", "c()", None, []),
    ("testsuite", "B", 2005, []),
    ("testcase", "B", None, []),
    ("testcase", "d()", None, []),
]


def written(program, form, plan):
    """What a plain run of the plan writes in this form."""
    ran = subprocess.run([program, "run", "--store", "plain", "--brief", "--report", form], input=plan, capture_output=True, timeout=120)
    if ran.returncode not in (0, 1) or ran.stderr:
        raise ValueError(f"status {ran.returncode}: {ran.stderr[:1000].decode(errors='replace')}")
    return ran.stdout


def written_beside(program, plan, folder):
    """The text that a plain run of the plan writes, and the two files beside it: XML and JSON."""
    files = [folder / name for name in ("report.xml", "report.json")]
    ran = subprocess.run([program, "run", "--store", "plain", "--brief", "--report", "text", "--junit", files[0], "--json", files[1]], input=plan, capture_output=True, timeout=120)
    if ran.returncode not in (0, 1) or ran.stderr:
        raise ValueError(f"status {ran.returncode}: {ran.stderr[:1000].decode(errors='replace')}")
    return ran.stdout, *(file.read_bytes() for file in files)


def values_of(id):
    """The values of an id's segments, decoded."""
    return [urllib.parse.unquote(segment[1:-1].split(":")[1]) for segment in id.split("/")]


def class_of(id):
    """The class that an id names: the values below the engine, joined by dots, or the engine's own."""
    engine, *below = values_of(id)
    return ".".join(below or [engine])


def suite_of(node):
    """The id of the suite in which a node is a case, if it is one."""
    above = node["id"].rpartition("/")[0]
    if node["test"] and above:
        return above
    if node["test"] or node["status"] in ("failed", "aborted"):
        return node["id"]
    return None


def told_of(node):
    """The element of a node's case, its message and its text."""
    if node["fault"] is None or node["status"] == "successful":
        return ELEMENTS[node["status"]], None, None
    further = f"\n(+{node['more']})" if node["more"] else ""
    return ELEMENTS[node["status"]], node["fault"].split("\n")[0], node["fault"] + further


def suites_of(nodes):
    """The suites that the nodes make, in the order of the plan, each with its cases."""
    suites = {node["id"]: [] for node in nodes}
    for node in nodes:
        suite = suite_of(node)
        if suite:
            case = (values_of(node["id"])[-1], *told_of(node))
            suites[suite].append(tuple(text and FORBIDDEN.sub("\ufffd", text) for text in case))
    return [(FORBIDDEN.sub("\ufffd", class_of(id)), cases) for id, cases in suites.items() if cases]


def case_in(suite, element):
    """A case of a suite as it is read: its name, and its element with a message and a text."""
    if element.tag != "testcase" or set(element.attrib) != {"classname", "name"} or element.get("classname") != suite or len(element) > 1:
        raise ValueError(f"a case of {suite} is {element.tag} {element.attrib}")
    for told in element:
        if told.get("type") != TYPES[told.tag]:
            raise ValueError(f"a case of {suite} has {told.tag} {told.attrib}")
        return element.get("name"), told.tag, told.get("message"), told.text
    return element.get("name"), None, None, None


def counted(cases):
    """The counts of cases, as attributes."""
    tags = [tag for _, tag, _, _ in cases]
    return {"tests": str(len(tags)), "failures": str(tags.count("failure")), "errors": "0", "skipped": str(tags.count("skipped"))}


def suites_in(root):
    """The suites that are read, whose counts are those of their cases."""
    suites = [(suite.get("name"), [case_in(suite.get("name"), case) for case in suite]) for suite in root]
    for element, (name, cases) in zip(root, suites):
        if element.tag != "testsuite" or element.attrib != {"name": name, **counted(cases)}:
            raise ValueError(f"a suite is {element.tag} {element.attrib}")
    if root.tag != "testsuites" or root.attrib != counted([case for _, cases in suites for case in cases]):
        raise ValueError(f"the root is {root.tag} {root.attrib}")
    return suites


def totals_in(text):
    """The totals of the text, by their names in JSON."""
    lines = b" ".join(text.splitlines()[-2:]).replace(b"close faults", b"close_faults")
    return {name.decode(): int(number) for name, number in re.findall(rb"(\w+) (\d+)", lines)}


def cases_by(nodes, totals):
    """The counts of all cases by the totals, and the containers that are cases."""
    own = [node["status"] for node in nodes if not node["test"]]
    failed, aborted = own.count("failed"), own.count("aborted")
    return {
        "tests": str(totals["tests"] + failed + aborted),
        "failures": str(totals["failed"] + failed),
        "errors": "0",
        "skipped": str(totals["aborted"] + totals["skipped"] + aborted),
    }


def without_times(element):
    """The element and those in it without their times, as text."""
    for each in element.iter():
        each.attrib.pop("time", None)
    return xml.etree.ElementTree.tostring(element)


def check_times(root, nodes, timed_root, timed_nodes):
    """Compares the report with the files that have times beside it."""
    for node in timed_nodes:
        if (node["status"] == "skipped") == ("millis" in node):
            raise ValueError(f"of its time {node} tells")
    millis = {}
    for node in timed_nodes:
        if node["test"]:
            millis.setdefault((class_of(suite_of(node)), values_of(node["id"])[-1]), []).append(node.get("millis"))
    for case in timed_root.iter("testcase"):
        time, known = case.get("time"), millis.get((case.get("classname"), case.get("name")))
        if known and known.pop(0) != (time and round(float(time) * 1000)):
            raise ValueError(f"a case is {case.attrib}, and in JSON it took another time")
    if not all("time" in it.attrib for it in timed_root.iter() if it.tag in ("testsuite", "testsuites")):
        raise ValueError("a suite has no time")
    if [{name: it for name, it in node.items() if name != "millis"} for node in timed_nodes] != nodes or without_times(timed_root) != without_times(root):
        raise ValueError("a file is not the report with times")


def check(program, plan):
    """Compares the forms of the plan's report, and says how many cases there are."""
    root = xml.etree.ElementTree.fromstring(written(program, "junit", plan))
    *nodes, last = [json.loads(line) for line in written(program, "json", plan).split(b"\n")[:-1]]
    suites, wanted = suites_in(root), suites_of(nodes)
    if suites != wanted:
        raise ValueError(f"the suites are {suites} and not {wanted}")
    with tempfile.TemporaryDirectory() as folder:
        text, xml_file, json_file = written_beside(program, plan, pathlib.Path(folder))
    totals = totals_in(text)
    *timed, timed_last = [json.loads(line) for line in json_file.split(b"\n")[:-1]]
    check_times(root, nodes, xml.etree.ElementTree.fromstring(xml_file), timed)
    if not last == timed_last == {"version": 1, "totals": totals}:
        raise ValueError(f"the last line is {last}, and the totals are {totals}")
    counts = cases_by(nodes, totals)
    if root.attrib != counts:
        raise ValueError(f"the totals are {root.attrib} and not {counts}")
    return sum(len(cases) for _, cases in suites)


def timed_elements():
    """The elements of the report with times that may have one: tag, name, milliseconds, and the attempts of which it tells."""
    text = re.search(r'IN_XML: &str = r#"(.*?)"#;', TIMED_REPORT.read_text(encoding="utf-8"), re.DOTALL)[1]
    for element in xml.etree.ElementTree.fromstring(text).iter():
        if element.tag not in ("testsuites", "testsuite", "testcase"):
            continue
        told = [(it.get("message"), it.findtext("stackTrace")) for it in element.findall("flakyFailure[@type='failed']")]
        time = element.get("time")
        yield element.tag, element.get("name"), time and round(float(time) * 1000), told


def check_timed():
    """Compares the report with times with what the engine knew."""
    read = list(timed_elements())
    if read != TIMED:
        raise ValueError(f"what is told is {read} and not {TIMED}")
    return len(read)


def check_unwritten(program, name):
    """Runs a plan whose report cannot be written to one of the files, and then to none, and says how many files are written."""
    plan, count = (TOP / "examples" / name).read_bytes(), 0
    report = written(program, "text", plan)
    with tempfile.TemporaryDirectory() as folder:
        for names in ("none/a.xml", "b.json"), ("c.xml", "none/d.json"), ("none/e.xml", "none/f.json"):
            files = [f"{folder}/{name}" for name in names]
            ran = subprocess.run([program, "run", "--store", "plain", "--junit", files[0], "--json", files[1]], input=plan, capture_output=True, timeout=120)
            told = "".join(f'write failed: "{it}": No such file or directory (os error 2)\n' for it in files if "none" in it)
            if (ran.returncode, ran.stdout, ran.stderr.decode()) != (3, report, told):
                raise ValueError(f"status {ran.returncode} and {ran.stderr} where {names} cannot be written whole")
            count += sum(pathlib.Path(it).stat().st_size > 0 for it in files if "none" not in it)
    return count


def is_right(name, what, count):
    """Whether these can be counted; prints how many there are, or why not."""
    try:
        print(f"{name}: {count()} {what}")
        return True
    except (ValueError, OSError, xml.etree.ElementTree.ParseError) as fault:
        print(f"{name}: NOT as it has to be: {fault}")
        return False


def main(program, _words):
    files = [TOP / "examples/cases/junit.toml", *sorted((TOP / "examples/cases/rows").glob("*.toml")), *sorted((TOP / "examples/cases/outside").glob("*.toml"))]
    right = [is_right("times and attempts", "times and attempts in XML", check_timed)]
    right += [is_right(f"unwritten beside {name}", "files are", lambda: check_unwritten(program, name)) for name in ("server.toml", "cases/junit.toml")]  # noqa: B023
    right += [is_right(f"{file.parent.name}/{file.stem}", "cases in XML", lambda: check(program, file.read_bytes())) for file in files]  # noqa: B023
    return sum(right), len(right) - sum(right)
