"""Runs the proved program with `--large` on plans that are made here: at its limits of nodes, bytes and numbers, one past each, and a plan that is refused
without the word. What has to come out is written here, by docs/PLANS.md. Prints a line for each case.
"""
import xml.etree.ElementTree

from parts.refused import CHAIN_IDS, ROOT, Cases, failed_last, flat, nodes_of, nodes_report, numbers_full, puts

LIMIT = 67_108_864

# In how many seconds a form of thousands of tests has to be written.
SECONDS = 30


def tests(count):
    """A plan of a root and so many tests that may run beside one another."""
    head = '[[node]]\nid = "[a:b]"\n'
    return head + "".join(
        f'[[node]]\nid = "[a:b]/[c:{number}]"\nmode = "concurrent"\ntest = ["put a x", "want a x", "compute b y up 1"]\n' for number in range(1, count + 1)
    )


def tests_report(count):
    """The report of such a plan: the value below the root is computed once."""
    report = nodes_report(flat(count + 1), count)
    return report.replace("computed 0 found 0", f"computed 1 found {count - 1}")


def class_tests(classes, tests):
    """The classes and then, class by class in turn, their tests: the ids of each, with the steps of each test. Of a class's tests the first fails and the second aborts."""
    steps = ["fail why"], ["abort no"]
    above = [f"[a:b]/[c:{at}]" for at in range(classes)]
    return above, [(f"{id}/[t:{test}]", steps[test] if test < 2 else []) for test in range(tests) for id in above]


def classes_plan(classes, tests):
    """A plan of such classes, each of which fails when it ends."""
    above, below = class_tests(classes, tests)
    plan = ROOT + "".join(f'[[node]]\nid = "{id}"\nafter_all = [["fail late"]]\n' for id in above)
    return plan + "".join(f'[[node]]\nid = "{id}"\ntest = [{", ".join(f"{step!r}" for step in steps)}]\n' for id, steps in below)


def told_once_more(classes, tests):
    """What --failures says of such a plan."""
    above, below = class_tests(classes, tests)
    lines = [f"{id}: late (after_all 0, step 0)" for id in above] + [f"{id}: {steps[0].split()[1]} (test, step 0)" for id, steps in below if steps]
    return "".join(f"{line}\n" for line in lines)


def suites_as_they_are(text, classes, tests):
    """Whether a report in JUnit's XML has the suites of such a plan, with their cases in order."""
    told = xml.etree.ElementTree.fromstring(text)
    names = [str(test) for test in range(tests)]
    counts = {"tests": tests + 1, "failures": 2, "errors": 0, "skipped": 1}
    all_of = {name: str(classes * count) for name, count in counts.items()}
    each = {name: str(count) for name, count in counts.items()}
    return told.attrib == all_of and [(it.attrib, [case.get("name") for case in it]) for it in told] == [({"name": str(at), **each}, [str(at), *names]) for at in range(classes)]


def forms(cases, classes, tests):
    """The same run in forms that must not take longer the more suites and faults there are."""
    plan = classes_plan(classes, tests)
    ran = cases.ran(["run", "--large", "--failures", "--report", "junit"], plan, SECONDS)
    right = [ran.returncode == 1, suites_as_they_are(ran.stdout, classes, tests), ran.stderr.decode() == told_once_more(classes, tests)]
    name = f"{classes * tests} tests in {classes} classes, in JUnit's XML and told once more"
    print(f"case {name}: {'as they are' if all(right) else f'NOT as it has to be: {right}'}")
    cases.passed, cases.failed = cases.passed + all(right), cases.failed + (not all(right))


def one_place(count, steps, mode="concurrent", above=""):
    """A plan of so many tests with these steps below the root, or below a class with these fields."""
    id = "[a:b]/[d:e]" if above else "[a:b]"
    plan = ROOT + (f'[[node]]\nid = "{id}"\n{above}' if above else "")
    return plan + "".join(f'[[node]]\nid = "{id}/[c:{number}]"\nmode = "{mode}"\ntest = {steps}\n' for number in range(1, count + 1))


def races(cases):
    """Checks for races that must not take longer the more tests touch one place."""
    alike = one_place(65_534, ["compute a x up 1", "want a x"])
    other = '[[node]]\nid = "[a:b]/[c:65535]"\nmode = "concurrent"\ntest = ["compute a y up 1"]\n'
    pairs = "".join(f"compute a of [a:b]/[c:{number}] and compute a of [a:b]/[c:65535] in [a:b]\n" for number in range(1, 21))
    a_class = 'mode = "concurrent"\nafter_all = [["remove a"]]\n'
    one, near = "no races: one report\n", "no races: one report but for computed and found\n"
    plans = {
        "compute the same at one place": (alike + other.replace("a y", "a x"), near),
        "compute there, one after another": (one_place(65_535, ["compute a x up 1"], "same_thread"), one),
        "compute there, one of them something else": (alike + other, f"{pairs}and more\n"),
        "change one place, one after another": (one_place(65_535, ["put a x up 1"], "same_thread"), one),
        "do so in a class beside others": (one_place(65_534, ["put a x up 1"], "same_thread", 'mode = "concurrent"\n'), one),
        "compute in a class that removes at its end": (one_place(65_534, ["compute a x up 1"], above=a_class), near),
        "put at one place": (one_place(65_535, ["put a x up 1"]), "".join(f"put a of [a:b]/[c:1] and put a of [a:b]/[c:{number}] in [a:b]\n" for number in range(2, 22)) + "and more\n"),
    }
    for name, (plan, wanted) in plans.items():
        ran = cases.ran(["check", "--large", "--races"], plan, SECONDS)
        right = (ran.returncode, ran.stdout, ran.stderr) == (wanted not in (one, near), wanted.encode(), b"")
        print(f"case tests that {name}: {'as it has to be' if right else f'NOT as it has to be: {ran.stdout[:200]}'}")
        cases.passed, cases.failed = cases.passed + right, cases.failed + (not right)


def notes(cases):
    """Notes that must not take longer the more texts one key has: each test wants its own text, and one that none stores, which is told once."""
    plan = ROOT + "".join(f'[[node]]\nid = "[a:b]/[c:{number}]"\ntest = ["put a text{number}", "want a text{number}", "want a gone"]\n' for number in range(1, 65_536))
    wanted = "[a:b]/[c:1]: step 2 of its test, want a gone: no step stores gone under a\n"
    ran = cases.ran(["check", "--large", "--lint"], plan, SECONDS)
    right = (ran.returncode, ran.stdout, ran.stderr) == (1, wanted.encode(), b"")
    print(f"case 65,535 texts of one key, noted: {'as it has to be' if right else f'NOT as it has to be: {ran.stdout[:200]}'}")
    cases.passed, cases.failed = cases.passed + right, cases.failed + (not right)


def filled(plan, count):
    """The plan with a comment behind it, so that it has so many bytes."""
    return plan + "#" * (count - len(plan))


def main(program, _words):
    cases = Cases(program)
    both = [["--large"], ["--large", "--store", "plain"]]
    few = nodes_of(flat(257))
    cases.run("257 nodes, without the word", ["run"], few, "plan: P7")
    counts = "ok, 257 nodes, 0 tests, 0 of 64 keys\n"
    for words, wanted in [(["run"], nodes_report(flat(257))), (["check"], counts), (["check", "--races"], "no races: one report\n")]:
        cases.run(f"257 nodes, {' '.join(words)}", [*words, "--large"], few, wanted)
    drawing = "a:b\n" + "".join(f"  c:{number}\n" for number in range(1, 257))
    cases.run("257 nodes, drawn", ["check", "--large", "--tree"], few, drawing)
    failing = few + 'test = ["fail why"]\n'
    cases.run("257 nodes, the last fails", ["run", "--large", "--failures"], failing, failed_last(flat(257), "why"), "[a:b]/[c:256]: why (test, step 0)\n")
    most = tests(65_535)
    for words in both:
        cases.run(f"65,536 nodes, {' '.join(words)}", ["run", *words], most, tests_report(65_535))
    repeated = '[[node]]\nid = "[a:b]"\nmode = "concurrent"\ntest = ["put a x", "want a x", "compute b y up 1"]\nrepeat = 65535\n'
    ids = ["[a:b]"] + [f"[a:b]/[test-template-invocation:#{number}]" for number in range(1, 65_536)]
    for words in [*both, ["--large", "--lanes", "1"], ["--large", "--lanes", "16"]]:
        cases.run(f"a test 65,535 times, {' '.join(words)}", ["run", *words], repeated, nodes_report(ids, 65_535).replace("computed 0 found 0", "computed 1 found 65534"))
    cases.run("a test 65,535 times, and another", ["run", "--large"], repeated + '[[node]]\nid = "[a:b]/[c:d]"\n', "plan: P7")
    cases.run("67,108,864 bytes", ["check", "--large"], filled(most, LIMIT), "ok, 65536 nodes, 65535 tests, 2 of 64 keys\n")
    cases.run("67,108,865 bytes", ["check", "--large"], filled(most, LIMIT + 1), "plan too long")
    cases.run("65,537 nodes", ["run", "--large"], tests(65_536), "plan: P7")
    cases.run("1,048,577 bytes", ["run", "--large"], filled(ROOT, 1_048_577), nodes_report(["[a:b]"]))
    for words in both:
        cases.run(f"65,536 numbers, {' '.join(words)}", ["run", *words], puts(65_536), nodes_report(CHAIN_IDS, 1))
        cases.run(f"1,048,575 numbers, {' '.join(words)}", ["run", *words], puts(1_048_575), nodes_report(CHAIN_IDS, 1))
        cases.run(f"1,048,576 puts, {' '.join(words)}", ["run", *words], puts(1_048_576), numbers_full("put a"))
    forms(cases, 250, 250)
    forms(cases, 20_000, 2)
    races(cases)
    notes(cases)
    return cases.passed, cases.failed
