"""Runs the program with `--explain` on plans with mistakes that people make, and compares what it says with what helps them.

The plans stand in examples/cases/mistakes.txt: behind a line `# TITLE` each, and behind it, after `> `, the lines that the program has to write to standard output and
then to standard error. Those that are no text, or are too long for a file, are written here. Prints a line for each case.
"""
import pathlib
import subprocess

TOP = pathlib.Path(__file__).resolve().parent.parent.parent

ROOT = '[[node]]\nid = "[engine:x]"\n'

TESTS = "".join(f'[[node]]\nid = "[engine:x]/[test:{number}]"\ntest = []\n' for number in range(256))

DEEP = "".join(f'[[node]]\nid = "{"/".join(["[a:b]"] * depth)}"\n' for depth in range(1, 18))

NAMES = ", ".join(f'"none k{number}"' for number in range(65))

FULL = "the plan: its steps name 65 different keys, and there are places for 64. Write keys = 65 at the top of the plan"

NO_KEY = "invalid key, expected letters, numbers, `-`, `_` or a quoted key"

LABELS = "".join(f'[[key]]\nlabel = "k{number}"\n' for number in range(65))

# Plans that are made, with the lines that have to come out and further words.
MADE = [
    ("letters in Latin-1", ROOT.replace("x", "\xe9").encode("latin1"), ["plan: P1", "the plan: it is no UTF-8 at byte 23, in line 2"]),
    ("UTF-16", ROOT.encode("utf-16"), ["plan: P1", "the plan: it is no UTF-8 at byte 0, in line 1: it begins as UTF-16 does"]),
    (
        "bytes 0",
        b"\0" * 9,
        ["plan: P2", f"the plan: it is no TOML in line 1, column 1: {NO_KEY}: the character NUL stands there"],
    ),
    (
        "line ends of carriage returns alone",
        ROOT.replace("\n", "\r"),
        ["plan: P2", f"the plan: it is no TOML in line 1, column 9: {NO_KEY}: a carriage return stands alone there, and a line ends with a line feed"],
    ),
    (
        "two files with byte order marks in one",
        "\ufeff" + ROOT + "\ufeff" + ROOT.replace("x", "y"),
        ["plan: P2", f"the plan: it is no TOML in line 3, column 1: {NO_KEY}: a byte order mark stands there, as between two files that were joined"],
    ),
    (
        "a byte order mark before a colon",
        "\ufeffkeys: 5\n" + ROOT,
        ["plan: P2", "the plan: it is no TOML in line 1, column 5: key with no value, expected `=`: behind a name stands =, and no colon"],
    ),
    (
        "a byte order mark in a step",
        ROOT + 'test = ["\ufeffnone db"]\n',
        [
            "plan: P8 node 0",
            'node 0: step 0 of its test, "\\u{feff}none db", has a byte order mark, and is none of the steps. '
            'The steps are put, put!, want, none, remove, compute, compute!, computefail, fail, abort ("[engine:x]", line 3)',
        ],
    ),
    (
        "a byte order mark in an id",
        ROOT.replace("[engine", "\ufeff[engine"),
        ["plan: P6 node 0", 'node 0: id: I2 at 0 in "\\u{feff}[engine:x]": a segment begins with `[`. It has a byte order mark (line 2)'],
    ),
    (
        "a space that does not break",
        ROOT + 'test = ["want\u00a0db up"]\n',
        [
            "plan: P8 node 0",
            'node 0: step 0 of its test, "want\\u{a0}db up", has a white character that is no space, and is none of the steps. '
            'The steps are put, put!, want, none, remove, compute, compute!, computefail, fail, abort ("[engine:x]", line 3)',
        ],
    ),
    (
        "a node too many",
        ROOT + TESTS,
        ["plan: P7", "the plan: it has 257 nodes, more than 256. With the word --large a plan may have 65536"],
    ),
    (
        "a segment too many",
        DEEP,
        ["plan: P6 node 16", f'node 16: id: I8 in "{"/".join(["[a:b]"] * 17)}": it has more than 16 segments (line 34)'],
    ),
    (
        "a key too many in tables",
        LABELS + ROOT,
        [
            "plan: P11",
            "the plan: it declares more than 64 different keys: key 64 is one too many. "
            "Write keys = N at the top of the plan, with N up to 1024 (line 130)",
        ],
    ),
    (
        "a key too many in steps",
        ROOT + f"test = [{NAMES}]\n",
        [
            "[engine:x] failed closed 0: none k64: directory full",
            "tests 1 successful 0 aborted 0 failed 1 skipped 0",
            "computed 0 found 0 closed 0 close faults 0",
            FULL,
        ],
    ),
    (
        "a key too many in a large plan",
        ROOT + f"before_all = [[{NAMES}]]\n" + TESTS,
        [
            "[engine:x] failed closed 0: none k64: directory full",
            *(f"[engine:x]/[test:{number}] skipped closed 0" for number in range(256)),
            "tests 256 successful 0 aborted 0 failed 0 skipped 256",
            "computed 0 found 0 closed 0 close faults 0",
            FULL,
        ],
        "--large",
    ),
    (
        "a byte too many",
        ROOT + "#" * (1_048_577 - len(ROOT)),
        [
            "plan too long",
            "the plan: standard input has more than 1048576 bytes. With the word --large a plan may have 67108864",
        ],
    ),
]


def written():
    """The plans of the file."""
    title, plan, lines = None, "", []
    for line in (TOP / "examples" / "cases" / "mistakes.txt").read_text(encoding="utf-8").splitlines():
        if line.startswith("# ") and (title is None or lines):
            if title is not None:
                yield title, plan, lines
            title, plan, lines = line[2:], "", []
        elif line.startswith("> "):
            lines.append(line[2:])
        elif not lines:
            plan += line + "\n"
    yield title, plan, lines


def main(program, _words):
    passed = failed = 0
    for title, plan, lines, *words in [*written(), *MADE]:
        bytes_of = plan if isinstance(plan, bytes) else plan.encode()
        ran = subprocess.run([program, "run", "--explain", *words], input=bytes_of, capture_output=True, timeout=120)
        status = 2 if lines[0].startswith("plan") else 1 if " failed closed " in lines[0] else 0
        right = (ran.returncode, (ran.stdout + ran.stderr).decode()) == (status, "".join(f"{line}\n" for line in lines))
        passed, failed = passed + right, failed + (not right)
        said = "" if right else f": status {ran.returncode}: {(ran.stdout + ran.stderr).decode(errors='replace')}"
        print(f"mistake {title}: " + ("as it has to be" if right else "NOT as it has to be") + said)
    return passed, failed
