"""Follows docs/GUIDE.md in a folder of its own, and compares the code of the documents with that of the tests, line by line.

Above each block of code, but for those of commands (sh), and of Java where they are JUnit's own calls, stands a line such as '<!-- code: crates/NAME/src/guide.rt -->'. The lines of the
block stand in that file, in order and together, up to the indentation of all of them. Or it is '<!-- file: src/NAME.rt -->', in the guide alone: the block is the next part of this file of the guide's crate, my_engine. The
files that the blocks make are those of crates/test_guide, but for its name, the line of crates.txt and src/lib.rt. The plan that `extrun --help` shows, and its report, are those of
examples/server.

Then the guide's commands are run in an empty folder, its files are written there, and the crate's tests are run by `rt try --test`, unproved. With --texts nothing is run. With
--prove they are run by `rt test`, which proves the crate, and the libraries below it where no check on this machine has kept their proofs.
"""
import pathlib
import re
import subprocess
import tempfile

TOP = pathlib.Path(__file__).resolve().parent.parent.parent
GUIDE = "docs/GUIDE.md"
PAGES = [GUIDE, "docs/JUNIT.md", "docs/RECIPES.md", "bindings/README.md"]
COMMANDS = "sh"
OTHERS = [COMMANDS, "java"]
HELP = "examples/cases/help.report"
HELP_BLOCKS = ["examples/server.toml", "examples/server.report"]
MARKER = re.compile(r"<!-- (code|file): (\S+) -->")
CRATE = "my_engine"
PROVED = "test_guide"
OWN_FILES = ["crates.txt", "src/lib.rt"]
PASSED = re.compile(r"test result: ok\. (\d+) passed; 0 failed")


def dedented(lines):
    """The lines without the indentation that all of them have, and without spaces at their ends."""
    indents = [len(it) - len(it.lstrip()) for it in lines if it.strip()]
    return [it[min(indents, default=0) :].rstrip() for it in lines]


def stands_in(block, source):
    """Whether the lines of the block stand in those of the source, in order and together."""
    wanted = dedented(block)
    starts = range(len(source) - len(block) + 1)
    return any(dedented(source[it : it + len(block)]) == wanted for it in starts)


def blocks_of(lines):
    """Each block of code: the number of its first line, its language, the marker above it and its lines."""
    start = None
    for number, line in enumerate(lines):
        if not line.startswith("```"):
            continue
        if start is None:
            start = number
        else:
            yield start + 1, lines[start][3:], lines[start - 1], lines[start + 1 : number]
            start = None


def lines_of(path):
    return (TOP / path).read_text(encoding="utf-8").splitlines()


def fault_of(page, marker, block):
    """What is wrong with a block of code, or None."""
    found = MARKER.fullmatch(marker)
    if not found:
        return "has no line above it that names its source"
    if not any(it.strip() for it in block):
        return "is empty"
    if found[1] == "file":
        return None if page == GUIDE else "names a file of the guide's crate"
    if not (TOP / found[2]).is_file():
        return f"names a source that is not there, {found[2]}"
    if not stands_in(block, lines_of(found[2])):
        return f"is no code of {found[2]}"
    return None


def files_of(blocks):
    """The files of the guide's crate that the blocks make, each with its text."""
    files = {}
    for _number, _language, marker, block in blocks:
        found = MARKER.fullmatch(marker)
        if found and found[1] == "file":
            files.setdefault(found[2], []).append("\n".join(block) + "\n")
    return {path: "\n".join(parts) for path, parts in files.items()}


def without_what_is_tested(text):
    """A file without the lines above its tests that name the calls they test, which are for scripts/promises."""
    return re.sub(r"^/// Tests `[^#]*(?=#\[test\])", "", text, flags=re.M)


def faults_of_files(files):
    """Which files of the guide's crate are not those that are proved."""
    for path, text in files.items():
        proved = TOP / "crates" / PROVED / path
        if path in OWN_FILES:
            continue
        if not proved.is_file() or without_what_is_tested(proved.read_text(encoding="utf-8")) != text.replace(CRATE, PROVED):
            yield f"{path} of the guide is not that of crates/{PROVED}"


def follow(folder, commands, files):
    """Runs the guide's commands in the folder, and writes its files; of crates.txt it replaces the crate's line."""
    script = "\n".join(commands).replace("STORE", str(TOP))
    subprocess.run(["bash", "-ec", script], cwd=folder, check=True, stdout=subprocess.DEVNULL)
    for path, text in files.items():
        at = folder / path if path == "crates.txt" else folder / "crates" / CRATE / path
        at.parent.mkdir(parents=True, exist_ok=True)
        if path == "crates.txt":
            text = re.sub(rf"(?m)^{CRATE}:.*\n", lambda _: text, at.read_text(encoding="utf-8"))
        at.write_text(text, encoding="utf-8")


def tests_passed(commands, files, proving):
    """How many tests of the guide's crate passed, and what was printed."""
    with tempfile.TemporaryDirectory(prefix="guide-") as name:
        folder = pathlib.Path(name) / "repository"
        folder.mkdir()
        follow(folder, commands, files)
        words = ["rt", "test"] if proving else ["rt", "try", "--test"]
        ran = subprocess.run(words, cwd=folder / "crates" / CRATE, capture_output=True, text=True)
        found = PASSED.search(ran.stdout + ran.stderr)
        passed = int(found[1]) if found and ran.returncode == 0 else 0
        return passed, ran.stdout + ran.stderr


def main(_program, words):
    count, faults, files = 0, [], {}
    for page in PAGES:
        blocks = [it for it in blocks_of(lines_of(page)) if it[1] not in OTHERS or MARKER.fullmatch(it[2])]
        count += len(blocks)
        for number, _language, marker, block in blocks:
            fault = fault_of(page, marker, block)
            if fault:
                faults.append(f"{page}, line {number}: the block {fault}")
        if not blocks:
            faults.append(f"{page} has no block of code")
        if page == GUIDE:
            files = files_of(blocks)
    faults += faults_of_files(files)
    for path in HELP_BLOCKS:
        if not stands_in(lines_of(path), lines_of(HELP)):
            faults.append(f"{HELP} does not show {path}")
    if not faults and words != ["--texts"]:
        commands = next(it[3] for it in blocks_of(lines_of(GUIDE)) if it[1] == COMMANDS)
        passed, said = tests_passed(commands, files, words == ["--prove"])
        if passed == 0:
            faults.append(f"the tests of {CRATE} do not pass:\n{said}")
        else:
            print(f"guide: {passed} tests of {CRATE} pass, {'proved' if words else 'unproved'}")
    for fault in faults:
        print(f"guide: {fault}")
    if not faults:
        print(f"guide: all {count} blocks are code of the tests")
    return (0, 1) if faults else (1, 0)
